"""Attributes as columns: how their values are shown, and how typed values are parsed."""

from __future__ import annotations

import re
import time
from datetime import datetime
from typing import Callable, Dict, Iterable, List, Literal, Mapping, NamedTuple, Optional

import bestore
from bestore.values import RANGES

from . import dates, mime_types

TYPE = "BEOS:TYPE"
"""The attribute with a file's MIME type."""
HIDDEN = frozenset({"FILE:parent", "FILE:root", "FILE:name", "FILE:stat", "FILE:xattrs"})
"""The attributes by which an import recognises files. Users don't need to see these attributes."""
OF_FILES = HIDDEN | {"name", "size", "last_modified", "created", "folder", "path"}
"""The attributes that the file itself determines. The window doesn't edit these attributes."""

_TIME = re.compile(r"(?:.*[_:])?(?:modified|created|changed|when|date|time)", re.IGNORECASE)


class NotAValue(ValueError):
    """The typed text isn't a valid value for its attribute. The error's text says why."""


def is_time(attribute: str) -> bool:
    """Returns whether an integer attribute with this name is a time in seconds since 1970."""
    return _TIME.fullmatch(attribute) is not None


def is_number(kind: Optional[bestore.Kind]) -> bool:
    """Returns whether values of this kind are integers."""
    return kind in RANGES


def size_in_words(size: bestore.Value) -> str:
    """Returns a number of bytes in a readable form."""
    if not isinstance(size, int):
        return text_of(size)
    number, unit = float(size), "byte" if size == 1 else "bytes"
    for larger in ("KB", "MB", "GB", "TB"):
        if number >= 1024:
            number, unit = number / 1024, larger
    return f"{number:.0f} {unit}" if unit.startswith("byte") else f"{number:.1f} {unit}"


def time_in_words(seconds: bestore.Value) -> str:
    """Returns a time in a readable form, or the number itself if it is outside the calendar."""
    if not isinstance(seconds, int):
        return text_of(seconds)
    try:
        return time.strftime("%d %b %Y, %H:%M", time.localtime(seconds))
    except (ValueError, OverflowError, OSError):
        return text_of(seconds)


def type_in_words(value: bestore.Value) -> str:
    """Returns a MIME type as people say it, or the type itself if it is unknown."""
    return isinstance(value, str) and mime_types.words_of(value) or text_of(value)


def text_of(value: bestore.Value) -> str:
    """Returns a value on one line."""
    if isinstance(value, bytes):
        return f"{len(value)} bytes of data"
    return "".join(it if it.isprintable() else "␣" if it.isspace() else "\ufffd" for it in str(value))


class Column(NamedTuple):
    """A column of the list: an attribute and how it is shown."""

    attribute: str
    title: str
    width: int
    anchor: Literal["w", "e"] = "w"
    in_words: Callable[[bestore.Value], str] = text_of

    def shown(self, attributes: Mapping[str, bestore.Value]) -> str:
        """Returns what the list shows in this column for a node with these attributes."""
        value = attributes.get(self.attribute)
        return "" if value is None else self.in_words(value)

    @property
    def is_edited(self) -> bool:
        """Whether the window can edit this attribute."""
        return self.attribute not in OF_FILES


_KNOWN = {it.attribute: it for it in [
    Column("name", "Name", 240), Column("size", "Size", 90, "e", size_in_words),
    Column("last_modified", "Modified", 160, "w", time_in_words), Column("created", "Created", 160, "w", time_in_words),
    Column(TYPE, "Type", 150, "w", type_in_words), Column("folder", "Folder", 270), Column("path", "Path", 330),
    Column("MAIL:subject", "Subject", 330), Column("MAIL:from", "From", 230), Column("MAIL:to", "To", 200),
    Column("MAIL:when", "When", 160, "w", time_in_words), Column("MAIL:status", "Status", 80),
]}
_FILE = ("name", "size", "last_modified", "BEOS:TYPE", "folder")
_MAIL = ("MAIL:subject", "MAIL:from", "MAIL:when", "MAIL:status", "size")


def column_of(attribute: str, kind: Optional[bestore.Kind] = None) -> Column:
    """Returns an attribute's column."""
    known = _KNOWN.get(attribute)
    if known is not None:
        return known
    title = attribute.rpartition(":")[2].replace("_", " ") or attribute
    title = title[:1].upper() + title[1:]
    if is_time(attribute) and (kind is None or is_number(kind)):
        return Column(attribute, title, 160, "w", time_in_words)
    return Column(attribute, title, 110 if is_number(kind) else 160, "e" if is_number(kind) else "w")


def default_columns(indices: Mapping[str, bestore.Kind], is_mail: bool = False) -> List[Column]:
    """Returns the default columns for a store with these indices: the columns for files or for mail, or otherwise the first six
    attributes."""
    if "MAIL:subject" in indices and is_mail:
        return [_KNOWN[it] for it in _MAIL if it in indices]
    if "name" in indices:
        return [_KNOWN[it] for it in _FILE if it in indices or it == "folder"]
    return [column_of(name, kind) for name, kind in list(indices.items())[:6]] or [_KNOWN["name"]]


def columns_of(attributes: Iterable[str], indices: Mapping[str, bestore.Kind]) -> List[Column]:
    """Returns the columns for these attributes."""
    return [column_of(it, indices.get(it)) for it in attributes]


def edited_text(attribute: str, value: Optional[bestore.Value]) -> str:
    """Returns an attribute's value as text to edit."""
    if value is None:
        return ""
    if isinstance(value, bytes):
        return value.hex()
    return _edited_time(value) if isinstance(value, int) and is_time(attribute) else str(value)


def _edited_time(seconds: int) -> str:
    """Returns a time as a date that can be parsed again, or the number itself if it is outside the calendar."""
    try:
        return datetime.fromtimestamp(seconds).isoformat(" ")
    except (ValueError, OverflowError, OSError):
        return str(seconds)


def typed_value(attribute: str, text: str, kind: bestore.Kind) -> bestore.Value:
    """Parses a typed value of this kind for an attribute. Raises `NotAValue` if the text isn't valid."""
    if kind == bestore.RAW:
        try:
            return bytes.fromhex(text)
        except ValueError:
            raise NotAValue(f"“{text}” isn't data: type two hexadecimal digits for each byte") from None
    if kind not in RANGES:
        return _typed_text(text)
    if re.fullmatch(r"[+-]?[0-9]{1,20}", text.strip(), re.ASCII):
        numbers = RANGES[kind]
        if int(text) in numbers:
            return int(text)
        raise NotAValue(f"{text.strip()} is out of range: from {numbers[0]} to {numbers[-1]}")
    if is_time(attribute):
        try:
            return dates.span_of(text).begin
        except dates.NotADate as error:
            raise NotAValue(str(error)) from None
    raise NotAValue(f"“{text}” isn't a whole number")


def _typed_text(text: str) -> str:
    if "\0" in text:
        raise NotAValue("text can't contain a zero byte")
    try:
        length = len(text.encode())
    except UnicodeEncodeError:
        raise NotAValue("the text has half of a character") from None
    if length > 255:
        raise NotAValue(f"the text has {length} bytes; the limit is 255")
    return text


Attributes = Dict[str, bestore.Value]
