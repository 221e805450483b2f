"""A mail's attributes, with the names that BeOS uses."""

from __future__ import annotations

import email.errors
import email.header
import email.message
import email.parser
import email.utils
import os
import re
from typing import Dict, Match

import bestore

from .mime_types import MAIL_TYPE

_WORD = r"=\?[^?\s]+\?[bq]\?[^?]*\?="
_ENCODED = re.compile(rf"{_WORD}(?:\s+{_WORD})*", re.IGNORECASE)  # a header's words that aren't ASCII


def cut(text: str) -> str:
    """Returns as much of a text as fits in a value."""
    return text.replace("\0", "").encode(errors="replace")[:255].decode(errors="ignore")


def is_mailbox(folder: str) -> bool:
    """Returns whether a folder is one of a Maildir's two folders with mail."""
    maildir, side = os.path.split(folder)
    return side in ("cur", "new") and is_maildir(maildir)


def is_maildir(folder: str) -> bool:
    """Returns whether a folder is a Maildir."""
    return all(os.path.isdir(os.path.join(folder, name)) for name in ("cur", "new", "tmp"))


def header_of(head: email.message.Message, name: str) -> str:
    """Returns a header as plain text. Bytes that aren't ASCII are decoded as UTF-8, or as Windows-1252 if they aren't valid
    UTF-8."""
    raw = next((str(value) for key, value in head.raw_items() if key.lower() == name.lower()), "")
    return _ENCODED.sub(_decoded_words, _decoded_bytes(raw.encode(errors="surrogateescape")))


def _decoded_bytes(raw: bytes) -> str:
    try:
        return raw.decode()
    except UnicodeDecodeError:
        return raw.decode("cp1252", errors="replace")


def _decoded_words(found: Match[str]) -> str:
    """Decodes a header's encoded words, or leaves them unchanged if they can't be decoded."""
    try:
        return str(email.header.make_header(email.header.decode_header(found[0])))
    except (LookupError, ValueError, email.errors.MessageError):
        return found[0]


def mail_attributes(path: str) -> Dict[str, bestore.Value]:
    """Returns the attributes from a mail's headers."""
    with open(path, "rb") as file:
        head = email.parser.BytesHeaderParser().parse(file)
    is_read = "S" in os.path.basename(path).rpartition(":2,")[2] and os.path.basename(os.path.dirname(path)) == "cur"
    values: Dict[str, bestore.Value] = {
        "BEOS:TYPE": MAIL_TYPE, "MAIL:from": cut(header_of(head, "From")), "MAIL:to": cut(header_of(head, "To")),
        "MAIL:subject": cut(header_of(head, "Subject")), "MAIL:status": "Read" if is_read else "New",
    }
    try:
        values["MAIL:when"] = int(email.utils.parsedate_to_datetime(str(head.get("Date"))).timestamp())
    except (TypeError, ValueError, OverflowError, OSError):
        pass  # there is no date, or it can't be read
    return values
