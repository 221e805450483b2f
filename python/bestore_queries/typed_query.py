"""Converts a typed query to the form that is sent to the store, in which dates are numbers. Errors are shown at their position
in the typed text."""

from __future__ import annotations

import re
from datetime import datetime
from typing import List, Mapping, NamedTuple, Optional, Tuple

import bestore
from bestore.errors import columns_of, pointed

from . import columns, dates

_TOKEN = re.compile(r"""
    (?P<date> %[^%]*% )
  | (?P<quoted> "(?:[^"\\]|\\.)*" | '(?:[^'\\]|\\.)*' )
  | (?P<compares> [=!<>]= | [=<>] )
  | (?P<joins> && | \|\| )
  | (?P<sign> [!()] )
  | (?P<word> (?:[^\ \t\n\r"'=!<>&|()\\]|\\.)+ )
""", re.VERBOSE | re.DOTALL)
_SEPARATORS = re.compile(r"[ \t\n\r]*")
_WORD = re.compile(r"""(?P<word>(?:[^ \t\n\r"'=!<>&|()\\]|\\.)+)""", re.DOTALL)
_NO_DATE = re.compile(r"(?!(?:19|20|21)[0-9]{2}$)-?[0-9]+", re.ASCII)  # an integer that isn't a year


class Fault(NamedTuple):
    """What is wrong with a query, and the typed character where the error is, if known."""

    message: str
    column: Optional[int] = None


class TypedFault(Exception):
    """The typed query can't be sent because it contains an invalid date."""

    def __init__(self, fault: Fault) -> None:
        super().__init__(fault.message)
        self.fault = fault


class _Token(NamedTuple):
    kind: str
    text: str
    start: int

    @property
    def end(self) -> int:
        return self.start + len(self.text)

    @property
    def value(self) -> str:
        """The text without its quotation marks or percent signs."""
        return self.text[1:-1] if self.kind in ("quoted", "date") else self.text


class _Part(NamedTuple):
    """A comparison that was typed with a date, the comparison that is sent instead, and what the date means."""

    start: int
    end: int
    sent: str
    meaning: str


class TypedQuery(NamedTuple):
    """A typed query, and the query that is sent in its place."""

    typed: str
    sent: str
    parts: Tuple[_Part, ...]

    def column_of(self, offset: int) -> int:
        """Returns the position of the typed character that a byte of the sent text comes from. For a date, that is the first
        character of its comparison."""
        column = len(self.sent.encode(errors="surrogatepass")[:offset].decode(errors="ignore"))
        for part in self.parts:
            if column < part.start:
                break
            if column < part.start + len(part.sent):
                return part.start
            column += part.end - part.start - len(part.sent)
        return column

    def dates_in_words(self) -> str:
        """Describes what the dates mean."""
        return "; ".join(part.meaning for part in self.parts)


def read(typed: str, now: Optional[datetime] = None) -> TypedQuery:
    """Returns the query to send for what was typed. A value between `%` signs is a date, and so is any value of a time
    attribute, unless it is a number of seconds or contains a wildcard. Raises `TypedFault` if a date is invalid."""
    found, parts = _tokens(typed), []
    for name, operator, value in zip(found, found[1:], found[2:]):
        if name.kind in ("word", "quoted") and operator.kind == "compares" and _is_date(name, value):
            parts.append(_dated(name, operator, value, now))
    sent, at = "", 0
    for part in parts:
        sent += typed[at:part.start] + part.sent
        at = part.end
    return TypedQuery(typed, sent + typed[at:], tuple(parts))


def _tokens(typed: str) -> List[_Token]:
    """Returns the tokens, up to the first character that can't begin one. A `%` begins a date wherever a value may be."""
    found: List[_Token] = []
    at = len(_SEPARATORS.match(typed)[0])  # type: ignore[index]
    while at < len(typed):
        token = _TOKEN.match(typed, at)
        if token is not None and token["date"] is not None and not (found and found[-1].kind == "compares"):
            token = _WORD.match(typed, at)
        if token is None:
            break
        found.append(_Token(token.lastgroup or "word", token[0], at))
        at = token.end()
        at = _SEPARATORS.match(typed, at).end()  # type: ignore[union-attr]
    return found


def _is_date(name: _Token, value: _Token) -> bool:
    if value.kind == "date":
        return True
    if value.kind not in ("word", "quoted") or not columns.is_time(name.value):
        return False
    return not _NO_DATE.fullmatch(value.value) and not re.search(r"[*?\[\\]", value.value)


def _dated(name: _Token, operator: _Token, value: _Token, now: Optional[datetime]) -> _Part:
    """Returns the comparison with the time that a date means: after the date, before it, or within it."""
    try:
        begin, end = dates.span_of(value.value, now)
    except dates.NotADate as error:
        raise TypedFault(Fault(str(error), value.start)) from None
    left, sign = name.text, operator.text
    sent = {
        "<": f"{left}<{begin}", "<=": f"{left}<{end}", ">": f"{left}>={end}", ">=": f"{left}>={begin}",
        "!=": f"({left}<{begin} || {left}>={end})",
    }.get(sign, f"({left}>={begin} && {left}<{end})")
    first, last = columns.time_in_words(begin), columns.time_in_words(end)
    meaning = {"<": f"before {first}", "<=": f"before {last}", ">": f"from {last} on", ">=": f"from {first} on",
               "!=": f"not from {first} to {last}"}.get(sign, f"from {first} to {last}")
    return _Part(name.start, value.end, sent, f"{name.value} {meaning}")


def fault_of(error: bestore.Error, query: TypedQuery, indices: Mapping[str, bestore.Kind]) -> Fault:
    """Describes an error in the sent query, in terms of what was typed."""
    if not isinstance(error, bestore.QueryError):
        return Fault(str(error))
    if isinstance(error, bestore.QueryNotUTF8):
        return Fault("half of a character can't be part of a query", _place(error, query))
    if isinstance(error, bestore.QuerySyntax):
        return Fault(_missing(query.typed, _place(error, query)), _place(error, query))
    if isinstance(error, bestore.BadPattern):
        return Fault("the [ isn't closed, or its set is empty, or a range in it descends; \\[ is a literal [", _place(error, query))
    if isinstance(error, bestore.NotCovered):
        return _not_covered(error, query, indices)
    return Fault({
        bestore.TooLong: "the query is too long: the limit is 4,096 bytes", bestore.TooMany: "more than 256 comparisons",
        bestore.TooDeep: "( and ! are nested more than 64 levels deep",
    }.get(type(error), error.summary), _place(error, query))


def _place(error: bestore.QueryError, query: TypedQuery) -> Optional[int]:
    return None if error.offset is None else query.column_of(error.offset)


def _not_covered(error: bestore.NotCovered, query: TypedQuery, indices: Mapping[str, bestore.Kind]) -> Fault:
    known = ", ".join(error.indices or indices)
    have = f"Indexed names: {known}" if known else "There are no indices"
    if error.missing is None:
        return Fault(f"no attribute of this query has an index. {have}")
    return Fault(f"“{error.missing}” has no index. {have}", _place(error, query))


def _missing(typed: str, place: Optional[int]) -> str:
    """Describes what is missing or superfluous at this character."""
    column = len(typed) if place is None else place
    before = [token for token in _tokens(typed) if token.end <= column]
    last = before[-1] if before else None
    rest = typed[column:].strip()
    if rest and rest[0] in "\"'" and not any(token.start == column for token in _tokens(typed)):
        return f"the {rest[0]} isn't closed"
    if last is None or last.kind == "joins" or last.text in ("(", "!"):
        return "the name of an attribute is missing here"
    if last.kind == "compares":
        if _open_quote(typed):
            return "the quotation mark isn't closed"
        return "a value is missing here"
    if last.kind in ("word", "quoted") and not _ends_comparison(before):
        return "an operator is missing here: == != < <= > >="
    if not rest and sum((it.text == "(") - (it.text == ")") for it in before if it.kind == "sign") > 0:
        return "a ) is missing here"
    return "&& or || is missing here" if rest[:1] != ")" else "this ) closes nothing"


def _ends_comparison(before: List[_Token]) -> bool:
    return len(before) >= 2 and before[-2].kind == "compares"


def _open_quote(typed: str) -> bool:
    """Returns whether an unclosed quoted string begins after the last token."""
    found = _tokens(typed)
    return typed[found[-1].end if found else 0:].strip()[:1] in ('"', "'")


def lines_of(fault: Fault, typed: str, width: int) -> List[str]:
    """Formats a fault in lines that fit in the given number of columns. The lines say what is wrong, and show the typed text
    with a caret below the position. If the typed text doesn't fit, only the part around the position is shown."""
    message = fault.message[:1].upper() + fault.message[1:]
    lines = [shortened(message, width)]
    if fault.column is not None:
        lines += pointed(typed, fault.column, max(width, 4)).splitlines()
    return lines


def shortened(line: str, width: int) -> str:
    """Returns the part of a line that fits."""
    if columns_of(line) <= width:
        return line
    while line and columns_of(line) > width - 1:
        line = line[:-1]
    return line + "…"


def hint_of(hint: bestore.Hint) -> str:
    """Describes a comparison that no node can match."""
    why = "it is out of range" if hint.is_number else "it isn't a whole number"
    return f"Nothing has {hint.name} “{hint.value}”: {why}."


def unknown_in_words(name: str) -> str:
    """Describes a name in a query that is probably mistyped."""
    return f"Nothing has an attribute “{columns.text_of(name)}”, and no index has this name."
