"""Query texts: how to put a string into a query, and what a query compares. The library parses and writes query texts. The
first call that needs the library loads it."""

from __future__ import annotations

import re
from typing import List, Mapping, NamedTuple

from .values import RANGES, Kind

_ENDS_QUOTED = re.compile(r'["\\]')  # the characters in a quoted name that need a backslash


def escape(text: str) -> str:
    r"""Returns the text with a backslash before each character that is special in a query. The result matches only the text
    itself, quoted or not: f'name=="{escape("[draft].txt")}"' is the query name=="\[draft].txt". An empty text needs quotes. In
    items, the operators CONTAINS, BEGINS_WITH and ENDS_WITH take a text literally. May raise `NotUTF8`."""
    from . import _query_texts  # needs the library
    return _query_texts.escape(text)


def quoted(name: str) -> str:
    """Returns any name in quotes, for use in a query."""
    return '"' + _ENDS_QUOTED.sub(r"\\\g<0>", name) + '"'


def all_in(name: str, kind: Kind) -> str:
    """Returns the query that matches all pairs in an index of this kind."""
    sign, value = (">=", str(RANGES[kind][0])) if kind in RANGES else ("==", "*")
    return f'{quoted(name)}{sign}"{value}"'


def any_case(text: str) -> str:
    """Returns a pattern that matches the text in upper and lower case, according to Unicode's simple case folding:
    any_case("dr.") is "[dD][rR].". A letter never matches two letters: SS doesn't find ß. May raise `NotUTF8`."""
    from . import _query_texts
    return _query_texts.any_case(text)


class Comparison(NamedTuple):
    """A comparison in a query's text."""

    name: str
    operator: str
    """One of `==`, `!=`, `<`, `<=`, `>` and `>=`."""
    value: str
    """The value as written in the text, without its quotes."""
    offset: int
    """Where the comparison begins in the text, in bytes of UTF-8, counting from 0."""


class Hint(NamedTuple):
    """A comparison that is never true, because its name has an index of integers and its value isn't an integer or is out of
    range."""

    name: str
    value: str
    """The value to compare with."""
    kind: Kind
    """The index's kind."""
    offset: int
    """Where the comparison begins in the query's text, in bytes of UTF-8, counting from 0."""
    is_number: bool
    """Whether the value is an integer that is out of the kind's range."""

    def __str__(self) -> str:
        why = f"is out of the range of {self.kind.name}" if self.is_number else "isn't a whole number"
        return f'never true: "{self.name}" is {self.kind.name}, and "{self.value}" {why}'


def comparisons(query: str) -> List[Comparison]:
    """Returns the comparisons in a query, from left to right. Raises a `QueryError` if the text isn't a valid query."""
    from . import _query_texts
    return [it.comparison for it in _query_texts.read(query)]


def hints_in(query: str, indices: Mapping[str, Kind]) -> List[Hint]:
    """Returns the comparisons in a query that are never true in a store with these indices. Raises a `QueryError` if the text isn't a valid
    query."""
    from . import _query_texts
    return _query_texts.hints_in(query, indices)
