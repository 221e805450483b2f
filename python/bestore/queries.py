"""Queries that are built before they are run: prepared queries, and items in reverse Polish order."""

from __future__ import annotations

import enum
import threading
from typing import List, Optional, Set, Union

from .handles import Owner
from .language import Comparison, comparisons



class Name(str):
    """An attribute's name, as an item of a query."""


class Operator(enum.IntEnum):
    """What an operator does with the items that precede it."""

    EQ, NE, LT, LE, GT, GE, CONTAINS, BEGINS_WITH, ENDS_WITH, AND, OR, NOT = range(4, 16)


Item = Union[Name, Operator, str, int]
"""An item of a query in reverse Polish order: a name, an operator, a string or a number."""


class Prepared(Owner):
    """A query that `prepare` or `prepare_items` has parsed once, for repeated use. It belongs to no store.
    `Version.query_prepared` runs the query, and `Version.refresh` returns what changed since its last refresh."""

    _what = "prepared query"
    _instead = "prepare its text again"

    source: Optional[str]
    """The text that the query was prepared from, or None if it was prepared from items."""
    _refreshing: threading.RLock  # held while the query is refreshed; guards the fields below
    _seen: Set[int]  # the nodes that the last refresh found
    _is_in_library: bool  # whether the library has these nodes, so that its next refresh returns what changed
    _refreshed_in: Optional[object]  # the store in which the library last refreshed the query

    def _check_process(self) -> None:
        """Raises `Forked` if the query belongs to this process's parent."""
        raise NotImplementedError

    @property
    def text(self) -> str:
        """The canonical text: no `!`, each name and value quoted, and parentheses only where they are needed."""
        raise NotImplementedError

    @property
    def _check(self) -> int:
        """Returns what this query's cursors remember about the query."""
        raise NotImplementedError

    def _asked_text(self) -> str:
        """Returns the text that is sent to a server. Raises `Closed` if the query is closed."""
        raise NotImplementedError

    @property
    def comparisons(self) -> List[Comparison]:
        """Returns the comparisons in the canonical text, from left to right. Raises `TooLong` if the canonical text is longer
        than 4,096 bytes, which can happen if the query is nearly that long."""
        return comparisons(self.text)

    @property
    def names(self) -> List[str]:
        """Returns the names in the comparisons, from left to right and without duplicates."""
        found = (one.name for one in comparisons(self._asked_text())) if self.source is not None else self._item_names()
        return list(dict.fromkeys(found))

    def _item_names(self) -> List[str]:
        """Returns the names among the items that the query was prepared from. Raises `Closed` if the query is closed."""
        raise NotImplementedError


def prepare(text: str) -> Prepared:
    """Parses this text once and returns the query. Raises `QuerySyntax`, `BadPattern`, `TooLong`, `TooDeep`, `TooMany` or
    `QueryNotUTF8` if the text isn't a valid query. The call takes time to parse the text, and the query uses memory until it is
    closed."""
    from . import _prepared  # needs the library
    return _prepared.prepare(text)


def prepare_items(*items: Item) -> Prepared:
    """Returns the query that these items form in reverse Polish order, as in `Version.query_items`. Raises `BadItems` or
    `BadPattern` if the items don't form a valid query. The query uses memory until it is closed."""
    from . import _prepared
    return _prepared.prepare_items(*items)
