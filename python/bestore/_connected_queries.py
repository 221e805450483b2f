"""Queries on a version of a server's store: nodes in order of their numbers, pages in an index's order, and nodes in any order.
An answer may take several replies."""

from __future__ import annotations

from abc import abstractmethod
from typing import Callable, List, Optional, Tuple, TypeVar

from ._connected_errors import LineTooLong
from ._wire import JSON, read_comparisons, read_nodes, read_row
from .errors import NameLength, NoIndex, NotCovered, TooLong, encoded, encoded_query, no_index
from .language import Hint
from .pages import Cursor, Order, Page
from .queries import Prepared, prepare_items
from .versions import Asked, Query, Row, Version

_Item = TypeVar("_Item")
_Result = TypeVar("_Result")

MOST_NAMES = 64
"""The maximum number of names in a request for columns."""
_LONGEST_QUERY = 4096  # bytes
_ALL = 2**64 - 1  # more nodes than any store has
_MOST_OF_A_PAGE = 50_000  # nodes per reply


class QueriedVersion(Version):
    """A version that is queried through a server."""

    @abstractmethod
    def _ask(self, command: str, parameters: JSON, read: Callable[[JSON], _Result], query: Optional[str] = None) -> _Result:
        """Makes a call on the pass, if the pass still has this pin."""

    def _ask_query(self, command: str, asked: Query, text: str, others: JSON, read: Callable[[JSON], _Result]) -> _Result:
        """Sends the server a request about a query, with `text` as the query."""
        try:
            return self._ask(command, {"query": text, **others}, read, asked if isinstance(asked, str) else None)
        except NotCovered as error:
            raise self._named(error, asked, text) from None
        except LineTooLong:
            raise (TooLong(query=text) if len(encoded(text)) > _LONGEST_QUERY else NameLength()) from None

    def _named(self, error: NotCovered, asked: Query, text: str) -> NotCovered:
        """Returns the error for a query that needs another index, with the position that the server reported."""
        if isinstance(asked, tuple) or error.missing is None:
            return self._not_covered(asked)
        error.query, error.indices = text, tuple(self.indices())
        return error

    def hints(self, query: Asked) -> List[Hint]:
        """Works as for a store in this process, but the server parses the query's text."""
        compared = self._ask_query("text", query, _text_of(query), {}, read_comparisons)
        indices = self.indices() if any(one.never for one in compared) else {}
        return [Hint(one.name, one.value, indices[one.name], one.offset, one.is_number)
                for one in compared if indices.get(one.name) in one.never]

    def _nodes_of(self, asked: Query) -> List[int]:
        return self._first_of(asked, 0, _ALL)

    def _first_of(self, asked: Query, start: int, limit: int) -> List[int]:
        text, nodes = _text_of(asked), []  # type: str, List[int]
        more: Optional[int] = start
        while more is not None and more < 2**64 and len(nodes) < limit:
            page, more = self._ask_query("query", asked, text, self._part(more, limit, len(nodes)), _read_page)
            nodes += page
        return nodes

    def _part(self, first: int, limit: int, had: int) -> JSON:
        """Returns the parameters for a page that begins at the number `first` after `had` nodes have already been read. Without
        a limit, the reply contains as many nodes as fit on a line."""
        parameters: JSON = {"from": first} if first else {}
        if limit < _ALL:
            parameters["limit"] = min(limit - had, _MOST_OF_A_PAGE)
        return {**parameters, "uncounted": True} if parameters else {}

    def _any_of(self, asked: Query, limit: int) -> List[int]:
        if limit > _MOST_OF_A_PAGE:
            return self._first_of(asked, 0, limit)
        return self._ask_query("query", asked, _text_of(asked), {"any": limit}, lambda ok: read_nodes(ok["nodes"]))

    def _count_of(self, asked: Query) -> int:
        return self._ask_query("query", asked, _text_of(asked), {"count": True}, lambda ok: int(ok["count"]))

    def _rows_of(self, query: Asked, names: List[str], first: int, most: int) -> List[Row]:
        for name in names:
            encoded(name)
        text, rows = _text_of(query), []  # type: str, List[Row]
        more: Optional[int] = first
        while more is not None and more < 2**64 and len(rows) < most:
            others = {"columns": names, **self._part(more, most, len(rows))}
            page, more = self._ask_query("query", query, text, others, _read_rows)
            rows += page
        return rows

    def _page_of(self, asked: Asked, order: Order, after: Optional[Cursor], limit: Optional[int]) -> Page[int]:
        return self._pages(asked, order, after, limit, {}, lambda ok: read_nodes(ok["nodes"]))

    def _page_of_rows(self, query: Asked, names: List[str], order: Order, after: Optional[Cursor], most: int) -> Page[Row]:
        if len(names) > MOST_NAMES:
            return super()._page_of_rows(query, names, order, after, most)
        for name in names:
            encoded(name)
        return self._pages(query, order, after, most, {"columns": names}, lambda ok: _read_rows(ok)[0])

    def _pages(self, asked: Asked, order: Order, after: Optional[Cursor], limit: Optional[int], others: JSON,
               read: Callable[[JSON], List[_Item]]) -> Page[_Item]:
        """Returns a page in this order, which may take several replies to read."""
        encoded(order.by)
        parameters: JSON = {"by": order.by, **({"descending": True} if order.descending else {}), **others}
        items: List[_Item] = []

        def read_page(ok: JSON) -> Tuple[bool, Cursor]:
            items.extend(read(ok))
            return bool(ok.get("more")), Cursor.parse(ok["cursor"])
        text, more, cursor = _text_of(asked), True, after
        while more and (limit is None or len(items) < limit):
            room = _MOST_OF_A_PAGE if limit is None else min(limit - len(items), _MOST_OF_A_PAGE)
            position = {} if cursor is None else {"after": str(cursor)}
            more, cursor = self._ask_order(asked, order, text, {**parameters, **position, "limit": room}, read_page)
        assert cursor is not None  # because a limit is at least 1
        return Page(items, more, cursor)

    def _ask_order(self, asked: Asked, order: Order, text: str, others: JSON, read: Callable[[JSON], _Result]) -> _Result:
        """Requests a page. If the index is missing, the error lists the indices that exist."""
        try:
            return self._ask_query("query", asked, text, others, read)
        except NoIndex:
            raise no_index(order.by, self.indices()) from None

    def explain(self, text: str) -> str:
        encoded_query(text)
        return self._ask_query("explain", text, text, {}, lambda ok: str(ok["text"]))

    def ways(self, text: str) -> str:
        encoded_query(text)
        return self._ask_query("ways", text, text, {}, lambda ok: str(ok["text"]))


def _text_of(asked: Query) -> str:
    """Returns the text to send for a query. Items are sent as their canonical text."""
    if isinstance(asked, tuple):
        with prepare_items(*asked) as prepared:
            return prepared.text
    if isinstance(asked, Prepared):
        return asked._asked_text()
    encoded_query(asked)
    return asked


def _read_page(ok: JSON) -> Tuple[List[int], Optional[int]]:
    return read_nodes(ok["nodes"]), ok.get("more")


def _read_rows(ok: JSON) -> Tuple[List[Row], Optional[int]]:
    return list(zip(read_nodes(ok["nodes"]), map(read_row, ok["rows"]))), ok.get("more")
