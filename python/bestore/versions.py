"""Versions of a store: snapshots to read."""

from __future__ import annotations

import operator
from abc import ABC, abstractmethod
from bisect import bisect_left
from types import TracebackType
from typing import Dict, Iterable, Iterator, List, Literal, Mapping, Optional, Tuple, Type, TypeVar, Union, overload

from ._typed_reads import TypedReads
from .errors import Error, NoAttribute, NoNode, NotCovered, no_index, no_room
from .handles import Uncopied
from .language import Hint, all_in, comparisons, hints_in
from .pages import After, Cursor, Order, Page, cursor_of, order_by
from .queries import Item, Name, Prepared
from .values import Kind, Typed, Value

_Self = TypeVar("_Self", bound="Version")
Asked = Union[str, Prepared]  # a query as text, or prepared
Query = Union[str, Prepared, Tuple[Item, ...]]  # a query in any form
Row = Tuple[int, List[Optional[Value]]]
"""A node and the values of its attributes."""


def not_covered(asked: Query, indices: Iterable[str]) -> NotCovered:
    """Returns the error for a query that needs an index not in `indices`, with the position of the first name that has no index."""
    if isinstance(asked, Prepared):
        asked = asked.source or asked.text
    if isinstance(asked, str):
        error, field = NotCovered(query=asked), "offset"
        names = [(comparison.offset, comparison.name) for comparison in comparisons(asked)]
    else:
        error, field = NotCovered(), "item"
        names = [(place, str(item)) for place, item in enumerate(asked) if isinstance(item, Name)]
    error.indices = tuple(indices)
    missing = [(place, name) for place, name in names if name not in error.indices]
    if missing:
        setattr(error, field, missing[0][0])
        error.missing = missing[0][1]
    return error


class Version(TypedReads, Uncopied, ABC):
    """A snapshot: the store as it was when the pass was pinned, whatever is written in the meantime. A version can be read
    until it is unpinned, which happens at the end of a `with` block, by `unpin`, or when the object is destroyed. After that,
    each read raises `NotPinned`. `version[node]` returns a node's attributes, `node in version` says whether the node exists,
    and `for node in version` iterates over all nodes. While a version is pinned, the store keeps the version's pages, so unpin
    the version soon."""

    _what = "version"
    _instead = "pin another one, or copy what you read from it"

    @property
    @abstractmethod
    def number(self) -> int:
        """The commit number of the last write that the version includes. This is also the number of writes that it includes."""

    @property
    @abstractmethod
    def _is_pinned(self) -> bool:
        """Whether the version is still pinned."""

    def __repr__(self) -> str:
        return f"<{self._what} at commit {self.number}>"

    def __enter__(self: _Self) -> _Self:
        return self

    def __exit__(self, kind: Optional[Type[BaseException]], value: Optional[BaseException],
                 trace: Optional[TracebackType]) -> None:
        self.unpin()

    @abstractmethod
    def unpin(self) -> None:
        """Unpins the version if it is still pinned."""

    @property
    @abstractmethod
    def next_node(self) -> int:
        """The number that the next new node gets, unless another write comes first."""

    @abstractmethod
    def _nodes_of(self, asked: Query) -> List[int]:
        """Returns the nodes that match a query, in ascending order."""

    @abstractmethod
    def _count_of(self, asked: Query) -> int:
        """Returns how many nodes match a query."""

    @abstractmethod
    def _read(self, node: int, name: str) -> Typed:
        """Returns a node's attribute. Raises `NoAttribute` if the node has no such attribute."""

    def _value(self, node: int, name: str) -> Value:
        """Like `_read`, but returns the value without its kind."""
        return self._read(node, name).value

    @abstractmethod
    def _listed(self, node: int) -> Dict[str, Typed]:
        """Returns a node's attributes with their kinds, in ascending order of names. Raises `NoNode` if there is no such node."""

    @abstractmethod
    def _nodes_from(self, first: int, room: int) -> List[int]:
        """Returns up to `room` nodes whose numbers are `first` or greater, and fewer only if there are no more nodes."""

    def _not_covered(self, asked: Query) -> NotCovered:
        """Returns the error for a query that needs another index."""
        return not_covered(asked, self.indices())

    def _first_of(self, asked: Query, start: int, limit: int) -> List[int]:
        """Returns the first nodes that match a query and whose numbers are `start` or greater, up to `limit` of them."""
        nodes = self._nodes_of(asked)
        begin = bisect_left(nodes, start)
        return nodes[begin:begin + limit]

    def _any_of(self, asked: Query, limit: int) -> List[int]:
        """Returns any nodes that match a query, up to `limit` of them."""
        return self._nodes_of(asked)[:limit]

    @abstractmethod
    def _page_of(self, asked: Asked, order: Order, after: Optional[Cursor], limit: Optional[int]) -> Page[int]:
        """Returns a page in this order, which has all nodes if `limit` is None."""

    def _order_kind(self, name: str) -> Kind:
        """Returns the kind of the index that an order uses. Raises `NoIndex` if there is no such index."""
        indices = self.indices()
        if name not in indices:
            raise no_index(name, indices)
        return indices[name]

    def _part_of(self, asked: Asked, by: Optional[str], descending: bool, limit: Optional[int], after: After, start: int) -> List[int]:
        """Returns what `query` returns, for a query given as text or prepared."""
        if limit is not None and operator.index(limit) < 1:
            raise no_room(limit)
        if by is not None:
            if start:
                raise TypeError("start is the number of a node; an order continues from a cursor: after=page.cursor")
            return self._page_of(asked, order_by(by, descending), cursor_of(after), limit)
        if descending or after is not None:
            raise TypeError('an order needs the name of an index, such as by="size"')
        if limit is None and start <= 0:
            return self._nodes_of(asked)
        return self._first_of(asked, max(operator.index(start), 0), 2**64 if limit is None else limit)

    @overload
    def query(self, text: str) -> List[int]: ...

    @overload
    def query(self, text: str, *, by: str, descending: bool = ..., limit: Optional[int] = ..., after: After = ...) -> Page[int]: ...

    @overload
    def query(self, text: str, *, limit: Optional[int] = ..., start: int = ...) -> List[int]: ...

    def query(self, text: str, *, by: Optional[str] = None, descending: bool = False, limit: Optional[int] = None,
              after: After = None, start: int = 0) -> List[int]:
        """Returns the nodes that match the query, in ascending order. Raises a `QueryError` if the text isn't a valid query, or
        `NotCovered` if the query needs another index. Takes time to parse the text and to read the part of the indices that the
        query needs.

        With `limit`, returns up to that many nodes, beginning with the number `start`. With `by`, returns a `Page`: the nodes
        in the order of their values in the index with this name, and by number if their values are equal; `descending` gives
        the exact reverse. A page omits nodes that have no value in that index. `after` is the cursor from an earlier page of
        the same query and order; the new page continues there. A page takes less time than the whole answer. Raises `NoIndex`,
        `BadCursor` or `NoRoom` if there is no such page."""
        return self._part_of(text, by, descending, limit, after, start)

    def any(self, query: Asked, limit: int) -> List[int]:
        """Returns any `limit` of the nodes that match the query, or all of them if fewer match, in no particular order. If the
        answer is large, this takes less time than `query`. Use it, for example, to find a job that nobody has taken."""
        if operator.index(limit) < 1:
            raise no_room(limit)
        return self._any_of(query, limit)

    def query_items(self, *items: Item) -> List[int]:
        """Returns the nodes that match the query formed by items in reverse Polish order: names, strings, numbers and
        operators. The string for EQ and NE is a pattern; the string for any other operator is taken literally.

            version.query_items(bestore.Name("size"), 5, bestore.Operator.LT)
        """
        return self._nodes_of(items)

    @overload
    def query_prepared(self, prepared: Prepared) -> List[int]: ...

    @overload
    def query_prepared(self, prepared: Prepared, *, by: str, descending: bool = ..., limit: Optional[int] = ...,
                       after: After = ...) -> Page[int]: ...

    @overload
    def query_prepared(self, prepared: Prepared, *, limit: Optional[int] = ..., start: int = ...) -> List[int]: ...

    def query_prepared(self, prepared: Prepared, *, by: Optional[str] = None, descending: bool = False,
                       limit: Optional[int] = None, after: After = None, start: int = 0) -> List[int]:
        """Returns the nodes that match a prepared query, like `query`. This doesn't change the result of the query's last refresh."""
        return self._part_of(prepared, by, descending, limit, after, start)

    def count(self, query: Union[str, Prepared]) -> int:
        """Returns how many nodes match the query, given as text or prepared. The cost is that of the query, but no list is
        built."""
        return self._count_of(query)

    def pairs(self, name: str) -> int:
        """Returns how many pairs of a value and a node are in the index with this name. Raises `NoIndex` if there is no such
        index. Takes time to read the whole index."""
        return self._count_of(all_in(name, self._order_kind(name)))

    def hints(self, query: Union[str, Prepared]) -> List[Hint]:
        """Returns the comparisons in a query that are never true because the value isn't a number of the kind that the name's
        index takes, such as size>1.5 or last_modified>2024-01-01. Raises a `QueryError` if the text isn't a valid query."""
        text = query._asked_text() if isinstance(query, Prepared) else query
        return hints_in(text, self.indices())

    @abstractmethod
    def refresh(self, prepared: Prepared) -> Tuple[List[int], List[int]]:
        """Returns the nodes that joined the answer and those that left it since the prepared query was last refreshed, as two
        lists in ascending order. The first time, all nodes that match the query join. Refresh a query only in versions of the
        same store, or of a store into which that store's state was copied, because nodes are compared by number. After an
        error, the query is unchanged. Runs the whole query and takes no lock, so it never makes another pass's write `Busy`."""

    def refresh_changed(self, prepared: Prepared) -> Tuple[List[int], List[int]]:
        """Returns the same as `refresh`. In an in-process store, it checks only the nodes that were written since the last
        refresh. This takes less time if the answer has 96 nodes or more and few nodes were written. Other passes' writes raise
        `Busy` during the call. Otherwise, and in a server's store, it runs the whole query."""
        return self.refresh(prepared)

    @abstractmethod
    def explain(self, text: str) -> str:
        """Returns comparisons whose indices cover the query, and a score that depends only on the operators. Running the query may
        read other indices, whose ranges have fewer keys. Reads no nodes. The errors are those of `query`."""

    @abstractmethod
    def ways(self, text: str) -> str:
        """Runs the query, and says why it takes as long as it does: returns a line for each range of index keys that the answer
        walked, such as `"size"  500 .. <600  about 90 keys, 100 walked`. It has the name of the index, the lowest and the highest
        value of the range, about how many keys the range was estimated to have, and how many it has. A value that the range
        excludes has `<` or `>` before it, an open end is left out, and `"ann"*` stands for the last string that begins with
        `ann`. Takes the time of `query`, and that of listing each range once more. The errors are those of `query`."""

    @overload
    def attributes(self, node: int) -> Dict[str, Value]: ...

    @overload
    def attributes(self, node: int, kinds: Literal[False]) -> Dict[str, Value]: ...

    @overload
    def attributes(self, node: int, kinds: Literal[True]) -> Dict[str, Typed]: ...

    @overload
    def attributes(self, node: int, kinds: bool) -> Union[Dict[str, Value], Dict[str, Typed]]: ...

    def attributes(self, node: int, kinds: bool = False) -> Union[Dict[str, Value], Dict[str, Typed]]:
        """Returns a node's attributes in ascending order of names: a dict from names to values or, with `kinds`, to
        `Typed` values, which include their kinds. Raises `NoNode` if there is no such node."""
        listed = self._listed(node)
        if kinds:
            return listed
        return {name: typed.value for name, typed in listed.items()}

    @abstractmethod
    def indices(self) -> Dict[str, Kind]:
        """Returns the indices as a dict from names to kinds, in ascending order of names."""

    @abstractmethod
    def listing(self) -> Iterator[bytes]:
        """Yields what the version contains, as batches of about 64 KiB that `Builder.batch` takes: the indices, and each node with
        its attributes. Takes one tree search per node, and two per attribute whose name has an index. docs/KEPT.md describes the
        batches.

            with bestore.Builder() as builder:
                for batch in version.listing():
                    builder.batch(batch)
                copy = builder.finish(version.next_node)
        """

    def typed(self, node: int, name: str) -> Optional[Typed]:
        """Returns a node's attribute with its kind, or None if the node has no such attribute. Takes one tree search."""
        try:
            return self._read(node, name)
        except (NoAttribute, NoNode):
            return None

    def get(self, node: int, name: str) -> Optional[Value]:
        """Returns a node's attribute as a str, bytes or an int, or None if the node has no such attribute. Takes one tree search."""
        typed = self.typed(node, name)
        return None if typed is None else typed.value

    def kind(self, node: int, name: str) -> Optional[Kind]:
        """Returns the kind of a node's attribute, or None if the node has no such attribute. Takes one tree search."""
        typed = self.typed(node, name)
        return None if typed is None else typed.kind

    def column(self, nodes: Iterable[int], name: str) -> List[Optional[Value]]:
        """Returns one attribute of many nodes: a list with each node's value, or None for a node without the attribute. Takes
        one tree search per node, and memory for the list."""
        return [self.get(node, name) for node in nodes]

    def columns(self, nodes: Iterable[int], names: Iterable[str]) -> List[List[Optional[Value]]]:
        """Returns several attributes of many nodes, with a list for each name as in `column`. Takes less time than calling
        `column` for each name, because it reads node by node. With a server, one round trip can read a few thousand nodes with
        five attributes each."""
        read = list(nodes)
        return [self.column(read, name) for name in names]

    @overload
    def rows(self, query: Asked, names: Iterable[str], first: int = ..., most: int = ...) -> List[Row]: ...

    @overload
    def rows(self, query: Asked, names: Iterable[str], *, most: int = ..., by: str, descending: bool = ...,
             after: After = ...) -> Page[Row]: ...

    def rows(self, query: Asked, names: Iterable[str], first: int = 0, most: int = 1024, *, by: Optional[str] = None,
             descending: bool = False, after: After = None) -> List[Row]:
        """Returns up to `most` nodes that match the query, in ascending order and beginning with the number `first`, each with
        its values for these names. A row is a pair of a node and a list of values, with None for each missing attribute. Takes
        the time of the query, plus one tree search per value. With a server, the call takes a round trip for every few thousand
        rows, and allows up to 64 names. With `by`, returns a `Page` of rows, with the nodes that `query` returns for the same
        `by`, `descending` and `after`."""
        if by is not None:
            if first:
                raise TypeError("first is the number of a node; an order continues from a cursor: after=page.cursor")
            if operator.index(most) < 1:
                raise no_room(most)
            return self._page_of_rows(query, list(names), order_by(by, descending), cursor_of(after), most)
        if descending or after is not None:
            raise TypeError('an order needs the name of an index, such as by="size"')
        if most < 0:
            raise ValueError(f"can't return {most} rows; ask for 0 or more")
        return self._rows_of(query, list(names), max(operator.index(first), 0), most)

    def _rows_of(self, query: Asked, names: List[str], first: int, most: int) -> List[Row]:
        return self._with_columns(self._first_of(query, first, most) if most else [], names)

    def _page_of_rows(self, query: Asked, names: List[str], order: Order, after: Optional[Cursor], most: int) -> Page[Row]:
        page = self._page_of(query, order, after, most)
        return page.of(self._with_columns(page, names))

    def _with_columns(self, nodes: List[int], names: List[str]) -> List[Row]:
        found = self.columns(nodes, names)
        return [(node, list(values)) for node, values in zip(nodes, zip(*found))] if names else [(node, []) for node in nodes]

    def __getitem__(self, node: int) -> Attributes:
        """Returns a node's attributes. Each is read when you access it."""
        return Attributes(self, node)

    def __contains__(self, node: int) -> bool:
        return self.nodes(node, 1) == [node]

    def nodes(self, first: int = 0, most: int = 1024) -> List[int]:
        """Returns up to `most` nodes whose numbers are `first` or greater, in ascending order. Nodes without attributes are included."""
        if most < 0:
            raise ValueError(f"can't return {most} nodes; ask for 0 or more")
        first = max(operator.index(first), 0)
        found: List[int] = []
        while first < 2**64:
            room = min(most - len(found), 1024)
            some = self._nodes_from(first, room)
            found += some
            if len(some) < room or len(found) == most:
                break
            first = some[-1] + 1
        return found

    def __iter__(self) -> Iterator[int]:
        """Yields all nodes, in ascending order."""
        first, most = 0, 1024
        while first < 2**64:
            nodes = self.nodes(first, most)
            yield from nodes
            if len(nodes) < most:
                break
            first = nodes[-1] + 1


class Attributes(Mapping[str, Value]):
    """A node's attributes in a version. Reading a missing attribute raises `NoAttribute`, which is a KeyError."""

    def __init__(self, version: Version, node: int) -> None:
        self._version, self.node = version, node

    def __getitem__(self, name: str) -> Value:
        try:
            return self._version._value(self.node, name)
        except (NoNode, NoAttribute) as error:
            error._name(self.node, name)
            raise

    def __iter__(self) -> Iterator[str]:
        return iter(self._version.attributes(self.node))

    def __len__(self) -> int:
        return len(self._version.attributes(self.node))

    def __repr__(self) -> str:
        try:
            return f"<attributes of node {self.node}: {self._version.attributes(self.node)}>"
        except Error as error:  # such as NotPinned: a debugger and a traceback show objects at any time
            return f"<attributes of node {self.node}, which can't be read: {error}>"
