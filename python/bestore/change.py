"""Changes: writes that depend on reads, with no other write between the reads and the write."""

from __future__ import annotations

from abc import abstractmethod
from functools import partial
from inspect import CO_ASYNC_GENERATOR, CO_COROUTINE, CO_GENERATOR
from typing import Callable, Dict, Iterable, Iterator, List, MutableMapping, Optional, Tuple

from .language import Hint
from .operations import MOST_OPERATIONS, Batch
from .pages import Cursor, Order, Page
from .queries import Prepared
from .values import Kind, Value
from .versions import Asked, Attributes, Query, Version


class Change(Version):
    """The object that `Pass.change` passes to its function: a snapshot that also collects up to 64 operations.

    Operations are only collected; they are written after the function has returned. The number of a node that `new` creates is
    known immediately. `change[node]`, `get`, `kind`, `attributes` and `node in change` read the collected operations first, and
    then the snapshot. Queries, lists of nodes, `count`, `pairs`, `indices` and `listing` read only the snapshot. Refresh a live
    query outside a change, because the function may run again. A 65th operation raises `BadCount`. A call that raises collects
    nothing, and the operations collected earlier are unaffected."""

    _what = "change"
    _instead = "use it only in the function that it is passed to"

    def __init__(self, snapshot: Version) -> None:
        self._snapshot = snapshot

    @property
    @abstractmethod
    def _count(self) -> int:
        """The number of operations that have been collected."""

    @abstractmethod
    def _collected(self) -> Batch:
        """Returns the collected operations, with the numbers of new nodes filled in."""

    @property
    def room(self) -> int:
        """The number of operations that can still be collected."""
        return MOST_OPERATIONS - self._count

    @abstractmethod
    def new(self) -> int:
        """Creates a node and returns its number."""

    @abstractmethod
    def remove(self, node: int) -> None:
        """Removes a node and all its attributes."""

    @abstractmethod
    def set(self, node: int, name: str, value: Value, kind: Optional[int] = None) -> None:
        """Sets an attribute. The value's kind is chosen as in `Batch.set`. Raises `WrongKind` if the index with that name takes
        values of another kind, unless the change was begun with check_kinds=False."""

    @abstractmethod
    def unset(self, node: int, name: str) -> None:
        """Removes an attribute."""

    @abstractmethod
    def make_index(self, name: str, kind: int) -> None:
        """Creates an index with this name, for values of this kind. The index receives only attributes that are set from then
        on; `Pass.reindex` adds earlier ones by setting them again."""

    @abstractmethod
    def remove_index(self, name: str) -> None:
        """Removes the index with this name."""

    def column(self, nodes: Iterable[int], name: str) -> List[Optional[Value]]:
        return self.columns(nodes, [name])[0]

    def __getitem__(self, node: int) -> ChangedAttributes:
        """Returns a node's attributes, which can be set and deleted like the items of a dict."""
        return ChangedAttributes(self, node)

    # Calls that read only the snapshot.

    @property
    def number(self) -> int:
        return self._snapshot.number

    @property
    def _is_pinned(self) -> bool:
        return self._snapshot._is_pinned

    def unpin(self) -> None:
        self._snapshot.unpin()

    @property
    def next_node(self) -> int:
        return self._snapshot.next_node

    def _nodes_of(self, asked: Query) -> List[int]:
        return self._snapshot._nodes_of(asked)

    def _first_of(self, asked: Query, start: int, limit: int) -> List[int]:
        return self._snapshot._first_of(asked, start, limit)

    def _any_of(self, asked: Query, limit: int) -> List[int]:
        return self._snapshot._any_of(asked, limit)

    def _page_of(self, asked: Asked, order: Order, after: Optional[Cursor], limit: Optional[int]) -> Page[int]:
        return self._snapshot._page_of(asked, order, after, limit)

    def _count_of(self, asked: Query) -> int:
        return self._snapshot._count_of(asked)

    def _nodes_from(self, first: int, room: int) -> List[int]:
        return self._snapshot._nodes_from(first, room)

    def refresh(self, prepared: Prepared) -> Tuple[List[int], List[int]]:
        return self._snapshot.refresh(prepared)

    def refresh_changed(self, prepared: Prepared) -> Tuple[List[int], List[int]]:
        return self._snapshot.refresh_changed(prepared)

    def explain(self, text: str) -> str:
        return self._snapshot.explain(text)

    def ways(self, text: str) -> str:
        return self._snapshot.ways(text)

    def hints(self, query: Asked) -> List[Hint]:
        return self._snapshot.hints(query)

    def indices(self) -> Dict[str, Kind]:
        return self._snapshot.indices()

    def listing(self) -> Iterator[bytes]:
        return self._snapshot.listing()


_RUN_LATER = CO_GENERATOR | CO_COROUTINE | CO_ASYNC_GENERATOR


def check_function(function: Callable[..., object]) -> None:
    """Raises a TypeError for a change's function that is async or a generator. Calling it wouldn't run it, so nothing would be written."""
    called = function
    while isinstance(called, partial):
        called = called.func
    code = getattr(called, "__code__", None)
    if code is not None and code.co_flags & _RUN_LATER:
        raise TypeError(f"{function!r} is async or a generator, so a call doesn't run it: a change takes a plain function")


class ChangedAttributes(Attributes, MutableMapping[str, Value]):
    """A node's attributes in a change."""

    _version: Change

    def __init__(self, change: Change, node: int) -> None:
        super().__init__(change, node)

    def __setitem__(self, name: str, value: Value) -> None:
        self._version.set(self.node, name, value)

    def __delitem__(self, name: str) -> None:
        """Removes an attribute. Raises `NoAttribute`, which is a KeyError, if the node has no such attribute."""
        self.__getitem__(name)
        self._version.unset(self.node, name)
