"""Builders, which make a store from its contents."""

from __future__ import annotations

from typing import TYPE_CHECKING, Optional

from .handles import Owner
from .store import PASSES
from .values import Value

if TYPE_CHECKING:
    from .local import LocalBuilder, LocalPass


class Builder(Owner):
    """Makes a store in this process that begins with contents given in order. This takes less time and fewer pages than writing
    them, and the store's journal begins empty:

        with bestore.Builder() as builder:
            builder.index("MAIL:from", bestore.STRING)
            builder.node(7)
            builder.attribute("MAIL:from", "ann")
            store = builder.finish(8)

    First come the indices in ascending order of their names' UTF-8 bytes. Then come the nodes in ascending order, which may have gaps.
    After each node come its attributes, in ascending order of the names. A copy of another store begins with the batches of
    `Version.listing`.

    The limits are those of `bestore.open`, with its errors and costs. After `Full` or `NoMemory`, every later call raises the same
    error, so close the builder. After any other error, the builder is as it was before the call. A closed builder raises `Closed`."""

    _what = "builder"
    _instead = "begin another one"
    _builder: Optional[LocalBuilder] = None

    def __init__(self, pages: int = 16_384, passes: int = PASSES, commits: int = 2**32 - 1) -> None:
        from . import local  # needs the extension and the library
        self._builder = local.LocalBuilder(pages, passes, commits)

    @property
    def _own(self) -> LocalBuilder:
        assert self._builder is not None  # only a builder that couldn't be created has none
        return self._builder

    def index(self, name: str, kind: int) -> None:
        """Adds an index. Raises `NoNode` after the first node, `IndexExists` unless the name is above that of the last index,
        `NotIndexable`, `TooManyIndices`, and the errors of a name and a kind. Takes constant time."""
        self._own._build_index(name, kind)

    def node(self, node: int) -> None:
        """Adds a node without attributes. Raises `NoNode` unless the number is above that of the last node, and from 1 to 2^63 - 1.
        Raises `Full` if there are too few pages. Takes constant time."""
        self._own._build_node(node)

    def attribute(self, name: str, value: Value, kind: Optional[int] = None, *, held: Optional[bool] = None) -> None:
        """Adds an attribute of the last node, whose kind is chosen as in `Batch.set`. `held` says whether queries find it by the
        index of its name: in a store, an index doesn't have what was set before the index was created. By default, it is held if
        there is an index of its name and kind.

        Raises `NoNode` before the first node, `NoAttribute` unless the name is above that of the node's last attribute, and
        `TooManyAttributes`. With `held`, raises `NoIndex`, or `NotIndexable` if the index is of another kind. Raises `Full` if there are
        too few pages. Takes constant time, and if it is held, memory for the value until the store is opened."""
        self._own._build_attribute(name, value, kind, held)

    def batch(self, data: bytes) -> None:
        """Adds the contents of a batch from `Version.listing`. Raises `BadBytes`, which is a ValueError, with the offset of the first wrong
        byte, and the errors of the calls above. After either, the builder has everything before that place in the batch."""
        self._own._build_batch(data)

    def finish(self, next: int) -> LocalPass:
        """Opens the store, and returns its first pass, as `bestore.open` does. The builder is then closed, even after an error. `next` is
        the number that the next new node gets. Raises `NoNode` unless it is above the last node's number and at most 2^63, `Full` if
        there are too few pages, or `NoMemory`. Sorts and writes the indices, which takes about half of the time that building takes, and
        meanwhile memory for a second copy of all pages."""
        return self._own.finish(next)

    def close(self) -> None:
        """Gives up everything that was added, unless the store was opened."""
        if self._builder is not None:
            self._builder.close()
