"""Passes of a store: how to write, read and follow it."""

from __future__ import annotations

import operator
from abc import ABC, abstractmethod
from functools import partial
from typing import Callable, Iterator, List, NamedTuple, Optional, Tuple, TypeVar

from ._waits import Waits
from .change import Change, check_function
from .errors import Busy, Conflict, Full, Nested, NoAttribute, NoIndex, NoNode, Refusal, TooManyAttempts
from .handles import Owner
from .language import all_in
from .nodes import name_missing
from .operations import MOST_OPERATIONS, Batch, Operation
from .queries import Prepared, prepare
from .values import Kind, Value
from .versions import Version
from .watches import Watch

_Result = TypeVar("_Result")

PASSES = 63
"""The default number of passes in a store. Each pass takes about 90 bytes and adds 13 instructions to a write, so 55 passes add
700 instructions to about 21,000. The cost of a pin doesn't depend on the number of passes."""
WITHIN = 2.0
"""How many seconds after its first failed try a call gives up by default, if another pass is writing or no page is free."""
CHANGE_WITHIN = 5.0
"""How many seconds after its first failed attempt a change gives up by default."""
TRIES = 10_000
"""The default limit on how many times a call is tried. The time is usually up first."""
ATTEMPTS = 10_000
"""The default limit on how many times a change's function may run. The time is usually up first."""


class Held(NamedTuple):
    """The oldest active reader: a commit number, and the first pass that is pinned, or is about to be pinned, to this commit or
    a later one."""

    version: int
    pass_number: int


class Status(NamedTuple):
    """How full a store is."""

    pages: int
    free: int
    """The number of pages that are available to writes."""
    retired: int
    """The number of pages of older versions that are kept because a pass may read them."""
    entries: int
    """The number of writes in the journal."""
    commits: int
    """The maximum number of writes in the journal."""
    oldest: Optional[Held]
    """None if no pass is pinned."""


class Entry(NamedTuple):
    """A journal entry: one accepted write."""

    number: int
    """Its commit number, counting from 1."""
    pass_number: int
    """The pass that wrote it."""
    operations: Tuple[Operation, ...]
    """Its operations. A `NewNode` has the number of the node that it created."""


class Witness(Owner, ABC):
    """Records what a pass has seen of its store, so that another thread's pass of the same store can join it. `Pass.witness`
    creates a witness, and `Pass.join` joins it. A witness keeps no part of the store in use."""

    _what = "witness"
    _instead = "give it to the other thread as it is, or ask the pass for another one"

    @abstractmethod
    def close(self) -> None:
        """Closes the witness if it is open."""


class Pass(Owner, ABC):
    """A session: one thread's handle on the store. `open` returns the first pass of a store in this process, and `connect`
    returns a pass of a server's store. `another` returns further passes. Give each thread its own pass, because calls on the
    same pass wait for each other."""

    _what = "pass"
    _instead = "get one for another thread from `another`; another process connects to a server"
    _committed: int
    _is_changing: bool  # whether this thread is running a change's function

    @property
    def committed(self) -> int:
        """The commit number of this pass's last write, or 0 before its first."""
        return self._committed

    @property
    @abstractmethod
    def number(self) -> int:
        """The pass's number, as used by `Busy`, `Status` and the journal."""

    @abstractmethod
    def another(self) -> Pass:
        """Returns a pass of the same store for another thread. Any pass can do this, in any thread. If another thread is in a call
        on the pass that `open` returned, this may wait for that call. Raises `NoPass` if no pass is left."""

    @abstractmethod
    def close(self) -> None:
        """Closes the pass if it is open, and returns it to the store, so that `another` may return it again. The store is freed
        with its last pass."""

    @abstractmethod
    def finish(self) -> str:
        """Closes the store through its last pass, which is then closed, and returns the whole journal, as `journal` does. For
        each pass, the journal contains exactly the writes that its calls committed, at their commit numbers. Raises `InUse` if
        another pass is open. This is always the case for a saved store, which has a pass of its own. May also raise `NoMemory`.
        After either error, the pass is unchanged."""

    @abstractmethod
    def meet(self) -> int:
        """Meets a pass that was closed, after which each has seen what the other had seen. Returns how many journal entries
        both have seen. Raises `NoPass` if there is no closed pass, or if another thread is meeting it."""

    @abstractmethod
    def witness(self) -> Witness:
        """Returns a witness that records all journal entries that the pass has seen so far, including its own. Give the witness
        to another thread, whose pass joins it. May raise `NoMemory`."""

    @abstractmethod
    def join(self, witness: Witness) -> int:
        """Joins a witness, after which the pass and the witness have each seen what the other had seen. So each later version
        of the pass includes everything that the witness's pass had seen. Each later commit number of the pass is greater than
        the commit numbers of those entries. Returns how many journal entries both have seen. Raises `OtherStore` if the witness
        belongs to another store."""

    @abstractmethod
    def pin(self) -> Version:
        """Pins the current version and returns it. Use `with store.pin() as version:`, which unpins the version at the end of
        the block. Raises `Pinned` if the pass is already pinned. Takes constant time."""

    @abstractmethod
    def unpin(self) -> None:
        """Unpins the pass if it is pinned, even if its version is out of reach, such as in another function or a traceback. Reading
        that version then raises `NotPinned`."""

    @abstractmethod
    def _write(self, batch: Batch, waits: Waits, expected: Optional[int]) -> Tuple[int, List[int]]:
        """Writes a batch. If `expected` is given, writes the batch only if the journal has `expected` entries. Returns the
        commit number and, for each operation, the new node's number or 0."""

    @abstractmethod
    def journal(self, tries: int = TRIES, *, within: float = WITHIN) -> str:
        """Returns the journal so far: a line for each write, with the pass that wrote it, its operations and their outcomes.
        Retries like `apply` while another pass is writing. Uses memory for the whole journal. In the meantime, other writes raise
        `Busy`."""

    @abstractmethod
    def journal_from(self, number: int = 0, tries: int = TRIES, *, within: float = WITHIN) -> Iterator[Entry]:
        """Yields the journal entries after the first `number` entries, until there are no more. So
        `store.journal_from(version.number)` yields what was written after a snapshot. Each entry is read by a separate call,
        which retries like `apply` while another pass is writing, and then raises `Busy`."""

    @abstractmethod
    def status(self, tries: int = TRIES, *, within: float = WITHIN) -> Status:
        """Returns how full the store is, and which pass is the oldest active reader. Retries like `apply` while another
        pass is writing."""

    @abstractmethod
    def reach(self, number: int, within: float = 5) -> int:
        """Waits up to `within` seconds until the journal has at least `number` entries. Returns how many it has. Versions that
        the pass pins from then on include these entries. Raises `NotReached` if the timeout expires first."""

    def prepare(self, text: str) -> Prepared:
        """Prepares this query text for repeated use in versions of this store, like `bestore.prepare`. For a server's store,
        the server parses the text, so no library is needed; such a query can run only in versions of stores on servers. The
        errors are those of `bestore.prepare`."""
        return prepare(text)

    @abstractmethod
    def watch(self, query: Optional[str] = None) -> Watch:
        """Begins to follow what a query finds, or every commit if `query` is None. `Watch.wait` then waits for changes. For a
        store in this process, the watch pins the pass for each check, and uses memory for the nodes that the query finds.
        Raises a `QueryError` or `Pinned`."""

    def change(self, function: Callable[[Change], _Result], attempts: int = ATTEMPTS, *, check_kinds: bool = True,
               tries: int = TRIES, within: float = CHANGE_WITHIN) -> _Result:
        """Makes a write that depends on reads. Runs the function on a new snapshot, and commits the operations that the
        function collected, but only if nothing else has been written since that snapshot. Otherwise, runs the function again on
        a newer snapshot.

            def file(change):
                node = change.new()
                change[node]["MAIL:from"] = "Ada"
                return node

            node = store.change(file)

        Returns what the function's last run returned; `committed` is then the commit number. If the function collects no
        operation, nothing is written. The function may run several times, so it shouldn't have other effects that must not be
        repeated. The last run begins within `within` seconds after the first one that failed, and there are at most `attempts`
        runs. If the function raises, nothing is written.

        The function also runs again if another pass is writing, up to `tries` times. With more than one try, it also runs again
        on `Full` while another pass has the oldest snapshot.

        Raises `TooManyAttempts` if another write came first on every attempt in that time; `Pinned` if this pass is pinned; `Nested` if the
        function writes through this pass or unpins it; a TypeError if the function is async or a generator; and the errors of `apply`.
        `Change.set` explains `check_kinds`."""
        check_function(function)
        waits = Waits(attempts, within)
        while True:
            change = self._begin_change(check_kinds)
            try:
                self._is_changing = True
                try:
                    result = function(change)
                finally:
                    self._is_changing = False
                if not change._is_pinned:
                    raise Nested()
                if change._count == 0:
                    return result
                try:
                    self._committed = self._commit(change)
                    self._wake()
                    return result
                except (Conflict, Busy, Full) as error:
                    failed = error
            finally:
                change.unpin()
            if isinstance(failed, Busy):
                tries -= 1
            if self._may_succeed_later(failed, tries) and waits.pause():
                continue
            if isinstance(failed, Conflict):
                raise TooManyAttempts(waits.failed) from failed
            raise failed

    @abstractmethod
    def _begin_change(self, check_kinds: bool) -> Change:
        """Begins a change on the current version."""

    @abstractmethod
    def _commit(self, change: Change) -> int:
        """Writes what a change has collected, if nothing else has been written since its snapshot, and unpins that snapshot.
        Returns the commit number. Doesn't wait, but raises `Busy` immediately if another pass is writing, and `Full` if no page
        is free."""

    def _may_succeed_later(self, error: Refusal, tries: int) -> bool:
        """Returns whether another attempt at a change may succeed after this error, if another pass is writing at most this often."""
        if isinstance(error, Full):
            return tries > 1 and self._may_be_given_pages(error)
        return isinstance(error, Conflict) or tries > 0

    def _may_be_given_pages(self, error: Full) -> bool:
        """Returns whether pages may become free for a write that found no free page, because another pass can still unpin its snapshot."""
        return False

    def apply(self, batch: Batch, tries: int = TRIES, *, within: float = WITHIN) -> Tuple[int, List[int]]:
        """Applies all operations of a batch or none, whatever other passes have written in the meantime. Returns the commit
        number and, for each operation, the new node's number or 0. For a write that depends on reads, use `change`.

        While another pass is writing, and on `Full` while another pass has the oldest snapshot, the call is tried again, up to
        `tries` times in all. It gives up `within` seconds after the first failed try. Uses memory for the operations, and new
        pages on the path to each change in a tree.

        Raises `Busy`, `BadCount` or `NoMemory`; `NameLength`, `DataLength`, `HasNul`, `NotUTF8`, `NoKind` or `NoValue`, with
        the first invalid operation; `NoNode`, `NoAttribute`, `TooManyAttributes`, `IndexExists`, `NoIndex`, `TooManyIndices` or
        `NotIndexable`; `CommitsSpent` or `Full`."""
        return self._written(batch, Waits(tries, within))

    def apply_if(self, number: int, batch: Batch, tries: int = TRIES, *, within: float = WITHIN) -> Tuple[int, List[int]]:
        """Applies a batch like `apply`, but only if the journal has exactly `number` entries, that is, if nothing was written
        after the snapshot with this number. Otherwise raises `Conflict`, and nothing is written."""
        expected = operator.index(number)
        try:
            return self._written(batch, Waits(tries, within), expected)
        except Conflict as conflict:
            conflict.expected = expected
            raise

    def _written(self, batch: Batch, waits: Waits, expected: Optional[int] = None) -> Tuple[int, List[int]]:
        if self._is_changing:
            raise Nested()
        try:
            written = self._write(batch, waits, expected)
        except (NoNode, NoAttribute) as error:
            name_missing(error, batch)
            raise
        self._committed = written[0]
        self._wake()
        return written

    def _wake(self) -> None:
        """Wakes the threads that are waiting for this pass's writes."""

    def new_node(self) -> int:
        """Creates a node and returns its number. The errors are those of `apply`, here and in the calls below."""
        return self.apply(Batch().new_node())[1][0]

    def new_nodes(self, count: int) -> List[int]:
        """Creates this many nodes and returns their numbers. Each write creates up to 64 nodes."""
        if count < 0:
            raise ValueError(f"can't make {count} nodes; ask for 0 or more")
        made: List[int] = []
        while len(made) < count:
            batch = Batch()
            for _ in range(min(count - len(made), MOST_OPERATIONS)):
                batch.new_node()
            made += self.apply(batch)[1]
        return made

    def remove_node(self, node: int) -> None:
        """Removes a node and all its attributes."""
        self.apply(Batch().remove_node(node))

    def set(self, node: int, name: str, value: Value, kind: Optional[int] = None) -> None:
        """Sets an attribute, like `Batch.set`. Unlike in a change, the value's kind isn't checked against the index's kind."""
        self.apply(Batch().set(node, name, value, kind))

    def unset(self, node: int, name: str) -> None:
        """Removes an attribute."""
        self.apply(Batch().unset(node, name))

    def make_index(self, name: str, kind: int) -> None:
        """Creates an index with this name, for values of this kind. The index receives only attributes that are set from then
        on; `reindex` adds earlier ones by setting them again."""
        self.apply(Batch().make_index(name, kind))

    def remove_index(self, name: str) -> None:
        """Removes the index with this name."""
        self.apply(Batch().remove_index(name))

    def reindex(self, name: str) -> int:
        """Adds the attributes that were set before the index with this name was created, by setting them again to the same
        values. Each change sets up to 64 attributes, so no newer value is lost. Returns how many attributes were set. Raises
        `NoIndex` if there is no such index; other errors are those of `change`. Reads every node, and writes each of these
        attributes."""
        with self.pin() as version:
            kind = version.indices().get(name)
            if kind is None:
                raise NoIndex()
            held = set(version.query(all_in(name, kind)))
            lacking = [node for node in version if node not in held and version.kind(node, name) == kind]
        parts = [lacking[first:first + MOST_OPERATIONS] for first in range(0, len(lacking), MOST_OPERATIONS)]
        return sum(self.change(partial(_set_again, name, kind, part)) for part in parts)


def _set_again(name: str, kind: Kind, nodes: List[int], change: Change) -> int:
    """Sets an attribute of these nodes to its current value, if the value is of this kind."""
    for node in nodes:
        typed = change.typed(node, name)
        if typed is not None and typed.kind == kind:
            change.set(node, name, *typed)
    return change._count
