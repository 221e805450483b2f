"""A store in this process: its passes and versions, which call the library."""

from __future__ import annotations

import ctypes
import operator
import time
from typing import Any, Callable, Dict, Iterator, List, Optional, Tuple, TypeVar
from weakref import ref

from . import _native
from ._engine import BUILDER, PASS, WITNESS, HandleOwner, native
from ._library import Usage, calls, check
from ._local_change import LocalChange
from ._prepared import encode_items
from ._refreshes import refreshed
from ._surface import ErrorNumber
from ._waits import Waits
from .change import Change
from .commits import Commits
from .errors import (
    BadCursor, BadLimits, Conflict, Full, NoAttribute, NoIndex, NoNode, NotReached, OtherStore, Refusal, encoded_query, no_index,
    refusal)
from .nodes import name_missing
from ._listings import BEGINNING
from .operations import Batch
from .pages import Cursor, Order, Page
from .queries import Prepared, prepare
from .store import PASSES, TRIES, WITHIN, Entry, Held, Pass, Status, Witness
from .values import RANGES, Kind, Typed, Value
from .versions import Asked, Query, Row, Version
from .watches import LocalWatch

_Answered = TypeVar("_Answered", bound=Tuple[Any, ...])

_BUSY, _FULL = int(ErrorNumber.BUSY), int(ErrorNumber.FULL)


class LocalVersion(_native.Reader, Version):
    """A version of a store in this process. The extension implements most of its calls."""

    _user: LocalPass

    @property
    def next_node(self) -> int:
        node = ctypes.c_uint64()
        check(self._call(calls.bes_next, ctypes.byref(node)))
        return node.value

    def _nodes_of(self, asked: Query) -> List[int]:
        if isinstance(asked, tuple):
            return self._query_items(asked, *encode_items(asked))
        return self.query_prepared(asked) if isinstance(asked, Prepared) else self.query(asked)

    def _count_of(self, asked: Query) -> int:
        return self._count_items(asked, *encode_items(asked)) if isinstance(asked, tuple) else self.count(asked)

    def _first_of(self, asked: Query, start: int, limit: int) -> List[int]:
        if isinstance(asked, Prepared):
            return self._first(asked, start, limit, None) if start < 2**64 else []
        if isinstance(asked, str):
            with prepare(asked) as prepared:
                return self._first_of(prepared, start, limit)
        return super()._first_of(asked, start, limit)

    def _any_of(self, asked: Query, limit: int) -> List[int]:
        if isinstance(asked, Prepared):
            return self._any(asked, limit)
        if isinstance(asked, str):
            with prepare(asked) as prepared:
                return self._any(prepared, limit)
        return super()._any_of(asked, limit)

    def _rows_of(self, query: Asked, names: List[str], first: int, most: int) -> List[Row]:
        if isinstance(query, Prepared) and most != 0 and first < 2**64:
            return self._first(query, first, most, names)
        if isinstance(query, str) and most != 0:
            with prepare(query) as prepared:
                return self._rows_of(prepared, names, first, most)
        return super()._rows_of(query, names, first, most)

    def _page_of_rows(self, query: Asked, names: List[str], order: Order, after: Optional[Cursor], most: int) -> Page[Row]:
        return self._page_of(query, order, after, most, names)

    def _page_of(self, asked: Asked, order: Order, after: Optional[Cursor], limit: Optional[int],
                 names: Optional[List[str]] = None) -> Page[Any]:
        """Returns a page of nodes, or of rows if there are names."""
        if not isinstance(asked, Prepared):
            with prepare(asked) as prepared:
                return self._page_of(prepared, order, after, limit, names)
        check, kind, key = asked._check, 0, b""
        if after is not None:
            after.check_fits(order, check)
            kind, key = after.kind or 0, after.key
        try:
            return self._page(asked, order, check, kind, key, limit, names)
        except NoIndex:
            raise no_index(order.by, self.indices()) from None
        except BadCursor:
            if after is None:
                raise
            raise after.of_other_kind(self._order_kind(order.by)) from None

    def _query_error(self, answer: int, carried: int, asked: Query) -> Refusal:
        """Returns the error for a query, with its details."""
        if answer == ErrorNumber.NOT_COVERED:
            return self._not_covered(asked)
        if isinstance(asked, str):
            return refusal(answer, carried, asked)
        return refusal(answer, carried, listed="item")

    def refresh(self, prepared: Prepared) -> Tuple[List[int], List[int]]:
        if not isinstance(prepared, Prepared):
            return super().refresh(prepared)  # which raises
        return self._refreshed(prepared, super().refresh)

    def refresh_changed(self, prepared: Prepared) -> Tuple[List[int], List[int]]:
        if not isinstance(prepared, Prepared):
            return super().refresh(prepared)  # which raises
        prepared._check_process()
        with prepared._refreshing:
            # The library reads the entries since the last refresh, so the last refresh must have been in this store.
            if prepared._refreshed_in is self._user._store:
                return self._refreshed(prepared, self._refresh_changed)
            return self.refresh(prepared)

    def _refreshed(
            self, prepared: Prepared, refresh: Callable[[Prepared], Tuple[List[int], List[int]]]) -> Tuple[List[int], List[int]]:
        """Returns what changed. `refresh` is one of the calls that refresh a query in the library."""
        prepared._check_process()
        with prepared._refreshing:
            # If a signal or a lack of memory ends this call before `_seen` has the answer, the next refresh compares whole answers.
            is_in_library, refreshed_in = prepared._is_in_library, prepared._refreshed_in
            prepared._is_in_library, prepared._refreshed_in = False, None
            try:
                came, went = refresh(prepared)
            except Refusal:
                prepared._is_in_library, prepared._refreshed_in = is_in_library, refreshed_in
                raise
            prepared._refreshed_in = self._user._store
            if not is_in_library:
                return refreshed(prepared, self.query_prepared(prepared), is_in_library=True)
            prepared._seen.symmetric_difference_update(came + went)
            prepared._is_in_library = True
            return came, went

    def explain(self, text: str) -> str:
        return self._text_about(calls.bes_explain, text)

    def ways(self, text: str) -> str:
        return self._text_about(calls.bes_ways, text)

    def _text_about(self, call: Callable[..., int], text: str) -> str:
        """Returns the text that a call writes about a query."""
        taken, count, room = encoded_query(text), ctypes.c_uint64(), 256
        while True:
            written = ctypes.create_string_buffer(room)
            answer = self._call(call, taken, len(taken), written, room, ctypes.byref(count))
            if answer != 0:
                raise self._query_error(answer, count.value, text)
            if count.value <= room:
                return written.raw[:count.value].decode()
            room = count.value

    def _listed(self, node: int) -> Dict[str, Typed]:
        return self.attributes(node, True)

    def listing(self) -> Iterator[bytes]:
        batch, node, records = self._listing_from(0, 0)
        while len(batch) > len(BEGINNING):
            yield batch
            if node == 0:
                return
            batch, node, records = self._listing_from(node, records)


class LocalWitness(HandleOwner, Witness):
    """A witness for a pass of a store in this process."""

    def __init__(self, store: object) -> None:
        super().__init__(WITNESS)
        self._store = store

    def close(self) -> None:
        self._give_up(calls.bes_dismiss)


class LocalPass(HandleOwner, Pass):
    """A pass of a store in this process."""

    _store: Commits  # shared by all passes of a store
    _opener: ref[LocalPass]  # the pass that opened the store

    def __init__(self) -> None:
        super().__init__(PASS)

    def _open_by(self, user: LocalPass) -> None:
        """Opens the handle as another pass of the store that `user` belongs to. Only the pass that opened the store holds passes that
        were never used. Once it is closed, any pass can take them."""
        self._store, self._opener = user._store, user._opener
        answer, opener = user._call(calls.bes_another, self._pointer), user._opener()
        if answer == ErrorNumber.NO_PASS and opener is not None and opener is not user:
            answer = opener._call(calls.bes_another, self._pointer)
            if answer == ErrorNumber.CLOSED:
                answer = user._call(calls.bes_another, self._pointer)
        check(answer)

    def _tried(self, waits: Waits, call: Callable[..., int], *arguments: Any) -> int:
        """Makes a call at least once, and repeats it while another pass is writing and `waits` allows it."""
        answer = self._call(call, *arguments)
        if answer == _BUSY:
            with self._store.turn(waits):
                while answer == _BUSY and waits.pause():
                    answer = self._call(call, *arguments)
        return answer

    def _repeated(self, waits: Waits, call: Callable[..., _Answered], *arguments: Any) -> _Answered:
        """Makes a call in the extension, with retries as in `_tried`. Such a call also returns the details of the library's
        error number."""
        answered = call(*arguments)
        if answered[0] == _BUSY:
            with self._store.turn(waits):
                while answered[0] == _BUSY and waits.pause():
                    answered = call(*arguments)
        return answered

    def _write(self, batch: Batch, waits: Waits, expected: Optional[int]) -> Tuple[int, List[int]]:
        """Writes a batch, and retries while another pass is writing. If no page is free, it also waits for other passes to unpin
        older snapshots."""
        taken = native(batch)
        if expected is None:
            before: Tuple[int, ...] = ()
        else:
            before = (expected if expected in RANGES[Kind.UINT64] else 2**64 - 1,)  # a number that no journal has
        answer, number, made = self._repeated(waits, self._apply, taken, *before)
        while answer == _FULL and waits.tries > 1 and self._is_kept_by_another(number) and waits.pause():
            answer, number, made = self._repeated(waits, self._apply, taken, *before)
        if answer != 0:
            raise refusal(answer, number, listed="operation")
        return number, made

    def _begin_change(self, check_kinds: bool) -> Change:
        version = LocalVersion(self)
        try:
            return LocalChange(version, check_kinds)
        except BaseException:  # an interrupt, whose traceback would keep the version pinned
            version.unpin()
            raise

    def _commit(self, change: Change) -> int:
        assert isinstance(change, LocalChange)
        version = change._snapshot
        answer, number, batch = version._end_change()
        if answer == 0:
            return number
        error = refusal(answer, number, listed="operation")
        if isinstance(error, Conflict):
            error.expected = version.number
        elif isinstance(error, (NoNode, NoAttribute)) and batch is not None:
            name_missing(error, batch)
        raise error

    def _may_be_given_pages(self, error: Full) -> bool:
        return error.least is not None and self._is_kept_by_another(error.least)

    def _is_kept_by_another(self, least: int) -> bool:
        """Returns whether pages may become free for a write that found no free page because the pages of commit number `least`
        and later were kept. This is the case if another pass is, or was, the oldest active reader."""
        try:
            status = self.status()
        except Refusal:
            return False
        if least >= status.entries:
            return False
        oldest = status.oldest
        return oldest is None or oldest.pass_number != self.number and (self._pinned is None or self._pinned > oldest.version)

    def _wake(self) -> None:
        if self._store._waiting:
            self._store.wake()

    def set(self, node: int, name: str, value: Value, kind: Optional[int] = None) -> None:
        if self._set(node, name, value, kind):
            self._store.wake()
        else:
            super().set(node, name, value, kind)

    @property
    def number(self) -> int:
        number = ctypes.c_uint64()
        check(self._call(calls.bes_number, ctypes.byref(number)))
        return number.value

    def another(self) -> LocalPass:
        other = LocalPass()
        other._open_by(self)
        return other

    def close(self) -> None:
        self._give_up(calls.bes_close)
        self._store.wake()  # a thread waiting with this pass finds the pass closed

    def finish(self) -> str:
        return self._text(Waits(1, 0), calls.bes_finish)

    def meet(self) -> int:
        seen = ctypes.c_uint64()
        check(self._call(calls.bes_meet, ctypes.byref(seen)))
        return seen.value

    def witness(self) -> LocalWitness:
        witness = LocalWitness(self._store)
        check(self._call(calls.bes_witness_of, witness._pointer))
        return witness

    def join(self, witness: Witness) -> int:
        if not isinstance(witness, Witness):
            raise TypeError(f"{witness!r} isn't a witness: a pass makes one with `witness()`")
        if not isinstance(witness, LocalWitness) or witness._store is not self._store:
            raise OtherStore()
        seen = ctypes.c_uint64()
        check(witness._call(lambda pointer: self._call(calls.bes_join, pointer, ctypes.byref(seen))))
        return seen.value

    def pin(self) -> LocalVersion:
        return LocalVersion(self)

    def unpin(self) -> None:
        self._unpin()

    def journal(self, tries: int = TRIES, *, within: float = WITHIN) -> str:
        return self._text(Waits(tries, within), calls.bes_journal)

    def _text(self, waits: Waits, call: Callable[..., int]) -> str:
        """Returns the text that a call writes. Repeats the call until the buffer is large enough for the whole text."""
        count, room = ctypes.c_uint64(), 65536
        while True:
            written = ctypes.create_string_buffer(room)
            check(self._tried(waits, call, written, room, ctypes.byref(count)), count.value)
            if count.value <= room:
                return written.raw[:count.value].decode()
            room = 2 * count.value

    def journal_from(self, number: int = 0, tries: int = TRIES, *, within: float = WITHIN) -> Iterator[Entry]:
        number = max(operator.index(number), 0)
        while number < 2**64:
            answer, carried, by, batch = self._repeated(Waits(tries, within), self._journal_entry, number)
            check(answer, carried)
            if batch is None:
                return
            number += 1
            yield Entry(number, by, tuple(batch))

    def status(self, tries: int = TRIES, *, within: float = WITHIN) -> Status:
        usage, number = Usage(), ctypes.c_uint64()
        check(self._tried(Waits(tries, within), calls.bes_status, ctypes.byref(usage), ctypes.byref(number)), number.value)
        oldest = Held(usage.oldest, usage.holder) if usage.is_held else None
        return Status(usage.pages, usage.free, usage.retired, usage.entries, usage.commits, oldest)

    def reach(self, number: int, within: float = 5) -> int:
        wanted, until = operator.index(number), time.monotonic() + within
        with self._store.waiter() as waiter:
            while True:
                waiter.begin()
                found = self.status().entries
                if found >= wanted:
                    return found
                left = until - time.monotonic()
                if left <= 0:
                    raise NotReached(wanted, found)
                waiter.wait(left)

    def watch(self, query: Optional[str] = None) -> LocalWatch:
        return LocalWatch(self, query)


_native.know(user=LocalPass, page=Page)


def _check_limits(*limits: int) -> None:
    """Raises `BadLimits` if a limit doesn't fit in 64 bits."""
    if not all(0 <= operator.index(limit) < 2**64 for limit in limits):
        raise BadLimits()


def _first_pass() -> LocalPass:
    """Returns the first pass of a new store, whose handle isn't open yet."""
    user = LocalPass()
    user._store, user._opener = Commits(), ref(user)
    return user


class LocalBuilder(HandleOwner):
    """The library's builder of a store."""

    def __init__(self, pages: int, passes: int, commits: int) -> None:
        super().__init__(BUILDER)
        _check_limits(pages, passes, commits)
        check(calls.bes_build(pages, passes, commits, self._pointer))

    def close(self) -> None:
        self._give_up(calls.bes_build_close)

    def finish(self, next_node: int) -> LocalPass:
        """Like `Builder.finish`."""
        user, number = _first_pass(), operator.index(next_node)
        check(self._call(calls.bes_build_finish, min(max(number, 0), 2**64 - 1), user._pointer))
        return user


def open(pages: int = 16_384, passes: int = PASSES, commits: int = 2**32 - 1) -> LocalPass:
    """Like `opening.open`."""
    _check_limits(pages, passes, commits)
    user = _first_pass()
    check(calls.bes_open(pages, passes, commits, user._pointer))
    return user
