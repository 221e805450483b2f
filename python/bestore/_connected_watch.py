"""Watches of a server's store."""

from __future__ import annotations

import time
from contextlib import suppress
from typing import TYPE_CHECKING, Optional, Set

from ._connected_errors import BrokenConnection, LineTooLong, NoWatch, error_of
from ._wire import JSON, read_indices, read_nodes
from .errors import Closed, Error, NotCovered, TooLong, encoded_query
from .watches import Changes, Watch

if TYPE_CHECKING:
    from .connected import ConnectedPass

_WORDS = 512  # per page


class ConnectedWatch(Watch):
    """A watch whose changes the server pushes. Any call on the pass receives pushed changes, which the watch keeps until it
    returns them. The server disconnects a program that makes no call for half a minute while more is pushed than the socket can
    hold.

    `Prepared` and `Version.refresh` work without pushes."""

    def __init__(self, user: ConnectedPass, query: Optional[str]) -> None:
        super().__init__(query)
        self._user = user
        self._created: Set[int] = set()
        self._removed: Set[int] = set()
        self._is_partial = self._is_new = False  # whether the commit has another push to come; whether there is anything to return
        self._last = 0  # the commit that the changes received so far lead to
        self._error: Optional[Error] = None  # the error that ended the watch
        self._number: Optional[int] = None
        parameters = {} if query is None else {"query": query}
        if query is not None:
            encoded_query(query)
        user._check_process()
        with user._lock:
            user._end_watches()
            try:
                user._ask("watch", parameters, self._read_first, query=query)
            except NotCovered as error:
                raise self._named(error) from None
            except LineTooLong:
                raise TooLong(query=query) from None

    def __del__(self) -> None:
        if self._number is not None:
            self._user._ended.append(self._number)

    def _read_first(self, ok: JSON) -> None:
        """Receives the first answer. From then on, pushes arrive, even before the call ends."""
        nodes = ok.get("nodes")
        if nodes is not None:
            self._created.update(read_nodes(nodes))
        self.commit = self._last = int(ok["commit"])
        self._is_new, self._is_partial = bool(nodes), bool(ok.get("more"))
        self._number = int(ok["watch"])
        self._user._watches[self._number] = self

    def _take(self, push: JSON) -> bool:
        """Takes changes. Returns whether the same commit has more changes."""
        error = push.get("error")
        if error is not None:
            self._error = error_of(self._user.path, error, self.query)
            self._forget()
        came, went = set(read_nodes(push["created"])), set(read_nodes(push["removed"]))
        created, removed = self._created - went | came - self._removed, self._removed - came | went - self._created
        self._check_room(max(len(created), len(removed)))
        # This is a single statement, because an interrupt may come between two statements.
        self._created, self._removed, self._last, self._is_new, self._is_partial = (
            created, removed, int(push["commit"]), True, bool(push.get("more")))
        return self._is_partial

    def _check_room(self, nodes: int) -> None:
        """Raises a ValueError if the server's store doesn't have room for this number of nodes. Each node takes at least one word of a
        page."""
        pages = self._user.server.pages
        if nodes > pages * _WORDS:
            raise ValueError(f"the server pushed more nodes than its {pages:,} pages have room for")

    def _forget(self) -> Optional[int]:
        """Ends the watch here. Returns its number, unless it had already ended."""
        number, self._number = self._number, None
        if number is not None:
            self._user._watches.pop(number, None)
        return number

    def _returned(self) -> Changes:
        changes = Changes(sorted(self._created), sorted(self._removed))
        self._created, self._removed, self._is_new, self.commit = set(), set(), False, self._last
        return changes

    def _named(self, error: NotCovered) -> NotCovered:
        """Returns the error for a query that needs another index, with the names of the existing indices."""
        error.indices = tuple(self._user._ask("indices", {}, read_indices))
        return error

    def _check(self) -> int:
        """Returns the number of the watch. Raises the error that ended the watch, or `Closed`."""
        if isinstance(self._error, NotCovered):
            raise self._named(self._error)
        if self._error is not None:
            raise self._error
        if self._number is None:
            raise Closed()
        return self._number

    def refresh(self) -> Changes:
        """Returns what changed since a call on this watch last returned something, up to the snapshot that the pass would read
        now. If the pass is pinned, that is the pinned snapshot. Otherwise, it is the current snapshot, which includes
        everything that this pass has written or seen. Takes a round trip."""
        user = self._user
        user._check_process()
        with user._lock:
            number = self._check()
            try:
                while user._ask("refresh", {"watch": number}, self._take, query=self.query):
                    pass
            except NotCovered as error:
                raise self._named(error) from None
            except NoWatch:
                self._check()
                raise
            return self._returned()

    def wait(self, timeout: Optional[float] = None) -> Optional[Changes]:
        """Returns the changes that were pushed and haven't been returned yet. If there are none, waits up to `timeout` seconds,
        or forever if `timeout` is None, and returns None if no change arrives. If `timeout` is 0, takes only what has already
        arrived. If an error has ended the watch, raises that error next, such as `NotCovered` after the query's index was
        removed. In the meantime, other threads' calls on the pass wait. If one of them closes the watch or the pass, this call
        raises `Closed`."""
        user = self._user
        user._check_process()
        until = None if timeout is None else time.monotonic() + timeout
        with user._lock:
            while not self._is_new or self._is_partial:
                self._check()
                left = None if until is None else max(until - time.monotonic(), 0)
                if not user._receive(left) and until is not None and time.monotonic() >= until:
                    return None
                user._end_watches()  # those that other threads close meanwhile
            if self._error is not None and not self._created and not self._removed:
                self._check()
            return self._returned()

    def close(self) -> None:
        """Ends the watch, unless it has already ended. If another thread is waiting for it, that wait ends with `Closed`. A wait
        for another watch of the pass goes on."""
        user, number = self._user, self._forget()
        if number is not None and not user._is_dead:
            user._ended.append(number)
            with suppress(BrokenConnection, Closed):
                user._end_closed(number)
