"""Watches: queries whose changes a program can wait for."""

from __future__ import annotations

import time
from abc import ABC, abstractmethod
from typing import TYPE_CHECKING, Iterator, List, NamedTuple, Optional

from .errors import Closed
from .handles import Uncopied
from .queries import prepare

if TYPE_CHECKING:
    from .local import LocalPass


class Changes(NamedTuple):
    """What changed in a query's answer. It unpacks like the result of `Version.refresh`."""

    created: List[int]
    """The nodes that joined, in ascending order."""
    removed: List[int]
    """The nodes that left, in ascending order."""


class Watch(Uncopied, ABC):
    """A live query that waits for changes, created by `Pass.watch`. The first time, all nodes that match the query join.

        with store.watch("MAIL:status==New") as unread:
            for came, went in unread:
                print(came, went)

    The changes returned so far add up to what the query finds at `commit`. Changes from several commits are returned together.
    Without a query, a watch waits for every commit and never returns nodes."""

    _what = "watch"
    _instead = "watch the query once more, through another pass in another thread"

    def __init__(self, query: Optional[str]) -> None:
        self.query = query
        """The query's text, or None if every commit is watched."""
        self.commit = 0
        """The commit number of the snapshot that the returned changes lead to. Initially, this is the snapshot of the first
        answer."""

    def __repr__(self) -> str:
        return f"<watch of {self.query or 'each commit'} at commit {self.commit}>"

    def __enter__(self) -> Watch:
        return self

    def __exit__(self, *_: object) -> None:
        self.close()

    def __iter__(self) -> Iterator[Changes]:
        """Yields changes forever, each as soon as it arrives."""
        while True:
            changes = self.wait()
            assert changes is not None
            yield changes

    @abstractmethod
    def refresh(self) -> Changes:
        """Returns what changed since a call on this watch last returned something, up to what the pass would read now."""

    @abstractmethod
    def wait(self, timeout: Optional[float] = None) -> Optional[Changes]:
        """Returns the changes that haven't been returned yet. If there are none, waits up to `timeout` seconds, or forever if
        `timeout` is None, and returns None if no change arrives."""

    @abstractmethod
    def close(self) -> None:
        """Ends the watch, unless it has already ended."""


class LocalWatch(Watch):
    """A watch on a store in this process. A pass that writes wakes the waiting threads, so no thread polls. Each check pins the
    pass, and raises `Pinned` if the pass is already pinned. The check runs the query with `Version.refresh_changed`, because
    little is written between two checks."""

    def __init__(self, user: LocalPass, query: Optional[str]) -> None:
        super().__init__(query)
        self._user, self._is_open = user, True
        with user.pin() as version:
            if query is not None:
                version.explain(query)  # raises the error if the query isn't valid
            self.commit = version.number
        self._seen = None if query is not None else self.commit
        self._live = None if query is None else prepare(query)

    def _look(self) -> Optional[Changes]:
        """Returns what changed since the last check, or None if nothing has been committed since."""
        if not self._is_open:
            raise Closed()
        with self._user.pin() as version:
            if version.number == self._seen:
                return None
            changes = Changes([], []) if self._live is None else Changes(*version.refresh_changed(self._live))
            self._seen = self.commit = version.number
        return changes

    def refresh(self) -> Changes:
        return self._look() or Changes([], [])

    def wait(self, timeout: Optional[float] = None) -> Optional[Changes]:
        until = None if timeout is None else time.monotonic() + timeout
        with self._user._store.waiter() as waiter:
            while True:
                waiter.begin()
                changes = self._look()
                if changes is not None and (self._live is None or any(changes)):
                    return changes
                left = None if until is None else until - time.monotonic()
                if left is not None and left <= 0:
                    return None
                waiter.wait(left)

    def close(self) -> None:
        self._is_open = False
        if self._live is not None:
            self._live.close()
        self._user._store.wake()  # a thread waiting with this watch finds it closed
