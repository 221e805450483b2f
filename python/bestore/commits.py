"""Waiting, without polling, for writes by other passes in this process, and for a turn to write."""

from __future__ import annotations

import os
import threading
from contextlib import contextmanager, suppress
from typing import Iterator, Optional, Tuple
from weakref import WeakSet

from ._waits import Waits


class Waiter:
    """A thread that waits for commits. It checks the store, and then waits until there has been a commit since `begin`.

    The thread waits by acquiring a lock that the waking thread releases. Releasing that lock acquires no other lock, so a write
    may happen anywhere, even in a signal handler or while Python collects an object."""

    def __init__(self) -> None:
        self._sleep = threading.Lock()

    def begin(self) -> None:
        """Call this before each check, so that later commits end the next wait."""
        self._sleep.acquire(blocking=False)

    def wake(self) -> None:
        """Ends the current wait, or the next one."""
        with suppress(RuntimeError):  # another commit has released the lock
            self._sleep.release()

    def wait(self, left: Optional[float]) -> None:
        """Waits for a commit, up to `left` seconds, or forever if `left` is None."""
        most = threading.TIMEOUT_MAX
        self._sleep.acquire(timeout=most if left is None else min(max(left, 0), most))


class Commits:
    """The threads that are waiting for commits in a store. A pass of the store wakes them after each of its commits."""

    def __init__(self) -> None:
        self._lock = threading.RLock()
        self._turn = threading.RLock()  # so that of the threads that find another one writing, only one tries again and again
        self._waiting: Tuple[Waiter, ...] = ()  # replaced as a whole, so that a writer reads it without the lock
        _all.add(self)

    def wake(self) -> None:
        """Wakes all waiting threads."""
        for waiter in self._waiting:
            waiter.wake()

    @contextmanager
    def turn(self, waits: Waits) -> Iterator[None]:
        """Waits until no other thread is waiting to write to the store, or until time is up."""
        turn = self._turn
        has_turn = turn.acquire(timeout=min(max(waits.left(), 0), threading.TIMEOUT_MAX))
        try:
            yield
        finally:
            if has_turn:
                turn.release()

    @contextmanager
    def waiter(self) -> Iterator[Waiter]:
        """Yields a waiter for commits in the store."""
        waiter = Waiter()
        try:
            with self._lock:
                self._waiting += (waiter,)
            yield waiter
        finally:
            with self._lock:
                self._waiting = tuple(it for it in self._waiting if it is not waiter)


_all: "WeakSet[Commits]" = WeakSet()


def _unlock_in_child() -> None:
    """In a forked child, replaces the locks, because a thread that isn't in the child may hold them."""
    for store in list(_all):
        store._lock = threading.RLock()
        store._turn = threading.RLock()


os.register_at_fork(after_in_child=_unlock_in_child)
