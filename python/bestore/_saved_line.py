"""The queue of threads waiting for a store's file."""

from __future__ import annotations

import threading
from contextlib import contextmanager
from typing import Iterator, List, NoReturn, Optional


class Turn:
    """A thread's turn in the queue. A turn for a write has the write's commit number. A turn for the file itself has no number."""

    __slots__ = ("number", "thread", "_lock")

    def __init__(self, number: Optional[int] = None) -> None:
        self.number = number
        self.thread: Optional[int] = None  # the thread that takes it
        self._lock: Optional[threading.Lock] = None  # held until the thread may continue

    def prepare(self) -> None:
        self._lock = threading.Lock()
        self._lock.acquire()

    def wait(self) -> None:
        assert self._lock is not None
        self._lock.acquire()

    def wake(self) -> None:
        """Lets the thread continue. A second call has no effect."""
        if self._lock is not None and self._lock.locked():
            self._lock.release()


def _refuse() -> NoReturn:
    """Refuses a call that would wait for another one of its own thread."""
    raise RuntimeError("a call on this file was made during another one in the same thread, such as by a signal handler")


class Line:
    """Tracks which thread has the file and which are waiting for it. Each thread waits for its own lock, so a commit wakes only
    the threads whose writes it saved and the thread that gets the file next.

    A signal handler or a finalizer may run anywhere, even while its thread has the file or is in one of the calls below. Its own
    calls then raise a RuntimeError."""

    def __init__(self, saved: int) -> None:
        self.saved = saved
        """The file contains all entries up to this commit number. The thread that has the file sets the number."""
        self._mutex = threading.RLock()
        self._changing = threading.Lock()  # held only by the thread that has the mutex
        self._owner: Optional[Turn] = None
        self._askers: List[Turn] = []
        self._writers: List[Turn] = []

    @property
    def askers(self) -> int:
        """How many threads are waiting for the file itself."""
        return len(self._askers)

    @contextmanager
    def turn(self) -> Iterator[None]:
        """Waits for exclusive use of the file, before all waiting writes."""
        turn = Turn()
        try:
            self.take(turn)
            yield
        finally:
            self.leave(turn)

    def take(self, turn: Turn) -> bool:
        """Waits until the turn has the file, or its write is saved. Returns whether the turn has the file. Always call `leave`
        afterwards, even after an interrupt. Raises a RuntimeError if the thread has another turn."""
        turn.thread = threading.get_ident()
        with self._mutex:
            if self._changing.locked():
                _refuse()
            with self._changing:
                if turn.number is not None and turn.number <= self.saved:
                    return False
                if self._owner is None:
                    self._owner = turn
                    return True
                if any(other.thread == turn.thread for other in (self._owner, *self._askers, *self._writers)):
                    _refuse()
                turn.prepare()
                (self._askers if turn.number is None else self._writers).append(turn)
        turn.wait()
        return self._owner is turn

    def leave(self, turn: Turn) -> None:
        """Ends a turn, or the wait for a turn: passes the file to the next turn, and wakes the threads whose writes are
        saved."""
        try:
            self._leave(turn)
        except BaseException:  # an interrupt, which mustn't keep other threads waiting
            self._leave(turn)
            raise

    def _leave(self, turn: Turn) -> None:
        """Does the work of `leave`. This call can be repeated after an interrupt."""
        with self._mutex:
            if self._changing.locked():
                return  # `take` has refused this turn
            with self._changing:
                if self._owner is turn:
                    self._owner = self._next(turn)
                if self._askers or self._writers:
                    self._wake(turn)

    def _next(self, turn: Turn) -> Optional[Turn]:
        """Returns the turn that gets the file after this one."""
        for other in self._askers:
            if other is not turn:
                return other
        return next((other for other in self._writers if other is not turn and not self._is_saved(other)), None)

    def _is_saved(self, turn: Turn) -> bool:
        return turn.number is not None and turn.number <= self.saved

    def _wake(self, gone: Optional[Turn] = None) -> None:
        """Wakes the threads that can continue. Removes from the queue the turns of these threads, and also the turn that has
        ended."""
        owner, left = self._owner, []
        if owner is not None:
            owner.wake()
        for other in self._writers:
            if self._is_saved(other):
                other.wake()
            elif other is not owner and other is not gone:
                left.append(other)
        self._writers = left
        if self._askers:
            self._askers = [other for other in self._askers if other is not owner and other is not gone]
