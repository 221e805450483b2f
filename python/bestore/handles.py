"""Handles: who owns a handle, and what happens to it in a forked child."""

from __future__ import annotations

import os
import threading
from types import TracebackType
from typing import ClassVar, NoReturn, Optional, SupportsIndex, Type, TypeVar

from .errors import Forked

_Self = TypeVar("_Self", bound="Owner")

class Uncopied:
    """Something of which there is only one, because a copy would release what the original still uses. Copying or pickling it
    raises a TypeError."""

    _what: ClassVar[str] = "handle"  # in messages
    _instead: ClassVar[str] = "open another one"  # what to do instead

    def __reduce_ex__(self, protocol: SupportsIndex) -> NoReturn:
        """Raises, because `copy`, `deepcopy` and `pickle` all begin with this call."""
        raise TypeError(f"a {self._what} can't be copied or pickled; {self._instead}")


class Owner(Uncopied):
    """Owns a handle and releases it on `close`, at the end of a `with`, or when the owner is destroyed.

    A handle takes one call at a time, so calls from several threads wait for each other. In a forked child, the handle is dead:
    each call raises `Forked`, and releasing the handle does nothing. The child can create its own handles."""

    def close(self) -> None:
        raise NotImplementedError

    def __enter__(self: _Self) -> _Self:
        return self

    def __exit__(self, kind: Optional[Type[BaseException]], value: Optional[BaseException],
                 trace: Optional[TracebackType]) -> None:
        self.close()

    def __del__(self) -> None:
        self.close()


class LockOwner(Owner):
    """Owns something outside the library, such as a connection, which it guards with a lock."""

    _forks: ClassVar[int] = 0

    def __init__(self) -> None:
        super().__init__()
        self._lock = threading.RLock()
        self._made_after = LockOwner._forks

    @property
    def _is_dead(self) -> bool:
        """Whether this process was forked after the handle was created."""
        return self._made_after != LockOwner._forks

    def _check_process(self) -> None:
        """Raises `Forked` if the handle is dead. Call this before each wait for the lock, because the thread that holds it may
        not exist in this process."""
        if self._made_after != LockOwner._forks:
            raise Forked()


def _count_fork() -> None:
    LockOwner._forks += 1


os.register_at_fork(after_in_child=_count_fork)
