"""The parts that need the extension and the library: handles, and a faster class for batches. Stores in this process import
this module; clients of a server don't."""

from __future__ import annotations

import ctypes
from typing import Any, Callable, List

from . import _native
from ._library import Handle, Operation
from .handles import Owner
from .operations import Batch

PASS, PREPARED, BUILDER, WITNESS = 1, 2, 3, 4
"""The types of the library's handles."""


class HandleOwner(_native.Handle, Owner):
    """Owns one of the library's handles."""

    @property
    def _pointer(self) -> Any:
        """Returns the handle in the form that ctypes calls expect."""
        return ctypes.byref(Handle.from_address(self._address))

    @property
    def _is_live(self) -> bool:
        """Whether the handle is open."""
        return bool(Handle.from_address(self._address).live)

    def _give_up(self, call: Callable[..., int]) -> None:
        """Makes the call that releases the handle. A forked child leaves that call to its parent."""
        if not self._is_dead:
            self._call(call)


class NativeBatch(_native.Batch, Batch):
    """A batch whose operations are stored by the extension."""

    @property
    def _operations(self) -> List[Operation]:
        """Returns the operations in the library's form."""
        return list((Operation * len(self)).from_buffer_copy(self._raw))


def native(batch: Batch) -> NativeBatch:
    """Returns the batch in the form that the extension accepts."""
    if isinstance(batch, NativeBatch):
        return batch
    if not isinstance(batch, Batch):
        raise TypeError(f"{batch!r} isn't a batch: a write takes a `Batch`")
    copied = NativeBatch()
    copied._put(batch._raw, batch._bytes)
    return copied


_native.know(batch=NativeBatch)
Batch._made = NativeBatch
