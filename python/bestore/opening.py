"""Opening a store in this process, which needs the extension and the library. A client of a server needs neither."""

from __future__ import annotations

from typing import TYPE_CHECKING

from .store import PASSES

if TYPE_CHECKING:
    from .local import LocalPass


def open(pages: int = 16_384, passes: int = PASSES, commits: int = 2**32 - 1) -> LocalPass:
    """Opens a new store in memory, and returns its first pass. The store has `pages` pages of 4 KiB (8 to 16,777,216), and up
    to `passes` passes (1 to 64; `store.PASSES` gives the cost of each). It accepts up to `commits` writes (1 to 2^32 - 1) in
    its lifetime. Opening it takes time for each page, and memory for all of them. Afterwards, only pages that have been used
    take memory. Raises `BadLimits` if a limit is out of range, or `NoMemory`."""
    from . import local
    return local.open(pages, passes, commits)
