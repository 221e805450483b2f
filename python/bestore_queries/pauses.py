"""Keeps Python itself from causing long pauses in the window."""

from __future__ import annotations

import contextlib
import gc
import sys
import tkinter as tk
from typing import Iterator

SWITCH = 0.0005
"""The number of seconds after which a thread lets another thread run. The window calls Tk often, and must wait for its turn
each time."""
LOOK = 1_000
"""The number of milliseconds between garbage collections."""
MANY = 50_000
"""If there are more new objects than this, nothing is collected: most of them are hits, which have no cycles and are never
examined."""


@contextlib.contextmanager
def short_pauses(root: tk.Tk) -> Iterator[None]:
    """During the `with` block, threads take turns quickly, and the garbage collector examines only new objects. Otherwise, a
    collection would take longer the more hits there were."""
    before = sys.getswitchinterval()
    sys.setswitchinterval(SWITCH)
    gc.disable()

    waiting = ""

    def collect() -> None:
        nonlocal waiting
        if gc.get_count()[0] > MANY:
            gc.freeze()
        else:
            gc.collect(0)
        waiting = root.after(LOOK, collect)
    waiting = root.after(LOOK, collect)
    try:
        yield
    finally:
        with contextlib.suppress(tk.TclError):  # the window may have been closed
            root.after_cancel(waiting)
        gc.unfreeze()
        gc.enable()
        sys.setswitchinterval(before)
