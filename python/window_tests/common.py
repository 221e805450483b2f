"""Shared parts of the query window's tests."""

from __future__ import annotations

import atexit
import functools
import gc
import os
import time
import unittest
from contextlib import ExitStack
from typing import Callable, List, Optional

import bestore
from bestore_queries.sources import Condition, Session, Source, _FolderSession

import display

try:
    import tkinter
    from bestore_queries.window import Window
    HAS_TK = True
except ImportError:
    HAS_TK = False

PATIENCE = 30.0  # seconds that anything may take on a busy machine

# Only the thread that runs Tk may free Tk's objects, but Python collects cycles in any thread. So the tests collect them only
# in the main thread, after each test with a window.
gc.disable()


def write(path: str, text: str) -> None:
    """Writes a file."""
    with open(path, "w", encoding="utf-8") as file:
        file.write(text)


def wait_for(what: Callable[[], bool], seconds: float = PATIENCE) -> bool:
    """Waits for this to become true, and returns whether it did so in time."""
    end = time.monotonic() + seconds
    while not what():
        if time.monotonic() > end:
            return False
        time.sleep(0.005)
    return True


class MadeSource(Source):
    """A store created by the test."""

    title = "made"

    def __init__(self, store: bestore.Pass) -> None:
        self._store = store
        self.said = Condition("following")

    def open(self) -> Session:
        return _FolderSession(self._store.another())

    @property
    def condition(self) -> Condition:
        return self.said


def file_of(store: bestore.Pass, **attributes: bestore.Value) -> int:
    """Creates a node with these attributes."""
    def make(change: bestore.Change) -> int:
        node = change.new()
        change[node].update(attributes)
        return node
    return store.change(make)


def files_store(pages: int = 2048) -> bestore.Pass:
    """Opens a store with the indices for files."""
    store = bestore.open(pages, 8)
    for name in ("name", "BEOS:TYPE"):
        store.make_index(name, bestore.STRING)
    for name in ("size", "last_modified"):
        store.make_index(name, bestore.INT64)
    return store


@functools.lru_cache(None)
def open_display(size: str = display.SIZE, dots: int = display.DOTS) -> display.Screen:
    """Opens an in-memory display for all of this process's tests. Tk stays connected to it until the end."""
    displays = ExitStack()
    screen = displays.enter_context(display.display(size, dots))
    atexit.register(displays.close)
    return screen


class OnDisplay(unittest.TestCase):
    """Tests with a window on an in-memory display."""

    @classmethod
    def setUpClass(cls) -> None:
        if not HAS_TK:
            raise unittest.SkipTest("python3 has no Tk")
        try:
            os.environ["DISPLAY"] = open_display().name
        except FileNotFoundError as error:
            raise unittest.SkipTest(str(error)) from None

    def show(self, source: Source, size: str = display.SIZE, screen: Optional[display.Screen] = None, **options: object) -> "Window":
        """Opens a window of this size for a source. It is closed when the test ends."""
        self.addCleanup(gc.collect)
        root = tkinter.Tk(None if screen is None else screen.name)
        root.geometry(size)
        window = Window(root, source, **options)  # type: ignore[arg-type]
        self.addCleanup(source.close)
        self.addCleanup(window.close)
        return window

    def becomes(self, window: "Window", what: Callable[[], bool], seconds: float = PATIENCE) -> None:
        """Fails unless this becomes true in time."""
        def is_so() -> bool:
            window.root.update()
            return what()
        self.assertTrue(wait_for(is_so, seconds), f"{shown(window)} {window.state['text']} {window.message['text']}")

    def shows(self, window: "Window", *names: str) -> None:
        """Fails unless the first column shows these names in time."""
        self.becomes(window, lambda: [row[0] for row in window.list.shown()] == list(names))


def shown(window: "Window") -> List[str]:
    """Returns the first column."""
    return [row[0] for row in window.list.shown()]


def press(window: "Window", place: int, column: int = 0, *, times: int = 1, key: str = "") -> None:
    """Clicks a visible cell."""
    tree = window.list.tree
    window.root.update()
    x, y, width, height = tree.bbox(str(place), f"#{column}")  # type: ignore[misc]
    for _ in range(times):
        tree.event_generate(f"<{key}Button-1>", x=int(x) + 25, y=int(y) + int(height) // 2)
        tree.event_generate(f"<{key}ButtonRelease-1>", x=int(x) + 25, y=int(y) + int(height) // 2)
