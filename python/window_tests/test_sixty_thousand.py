"""The window with 60,000 nodes: how long its event loop is busy, and how soon an order's first hits are shown.

    PYTHONPATH=python:python/window_tests python3 python/window_tests/test_sixty_thousand.py --print

prints each phase's longest time, and with `--nodes 83000` for this many nodes. The limit is a tenth of a second, so this needs
an otherwise idle machine. Among other tests, the limit is one second, because the loop then has to wait for a processor.
"""

from __future__ import annotations

import os
import sys
import threading
import time
import unittest
from typing import Callable, Dict, List

import bestore
from bestore_queries.sources import ServerSource, Source

import servers
from common import HAS_TK, MadeSource, OnDisplay

if HAS_TK:
    from bestore_queries.pauses import short_pauses
    from bestore_queries.window import Window

NODES = 60_000
PAGES = 81_920
STEP = 10      # nodes per batch
LONGEST = 0.1  # the limit in seconds for a run that prints the times
LOADED = 1.0   # the limit in seconds among other tests
TRIES = 3      # because the machine may be busy
PATIENCE = 120.0


def make_nodes(store: bestore.Pass) -> None:
    """Creates files with five attributes, three of which are indexed."""
    for name, kind in (("name", bestore.STRING), ("size", bestore.INT64), ("last_modified", bestore.INT64)):
        store.make_index(name, kind)
    for first in range(0, NODES, STEP):
        batch = bestore.Batch()
        for number in range(first, first + STEP):
            set_attributes(batch.new_node(), number + 1, number)
        store.apply(batch)


def set_attributes(batch: bestore.Batch, node: int, number: int) -> None:
    """Sets a file's attributes. Most of these values occur in other files too."""
    batch.set(node, "name", f"file {number * 7919 % 60_013}.txt").set(node, "size", number * 31 % 9973)
    batch.set(node, "last_modified", 1_700_000_000 + number * 101 % 50_000).set(node, "BEOS:TYPE", f"type/{number % 101}")
    batch.set(node, "folder", f"/home/somebody/folder {number % 307}")


class Gaps:
    """The longest time between two moments at which the event loop handled pending events."""

    def __init__(self, window: "Window") -> None:
        self._root = window.root
        self._last, self.longest = time.perf_counter(), 0.0
        self._tick()

    def _tick(self) -> None:
        now = time.perf_counter()
        self.longest, self._last = max(self.longest, now - self._last), now
        self._next = self._root.after(1, self._tick)

    def end(self) -> None:
        self._root.after_cancel(self._next)


def loop(window: "Window", is_done: Callable[[], bool], pause: int = 20) -> float:
    """Runs the event loop until a condition holds, which is tested after each pause of this many milliseconds. Returns the longest
    time that the loop was busy."""
    gaps, end = Gaps(window), time.monotonic() + PATIENCE

    def look() -> None:
        if is_done():
            window.root.quit()
        elif time.monotonic() > end:
            raise TimeoutError(f"{len(window.hits)} hits after {PATIENCE:g} seconds: {window.message['text']}")
        else:
            window.root.after(pause, look)
    window.root.after(pause, look)
    window.root.mainloop()
    gaps.end()
    return gaps.longest


def settle(window: "Window") -> bool:
    return not window.hits.is_sorting and window._asker.reports.empty() and len(window.hits) == NODES


def shows(window: "Window", nodes: List[int]) -> bool:
    """Returns whether the list shows these nodes and has painted them."""
    window.list.update_idletasks()
    return [window.hits[place].node for place in range(min(len(nodes), len(window.hits)))] == nodes


def seconds_until(window: "Window", nodes: List[int]) -> float:
    """Returns how long it takes until the list shows these nodes first. On a busy machine, `update` would return only after all hits
    had come, because it handles the events that become due in the meantime."""
    begin = time.perf_counter()
    loop(window, lambda: shows(window, nodes), pause=1)
    return time.perf_counter() - begin


def measure_first(window: "Window", store: bestore.Pass) -> Dict[str, float]:
    """Measures how soon an order's first hits are shown if an index provides that order."""
    def first(text: str, by: str, descending: bool = False) -> List[int]:
        with store.pin() as version:
            return version.query(text, by=by, descending=descending, limit=window.list.room)
    loop(window, lambda: settle(window))
    everything, found = window._query.get(), {}
    sizes, times = window.list.columns[1:3]
    for phase, column, is_turned in [("by size", sizes, False), ("by time", times, False), ("by time, the newest first", times, True)]:
        nodes = first(everything, column.attribute, is_turned)
        window.sort(column)
        found[f"the first hits {phase}"] = seconds_until(window, nodes)
        loop(window, lambda: settle(window))
        assert shows(window, nodes)
    nodes = first("size>=997", times.attribute, True)
    window.ask("size>=997")
    found["the first hits of a query"] = seconds_until(window, nodes)
    return found


class Writer(threading.Thread):
    """Renames files as another program might."""

    def __init__(self, store: bestore.Pass, nodes: List[int], name: str) -> None:
        super().__init__()
        self._store, self._nodes, self._name = store.another(), nodes, name
        self.start()

    def run(self) -> None:
        for first in range(0, len(self._nodes), bestore.MOST_OPERATIONS):
            batch = bestore.Batch()
            for node in self._nodes[first:first + bestore.MOST_OPERATIONS]:
                batch.set(node, "name", self._name)
            self._store.apply(batch)
        self._store.close()


def measure(window: "Window", store: bestore.Pass, name: str) -> Dict[str, float]:
    """Returns each phase's longest time in seconds."""
    found = {"all hits come": loop(window, lambda: settle(window))}
    every = [window.hits[place].node for place in range(NODES)]
    for column in (1, 3, 0):
        window.sort(window.list.columns[column])
        found[f"sorting by {window.list.columns[column].title}"] = loop(window, lambda: settle(window))
    window.sort(window.list.columns[0])
    found["reversing the order"] = loop(window, lambda: settle(window))
    places = iter(range(0, NODES, NODES // 200))

    def scroll() -> bool:
        place = next(places, None)
        if place is not None:
            window.list._scroll("moveto", str(place / NODES))
        return place is None
    found["scrolling"] = loop(window, scroll)
    for phase, nodes in (("6,000 are renamed", every[::10]), ("all are renamed", every)):
        writer, new = Writer(store, nodes, name + phase), name + phase
        found[phase] = loop(window, lambda: all(is_named(window, node, new) for node in nodes[-1:0:-500]) and settle(window))
        writer.join()
    window.list._select_all()
    found["all are selected"] = loop(window, lambda: settle(window))
    for query, count in (("size<997", NODES // 10), ("name==*", NODES)):
        window.ask(query)
        found[f"the query {query}"] = loop(window, lambda: window._count is not None and abs(len(window.hits) - count) < 100)
    return found


def is_named(window: "Window", node: int, name: str) -> bool:
    hit = window.hits.get(node)
    return hit is not None and hit.attributes["name"] == name


def limit() -> float:
    """Returns how many seconds a phase may take."""
    return LONGEST if "--print" in PRINTS else LOADED


COLUMNS = ["name", "size", "last_modified", "BEOS:TYPE", "folder"]


class SixtyThousand(OnDisplay):
    def shortest(self, source: Callable[[], Source], measured: Callable[["Window", int], Dict[str, float]]) -> Dict[str, float]:
        """Returns each phase's shortest time over several attempts, each in a new window."""
        best: Dict[str, float] = {}
        for turn in range(TRIES):
            window = self.show(source())
            window.choose(COLUMNS)
            with short_pauses(window.root):
                for phase, seconds in measured(window, turn).items():
                    best[phase] = min(best.get(phase, seconds), seconds)
            window.close()
            if max(best.values()) < limit():
                break
        return best

    def check(self, source: Callable[[], Source], store: bestore.Pass) -> None:
        best = {**self.shortest(source, lambda window, turn: measure_first(window, store)),
                **self.shortest(source, lambda window, turn: measure(window, store, f"{turn} "))}
        if "--print" in PRINTS:
            for phase, seconds in best.items():
                print(f"{seconds * 1000:6.1f} ms  {phase}")
        self.assertLess(max(best.values()), limit(), best)

    def test_in_this_process(self) -> None:
        with bestore.open(PAGES, 16) as store:
            make_nodes(store)
            self.check(lambda: MadeSource(store), store)

    @unittest.skipUnless(servers.BESTORED, "BESTORED names no bestored")
    def test_of_a_server(self) -> None:
        with servers.Server("--pages", PAGES) as server, server.connect() as store:
            make_nodes(store)
            self.check(lambda: ServerSource(server.path), store)


PRINTS: List[str] = []

if __name__ == "__main__":
    PRINTS += [it for it in sys.argv if it == "--print"]
    words = [it for it in sys.argv if it != "--print"]
    if "--nodes" in words:
        at = words.index("--nodes")
        NODES = int(words[at + 1])
        del words[at:at + 2]
    print(f"load {os.getloadavg()[0]:.1f}")
    unittest.main(argv=words)
