#!/usr/bin/env python3
"""Measures how fast a saved store in Python writes, compared with `sqlite3`, and how fast it opens. bench/README.md explains
it."""

from __future__ import annotations

import argparse
import os
import sqlite3
import statistics
import sys
import tempfile
import threading
import time
from contextlib import closing
from typing import Callable, Dict, List, NamedTuple

sys.path.insert(0, os.path.join(os.path.dirname(os.path.abspath(__file__)), "..", "python"))

import bestore  # noqa: E402
from bestore import saved  # noqa: E402
from timing import seconds_of

FILES = 15_000
ROW = len(bestore.Batch().set(1, "size", 1).to_bytes())
"""How many bytes an entry of the saved store has, and hence each row in sqlite3."""

Write = Callable[[int], object]


def rate(writes: List[Write], seconds: float) -> float:
    """Returns how many writes per second these threads make when each calls its function repeatedly for this time."""
    counts, start = [0] * len(writes), threading.Barrier(len(writes) + 1)

    def work(writer: int, write: Write) -> None:
        write(0)
        start.wait()
        until, count = time.perf_counter() + seconds, 0
        while time.perf_counter() < until:
            count += 1
            write(count)
        counts[writer] = count
    taken = seconds_of([threading.Thread(target=work, args=pair) for pair in enumerate(writes)], start)
    return sum(counts) / taken


def kept(path: str, writers: int, seconds: float) -> float:
    """A saved store, with one pass per thread."""
    with saved.open(path) as store:
        store.new_node()
        passes = [store] + [store.another() for _ in range(writers - 1)]

        def writes(user: bestore.Pass) -> Write:
            return lambda count: user.set(1, "size", count)
        return rate([writes(user) for user in passes], seconds)


def connected(path: str, is_exclusive: bool = False) -> sqlite3.Connection:
    """Opens a connection in WAL mode, whose commits wait for fsync."""
    connection = sqlite3.connect(path, timeout=600, isolation_level=None, check_same_thread=False)
    if is_exclusive:
        connection.execute("PRAGMA locking_mode = EXCLUSIVE")
    connection.execute("PRAGMA journal_mode = WAL").fetchall()
    connection.execute("PRAGMA synchronous = FULL")
    connection.execute("CREATE TABLE IF NOT EXISTS entry (number INTEGER PRIMARY KEY, pass INTEGER NOT NULL, batch BLOB NOT NULL)")
    return connection


def inserts(connection: sqlite3.Connection) -> Write:
    row = bytes(ROW)
    return lambda count: connection.execute("INSERT INTO entry (pass, batch) VALUES (?, ?)", (1, row))


def shared(path: str, writers: int, seconds: float, is_exclusive: bool = False) -> float:
    """sqlite3 with one connection, guarded by a lock for which the threads wait."""
    with closing(connected(path, is_exclusive)) as connection:
        insert, lock = inserts(connection), threading.Lock()

        def insert_alone(count: int) -> None:
            with lock:
                insert(count)
        return rate([insert] if writers == 1 else [insert_alone] * writers, seconds)


def exclusive(path: str, writers: int, seconds: float) -> float:
    """Like `shared`, but the file is locked while it is open, like a saved store's file."""
    return shared(path, writers, seconds, True)


def each(path: str, writers: int, seconds: float) -> float:
    """sqlite3 with one connection per thread. Each thread waits while another writes."""
    connections = [connected(path) for _ in range(writers)]
    try:
        return rate([inserts(connection) for connection in connections], seconds)
    finally:
        for connection in connections:
            connection.close()


class Case(NamedTuple):
    name: str
    run: Callable[[str, int, float], float]
    writers: int


CASES = [
    Case("kept store", kept, 1), Case("`sqlite3`", shared, 1), Case("`sqlite3`, `EXCLUSIVE`", exclusive, 1),
    Case("kept store", kept, 8), Case("`sqlite3`, a connection per thread", each, 8),
    Case("`sqlite3`, one connection and a lock", shared, 8), Case("the same, `EXCLUSIVE`", exclusive, 8),
]


def measure(folder: str, rounds: int, seconds: float) -> None:
    """Runs all cases in turn and prints the table."""
    found: Dict[Case, List[float]] = {case: [] for case in CASES}
    for number in range(rounds):
        for place, case in enumerate(CASES):
            path = os.path.join(folder, f"{number}-{place}")
            found[case].append(case.run(path, case.writers, seconds))
            os.unlink(path)
    print("| from Python | writers | writes per second | lowest to highest | the kept store's speedup |")
    print("|---|---|---|---|---|")
    own = 0.0
    for case, rates in found.items():
        middle = statistics.median(rates)
        own = middle if case.run is kept else own
        beside = "" if case.run is kept else f"{own / middle:.2f}"
        print(f"| {case.name} | {case.writers} | {middle:,.0f} | {min(rates):,.0f} to {max(rates):,.0f} | {beside} |")


def file_batch(first: int, count: int) -> bestore.Batch:
    """Returns a batch that creates files with five attributes each, one per node."""
    batch = bestore.Batch()
    for node in range(first, first + count):
        batch.new_node().set(node, "name", f"file{node:05d}.txt").set(node, "size", node * 7)
        batch.set(node, "when", 1_700_000_000 + node).set(node, "kind", "text/plain").set(node, "path", f"/home/x/{node}")
    return batch


def measure_opening(folder: str, rounds: int) -> None:
    """Prints how long it takes to open a store with many files, first from its entries and then from its state alone."""
    path, times = os.path.join(folder, "files"), []
    with saved.open(path, pages=16384, every=3600) as store:
        for name, kind in (("name", bestore.STRING), ("size", bestore.INT64), ("when", bestore.INT64)):
            store.make_index(name, kind)
        for first in range(1, FILES, 10):
            store.apply(file_batch(first, 10))
    for _ in range(rounds + 1):
        wall, processor = time.perf_counter(), time.process_time()
        with saved.open(path, pages=16384):
            times.append((time.perf_counter() - wall, time.process_time() - processor))
    entries, state = times[0], [statistics.median(column) for column in zip(*times[1:])]
    print(f"\n| opening {FILES:,} files of 5 attributes, 3 indexed, from Python | seconds | processor seconds |")
    print("|---|---|---|")
    print(f"| from {FILES // 10:,} entries, then writing the state | {entries[0]:.2f} | {entries[1]:.2f} |")
    print(f"| from the state | {state[0]:.2f} | {state[1]:.2f} |")


def main() -> None:
    parser = argparse.ArgumentParser(description=__doc__)
    parser.add_argument("--folder", help="where the files are made: on a disk, since in memory no commit waits for one")
    parser.add_argument("--rounds", type=int, default=7, help="how many times each case is measured")
    parser.add_argument("--seconds", type=float, default=0.5, help="how long a case runs in a round")
    chosen = parser.parse_args()
    with tempfile.TemporaryDirectory(dir=chosen.folder, prefix="bestore-kept-") as folder:
        measure(folder, chosen.rounds, chosen.seconds)
        measure_opening(folder, chosen.rounds)
    print(f"\nMedians of {chosen.rounds} rounds, in which the cases took turns of {chosen.seconds} seconds; SQLite {sqlite3.sqlite_version}; "
          f"load average {os.getloadavg()[0]:.1f}.")


if __name__ == "__main__":
    main()
