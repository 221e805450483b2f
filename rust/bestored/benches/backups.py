#!/usr/bin/env python3
"""Backs up a server while eight processes write to it. Is each backup the state at one commit, and how much do the writers slow
down?

usage: backups.py FOLDER [BACKUPS]    the folder with bestored and be, such as rust/target/release; 50 backups by default

The program creates a store of 60,000 nodes in a new folder. It measures how long writes take, first alone and
then while it runs `be backup` again and again. Finally, it opens each backup. Every write increments one counter, so the counters
must add up to the commit number. No counter may be lower than the count acknowledged before the backup began.
PYTHONPATH must name the folder that contains the bestore package. The program exits with 1 if a backup is wrong, or if the 99th
percentile of the writes' times more than triples.
"""
from __future__ import annotations

import json
import multiprocessing
import subprocess
import sys
import tempfile
import time
from multiprocessing.sharedctypes import Synchronized
from pathlib import Path
from typing import Any, List, NamedTuple, cast

import bestore
from bestore import saved
from filled import NODES, fill

WRITERS = 8
BACKUPS = 50
ALONE = 10.0
"""How many seconds to measure writes before the backups begin."""
MOST_GROWTH = 3.0
PAGES = 81_920


def counter() -> Synchronized[int]:
    """Creates a counter that processes can share."""
    return cast("Synchronized[int]", multiprocessing.Value("Q", 0))


class Shared(NamedTuple):
    """The values that the writers share with this process."""

    answered: List[Synchronized[int]]
    is_over: Synchronized[int]
    times: "multiprocessing.Queue[List[float]]"


def write(socket: str, shared: Shared, writer: int) -> None:
    """Increments the counter in the writer's node with each write, and reports how long each write took."""
    answered = shared.answered[writer]
    times: List[float] = []
    with bestore.connect(socket) as store:
        while not shared.is_over.value:
            count = answered.value + 1
            begin = time.perf_counter()
            store.set(writer + 1, "count", count)
            times.append(time.perf_counter() - begin)
            answered.value = count
    shared.times.put(times)


def percentile(times: List[float], part: float) -> float:
    """Returns a percentile in milliseconds."""
    return sorted(times)[int(len(times) * part)] * 1000


class Writing:
    """Runs writers for the duration of a `with` block. `times` holds how long their writes took."""

    def __init__(self, socket: str, answered: List[Synchronized[int]]) -> None:
        self.shared = Shared(answered, counter(), multiprocessing.Queue())
        self._processes = [
            multiprocessing.Process(target=write, args=(socket, self.shared, writer)) for writer in range(WRITERS)]
        self.times: List[float] = []

    def __enter__(self) -> Writing:
        for process in self._processes:
            process.start()
        return self

    def __exit__(self, *error: object) -> None:
        self.shared.is_over.value = 1
        for _ in self._processes:
            self.times += self.shared.times.get(timeout=60)
        for process in self._processes:
            process.join(60)


def check(path: Path, about: Any, begin: int, before: List[int]) -> None:
    """Exits unless the backup holds the state at its commit, with all writes acknowledged before the backup."""
    with saved.open(path, pages=PAGES) as store, store.pin() as version:
        found = version.column(range(1, WRITERS + 1), "count")
        counts = [int(value) for value in found if isinstance(value, int)]
        if any(count < answered for count, answered in zip(counts, before)):
            raise SystemExit(f"{path}: {counts}, of {before} that were replied to")
        if sum(counts) != about["commit"] - begin:
            raise SystemExit(f"{path}: {sum(counts)} writes, and commit {about['commit']} after {begin}")
        nodes = sum(1 for _ in version)
        if nodes != NODES:
            raise SystemExit(f"{path}: it has {nodes} nodes")


def back_up(programs: Path, socket: str, path: Path) -> Any:
    """Makes a backup, and returns the tool's report."""
    said = subprocess.run(
        [programs / "be", "--socket", socket, "backup", "--json", path], check=True, stdout=subprocess.PIPE)
    return json.loads(said.stdout)


def measure(programs: Path, folder: Path, socket: str, backups: int) -> float:
    """Prints the figures, and returns the factor by which the 99th percentile of the writes' times grows."""
    begin = fill(socket)
    answered = [counter() for _ in range(WRITERS)]
    with Writing(socket, answered) as alone:
        time.sleep(ALONE)
    made, seconds = [], []
    with Writing(socket, answered) as beside:
        for number in range(backups):
            before = [count.value for count in answered]
            path, started = folder / f"backup{number}", time.perf_counter()
            made.append((path, back_up(programs, socket, path), before))
            seconds.append(time.perf_counter() - started)
    for what, writing in [("alone", alone), ("beside backups", beside)]:
        middle, high = (percentile(writing.times, part) for part in (0.5, 0.99))
        print(f"{what}: {len(writing.times)} writes, p50 {middle:.2f} ms, p99 {high:.2f} ms")
    print(f"{backups} backups of {NODES} nodes: {min(seconds):.2f} to {max(seconds):.2f} s each", flush=True)
    for path, about, before in made:
        check(path, about, begin, before)
        path.unlink()
    return percentile(beside.times, 0.99) / percentile(alone.times, 0.99)


def main() -> None:
    if not 2 <= len(sys.argv) <= 3 or sys.argv[1].startswith("-"):
        raise SystemExit(__doc__)
    programs = Path(sys.argv[1]).resolve()
    backups = int(sys.argv[2]) if len(sys.argv) > 2 else BACKUPS
    with tempfile.TemporaryDirectory() as name:
        folder = Path(name)
        socket = str(folder / "socket")
        server = subprocess.Popen(
            [programs / "bestored", "--socket", socket, "--keep", folder / "kept", "--pages", str(PAGES)])
        try:
            while not (folder / "socket").exists() and server.poll() is None:
                time.sleep(0.05)
            growth = measure(programs, folder, socket, backups)
        finally:
            server.terminate()
            server.wait(60)
    print(f"the writes' p99 is {growth:.2f} times what it was")
    if growth > MOST_GROWTH:
        raise SystemExit(1)


if __name__ == "__main__":
    main()
