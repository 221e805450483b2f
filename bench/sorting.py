#!/usr/bin/env python3
"""Measures how long `be query --sort` takes for the first 50 of a server's 84,000 files, and the server's share of that time.
Prints a Markdown table.

    /usr/bin/python3 bench/sorting.py FOLDER                             FOLDER has bestored and be, such as rust/target/release
    /usr/bin/python3 bench/sorting.py FOLDER --files 10000 --rounds 20   a trial run

It needs the package (PYTHONPATH=python). The files have seven attributes, as `be import` sets them, in one store. Each query has a new bound or filter. Times are in milliseconds: the median and the maximum. The
server's instructions are counted by perf, if it works.
"""
from __future__ import annotations

import argparse
import json
import os
import random
import shutil
import socket
import subprocess
import sys
import tempfile
import time
from pathlib import Path
from statistics import median
from typing import Any, Callable, Dict

sys.path.insert(0, os.path.join(os.path.dirname(os.path.abspath(__file__)), "..", "python"))

import bestore
from bestore import Batch, Kind

IN_A_BATCH = 8
NEWEST = 1_800_000_000
WORDS = ("report", "photo", "invoice", "letter", "holiday", "budget", "notes", "scan", "minutes", "recipe")
TYPES = ("text/plain", "image/png", "audio/mpeg", "application/pdf", "text/html", "text/x-source-code", "image/jpeg", "text/x-email")
INDICES = {"name": Kind.STRING, "size": Kind.INT64, "last_modified": Kind.INT64, "BEOS:TYPE": Kind.STRING}
SHOWN = 50

Query = Dict[str, Any]


def add_file(batch: Batch, number: int, chance: random.Random) -> None:
    """Adds a file, as the node with this number."""
    batch.new_node()
    when = NEWEST - chance.randrange(10**8)
    values: Dict[str, Any] = {
        "name": f"{WORDS[number % 10]}-{number:05}.txt", "size": chance.randrange(10**7), "last_modified": when,
        "created": when, "BEOS:TYPE": TYPES[number // 10 % 8], "FILE:parent": f"/home/folder{number % 997}", "FILE:stat": f"{number:x}.{when:x}",
    }
    for name, value in values.items():
        batch.set(number, name, value)


def fill(place: str, files: int) -> None:
    """Creates the files."""
    chance = random.Random(1)
    with bestore.connect(place) as store:
        for name, kind in INDICES.items():
            store.make_index(name, kind)
        for first in range(1, files + 1, IN_A_BATCH):
            batch = Batch()
            for number in range(first, first + IN_A_BATCH):
                add_file(batch, number, chance)
            store.apply(batch)


def query_of(case: str, chance: random.Random) -> Query:
    """Returns a query for a page of files, newest first, with a new bound or filter."""
    bound = NEWEST - 10**9 + chance.randrange(10**6)
    query: Query = {"query": f"last_modified>={bound}", "by": "last_modified", "descending": True, "limit": SHOWN}
    if case == "middle":
        query["query"] = f"last_modified<{NEWEST - chance.randrange(10**8)}"
    elif case == "pattern":
        query["query"] += f' && name=="{chance.choice(WORDS)}*"'
    elif case == "type":
        query["query"] += f' && BEOS:TYPE=="{chance.choice(TYPES)}"'
    return query


CASES = {
    "newest": "the newest 50", "middle": "50 after a date in the middle", "pattern": "the newest 50 of a tenth, by a prefix of their names",
    "type": "the newest 50 of an eighth, by their type",
}


class Server:
    """A server in its own folder, for the duration of a `with` block."""

    def __init__(self, programs: Path) -> None:
        self._folder = Path(tempfile.mkdtemp(prefix="bestore-sorting-"))
        self.place, self._programs = str(self._folder / "socket"), programs
        words = [str(programs / "bestored"), "--socket", self.place, "--pages", "262144"]
        self.process = subprocess.Popen(words)
        while not os.path.exists(self.place):
            if self.process.poll() is not None:
                shutil.rmtree(self._folder)
                sys.exit(f"{words[0]} ended with status {self.process.returncode}")
            time.sleep(0.01)

    def __enter__(self) -> Server:
        return self

    def __exit__(self, *error: object) -> None:
        self.process.kill()
        self.process.wait()
        shutil.rmtree(self._folder)

    def ask_by_tool(self, query: Query) -> None:
        """Sends a query with `be query`."""
        words = [str(self._programs / "be"), "--socket", self.place, "query", "--sort", query["by"], "--reverse", "--limit", str(SHOWN), query["query"]]
        found = subprocess.run(words, check=True, stdout=subprocess.PIPE).stdout.splitlines()
        check(len(found), query)

    def asker(self) -> Callable[[Query], None]:
        """Returns a function that sends queries through its own connection."""
        connection = socket.socket(socket.AF_UNIX)
        connection.connect(self.place)
        replies = connection.makefile("rb")

        def ask(query: Query) -> None:
            connection.sendall(json.dumps({"id": 1, "query": query}).encode() + b"\n")
            check(len(json.loads(replies.readline())["ok"]["nodes"]), query)

        return ask


def check(found: int, query: Query) -> None:
    if found != SHOWN:
        sys.exit(f"{query} finds {found} files instead of {SHOWN}")


def milliseconds(ask: Callable[[Query], None], case: str, rounds: int) -> str:
    """Returns the median and the maximum time over this many queries."""
    chance, times = random.Random(case), []
    for _ in range(rounds):
        query = query_of(case, chance)
        begin = time.perf_counter()
        ask(query)
        times.append((time.perf_counter() - begin) * 1000)
    return f"{median(times):.2f}, {max(times):.2f}"


def instructions(server: Server, ask: Callable[[Query], None], case: str, rounds: int) -> str:
    """Returns the server's instructions per query, counted by perf."""
    chance = random.Random(case)
    if shutil.which("perf") is None:
        return "not counted"
    counting = subprocess.Popen(["perf", "stat", "-x,", "-e", "instructions:u", "-p", str(server.process.pid)], stderr=subprocess.PIPE, text=True)
    time.sleep(0.3)
    for _ in range(rounds):
        ask(query_of(case, chance))
    counting.send_signal(2)
    said = counting.communicate()[1]
    counts = [int(line.split(",")[0]) for line in said.splitlines() if line.split(",")[0].isdigit()]
    return f"{counts[0] // rounds:,}" if counts else "not counted"


def main() -> None:
    parser = argparse.ArgumentParser(description=__doc__, formatter_class=argparse.RawDescriptionHelpFormatter)
    parser.add_argument("folder", type=Path, help="the folder with bestored and be")
    parser.add_argument("--files", type=int, default=84_000, help="how many files there are (84,000)")
    parser.add_argument("--rounds", type=int, default=100, help="how many times each query is run (100)")
    options = parser.parse_args()
    with Server(options.folder.resolve()) as server:
        fill(server.place, options.files)
        ask = server.asker()
        print("| case | `be query --sort`, ms | the server, ms | its instructions |\n|---|---|---|---|")
        for case, title in CASES.items():
            cells = [milliseconds(server.ask_by_tool, case, options.rounds), milliseconds(ask, case, options.rounds),
                     instructions(server, ask, case, options.rounds)]
            print(f"| {title} | {' | '.join(cells)} |", flush=True)


if __name__ == "__main__":
    main()
