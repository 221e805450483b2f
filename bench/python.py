#!/usr/bin/env python3
"""Measures how fast the Python package is, compared with sqlite3 in memory and lmdb. Prints a Markdown table.

    /usr/bin/python3 bench/python.py                    measures five rounds, with one peer after another in each
    /usr/bin/python3 bench/python.py --rounds 1 --nodes 1000 --seconds 0.05     a trial run
    /usr/bin/python3 bench/python.py --processor        measures processor time, for a machine that runs something else too
    /usr/bin/python3 bench/python.py --instructions     counts instructions per call instead of time, by perf or valgrind

It needs the package (PYTHONPATH=python, perhaps with BESTORE_LIBRARY), and for LMDB Debian's python3-lmdb. A missing peer is
skipped, and a line says so. Each peer does what a program would do: it makes its keys from a node's number and a name, and
returns strings as str and numbers as int. Each query has a new string or number, in a random order that is the same for all
peers. The peers' answers are compared.
"""

from __future__ import annotations

import argparse
import importlib
import os
import random
import sqlite3
import struct
import sys
import tempfile
import time
from typing import Any, Callable, Dict, Iterator, List, Optional, Sequence, Tuple

sys.path[:0] = [os.path.join(os.path.dirname(os.path.abspath(__file__)), folder) for folder in ("../python", "script")]

from instructions import instructions_a_call

TEXTS = ("kind", "from", "to", "subject", "status")
"""The names of five attributes without an index."""
SIZES = 100
"""How many nodes have the same size."""
MOST = 15_000
"""How many nodes a store has room for, with some to spare for writes."""
SHOWN = 20
"""How many rows a page has, of three columns each."""


def name_of(node: int) -> str:
    return f"file{node:06}"


class Peer:
    """A store with a node for each number, starting from 1. Each node has a name and a size, both indexed, and five strings."""

    title = ""

    def get(self, node: int) -> Optional[str]:
        """Returns a node's kind."""
        raise NotImplementedError

    def set_plain(self, node: int, number: int) -> None:
        """Sets a number that isn't indexed."""
        raise NotImplementedError

    def set_size(self, node: int, size: int) -> None:
        """Sets an indexed number in its own transaction."""
        raise NotImplementedError

    def by_name(self, asked: Any) -> List[int]:
        """Returns the nodes with this name."""
        raise NotImplementedError

    def by_size(self, asked: Any) -> List[int]:
        """Returns the nodes with this size."""
        raise NotImplementedError

    def kinds(self, asked: Any) -> List[str]:
        """Returns the kinds of the nodes with this size."""
        raise NotImplementedError

    def five(self, asked: Any) -> List[List[str]]:
        """Returns five attributes of the nodes with this size, name by name."""
        raise NotImplementedError

    def containing(self, asked: Any) -> List[int]:
        """Returns the nodes whose names contain a string."""
        raise NotImplementedError

    def page(self, asked: Any) -> List[Tuple[Any, ...]]:
        """Returns the rows with the largest sizes, or those after a position, in descending order of size and node."""
        raise NotImplementedError

    older = page

    def begin(self) -> None:
        """Starts reading."""

    def end(self) -> None:
        """Stops reading."""

    def close(self) -> None:
        raise NotImplementedError

    # The queries, prepared before the clock starts.

    def name(self, node: int) -> Any:
        return name_of(node)

    def size(self, size: int) -> Any:
        return size

    def part(self, node: int) -> Any:
        return name_of(node)[-5:]

    def place(self, size: int, node: int) -> Any:
        """Returns a position in the order of sizes."""
        return size, node


class Bestore(Peer):
    title = "bestore"

    def __init__(self, nodes: int) -> None:
        self._bestore: Any = importlib.import_module("bestore")
        self._store = self._bestore.open(16384, 2)
        self._store.make_index("name", self._bestore.STRING)
        self._store.make_index("size", self._bestore.INT64)
        self._all = self._bestore.prepare("size>=0")
        for node in range(1, nodes + 1):
            batch = self._bestore.Batch().new_node().set(node, "name", name_of(node)).set(node, "size", node % (nodes // SIZES))
            for text in TEXTS:
                batch.set(node, text, f"{text} {node % 7}")
            self._store.apply(batch)

    def begin(self) -> None:
        self._version = self._store.pin()

    def end(self) -> None:
        self._version.unpin()

    def get(self, node: int) -> Optional[str]:
        return self._version.get(node, "kind")  # type: ignore[no-any-return]

    def set_plain(self, node: int, number: int) -> None:
        self._store.set(node, "number", number)

    def set_size(self, node: int, size: int) -> None:
        self._store.set(node, "size", size)

    def by_name(self, asked: Any) -> List[int]:
        return self._version.query_prepared(asked)  # type: ignore[no-any-return]

    by_size = containing = by_name

    def kinds(self, asked: Any) -> List[str]:
        version = self._version
        return version.column(version.query_prepared(asked), "kind")  # type: ignore[no-any-return]

    def five(self, asked: Any) -> List[List[str]]:
        version = self._version
        return version.columns(version.query_prepared(asked), TEXTS)  # type: ignore[no-any-return]

    def page(self, asked: Any) -> List[Tuple[Any, ...]]:
        rows = self._version.rows(self._all, TEXTS[:3], most=SHOWN, by="size", descending=True, after=asked)
        return [(node, *values) for node, values in rows]

    older = page

    def place(self, size: int, node: int) -> Any:
        order = self._bestore.Order("size", True)
        return self._bestore.Cursor(order, self._all._check, self._bestore.INT64, size, node)

    def name(self, node: int) -> Any:
        return self._bestore.prepare(f"name=={name_of(node)}")

    def size(self, size: int) -> Any:
        return self._bestore.prepare(f"size=={size}")

    def part(self, node: int) -> Any:
        return self._bestore.prepare(f"name==*{name_of(node)[-5:]}*")

    def close(self) -> None:
        self._store.close()


class Lmdb(Peer):
    title = "lmdb"

    def __init__(self, nodes: int) -> None:
        lmdb: Any = importlib.import_module("lmdb")
        self._folder = tempfile.TemporaryDirectory(dir="/dev/shm" if os.path.isdir("/dev/shm") else None)
        self._environment = lmdb.open(self._folder.name, map_size=1 << 30, max_dbs=3, sync=False, writemap=True)
        self._nodes = self._environment.open_db(b"nodes")
        self._names, self._sizes = (self._environment.open_db(key, dupsort=True) for key in (b"names", b"sizes"))
        with self._environment.begin(write=True) as writing:
            for node in range(1, nodes + 1):
                key, size = struct.pack(">Q", node), struct.pack(">q", node % (nodes // SIZES))
                writing.put(key + b"name", name_of(node).encode(), db=self._nodes)
                writing.put(name_of(node).encode(), key, db=self._names)
                writing.put(key + b"size", size, db=self._nodes)
                writing.put(size, key, db=self._sizes)
                for text in TEXTS:
                    writing.put(key + text.encode(), f"{text} {node % 7}".encode(), db=self._nodes)

    def begin(self) -> None:
        self._reading = self._environment.begin(db=self._nodes)
        self._size_cursor, self._name_cursor = (self._reading.cursor(db) for db in (self._sizes, self._names))

    def end(self) -> None:
        self._reading.abort()

    def get(self, node: int) -> Optional[str]:
        value = self._reading.get(struct.pack(">Q", node) + b"kind")
        return None if value is None else value.decode()

    def set_plain(self, node: int, number: int) -> None:
        with self._environment.begin(write=True, db=self._nodes) as writing:
            writing.put(struct.pack(">Q", node) + b"number", struct.pack("<q", number))

    def set_size(self, node: int, size: int) -> None:
        key, value = struct.pack(">Q", node), struct.pack(">q", size)
        with self._environment.begin(write=True, db=self._nodes) as writing:
            before = writing.get(key + b"size")
            if before is not None:
                writing.delete(before, key, db=self._sizes)
            writing.put(key + b"size", value)
            writing.put(value, key, db=self._sizes)

    def by_name(self, asked: Any) -> List[int]:
        key = self._reading.get(asked.encode(), db=self._names)
        return [] if key is None else [int.from_bytes(key, "big")]

    def _keys(self, size: int) -> Iterator[bytes]:
        if self._size_cursor.set_key(struct.pack(">q", size)):
            yield from self._size_cursor.iternext_dup()

    def by_size(self, asked: Any) -> List[int]:
        return [int.from_bytes(key, "big") for key in self._keys(asked)]

    def kinds(self, asked: Any) -> List[str]:
        get = self._reading.get
        return [get(key + b"kind").decode() for key in self._keys(asked)]

    def five(self, asked: Any) -> List[List[str]]:
        get, keys = self._reading.get, list(self._keys(asked))
        return [[get(key + name).decode() for key in keys] for name in (text.encode() for text in TEXTS)]

    def containing(self, asked: Any) -> List[int]:
        part, cursor = asked.encode(), self._name_cursor
        cursor.first()
        return [int.from_bytes(key, "big") for name, key in cursor if part in name]

    def page(self, asked: Any) -> List[Tuple[Any, ...]]:
        get, cursor = self._reading.get, self._size_cursor
        rows: List[Tuple[Any, ...]] = []
        there = cursor.last() if asked is None else self._move_before(*asked)
        while there and len(rows) < SHOWN:
            key = cursor.value()
            rows.append((int.from_bytes(key, "big"), *(get(key + name.encode()).decode() for name in TEXTS[:3])))
            there = cursor.prev()
        return rows

    older = page

    def _move_before(self, size: int, node: int) -> bool:
        """Moves the cursor over sizes to the last position before this one."""
        cursor = self._size_cursor
        if cursor.set_range_dup(struct.pack(">q", size), struct.pack(">Q", node)):
            return cursor.prev()  # type: ignore[no-any-return]
        if cursor.set_range(struct.pack(">q", size + 1)):
            return cursor.prev()  # type: ignore[no-any-return]
        return cursor.last()  # type: ignore[no-any-return]

    def close(self) -> None:
        self._environment.close()
        self._folder.cleanup()


class Sqlite(Peer):
    title = "sqlite3"

    def __init__(self, nodes: int) -> None:
        self._connection = sqlite3.connect(":memory:", isolation_level=None)
        for line in (
            "CREATE TABLE value (node INTEGER, name TEXT, value, PRIMARY KEY (node, name)) WITHOUT ROWID",
            "CREATE INDEX names ON value (value, node) WHERE name = 'name'",
            "CREATE INDEX sizes ON value (value, node) WHERE name = 'size'",
        ):
            self._connection.execute(line)
        rows: List[Sequence[Any]] = []
        for node in range(1, nodes + 1):
            rows += [(node, "name", name_of(node)), (node, "size", node % (nodes // SIZES))]
            rows += [(node, text, f"{text} {node % 7}") for text in TEXTS]
        self._connection.execute("BEGIN")
        self._connection.executemany("INSERT INTO value VALUES (?, ?, ?)", rows)
        self._connection.execute("COMMIT")

    def _column(self, line: str, *values: Any) -> List[Any]:
        return [row[0] for row in self._connection.execute(line, values)]

    def get(self, node: int) -> Optional[str]:
        row = self._connection.execute("SELECT value FROM value WHERE node = ? AND name = 'kind'", (node,)).fetchone()
        return None if row is None else row[0]

    def _set(self, node: int, name: str, number: int) -> None:
        self._connection.execute("INSERT OR REPLACE INTO value VALUES (?, ?, ?)", (node, name, number))

    def set_plain(self, node: int, number: int) -> None:
        self._set(node, "number", number)

    def set_size(self, node: int, size: int) -> None:
        self._set(node, "size", size)

    def by_name(self, asked: Any) -> List[int]:
        return self._column("SELECT node FROM value WHERE name = 'name' AND value = ?", asked)

    def by_size(self, asked: Any) -> List[int]:
        return self._column("SELECT node FROM value WHERE name = 'size' AND value = ?", asked)

    def kinds(self, asked: Any) -> List[str]:
        return self._column(
            "SELECT other.value FROM value JOIN value AS other USING (node) "
            "WHERE value.name = 'size' AND value.value = ? AND other.name = 'kind'", asked)

    def five(self, asked: Any) -> List[List[str]]:
        columns = ", ".join(f"(SELECT value FROM value WHERE node = found.node AND name = '{text}')" for text in TEXTS)
        line = f"SELECT {columns} FROM value AS found WHERE name = 'size' AND value = ?"
        return [list(column) for column in zip(*self._connection.execute(line, (asked,)))]

    def containing(self, asked: Any) -> List[int]:
        return self._column("SELECT node FROM value WHERE name = 'name' AND instr(value, ?) > 0", asked)

    def page(self, asked: Any) -> List[Tuple[Any, ...]]:
        columns = ", ".join(f"(SELECT value FROM value WHERE node = found.node AND name = '{text}')" for text in TEXTS[:3])
        after = "" if asked is None else " AND (value, node) < (?, ?)"
        line = (f"SELECT node, {columns} FROM value AS found WHERE name = 'size'{after} "
                f"ORDER BY value DESC, node DESC LIMIT {SHOWN}")
        return self._connection.execute(line, asked or ()).fetchall()

    older = page

    def close(self) -> None:
        self._connection.close()


PEERS: Dict[str, Callable[[int], Peer]] = {"bestore": Bestore, "lmdb": Lmdb, "sqlite3": Sqlite}
CASES: Dict[str, str] = {
    "get": "get", "set_plain": "set, not indexed", "set_size": "set, indexed", "by_name": "prepared query of 1 hit",
    "by_size": f"prepared query of {SIZES} hits", "kinds": f"{SIZES} hits with an attribute each",
    "five": f"5 attributes of {SIZES} hits", "containing": "substring match over all names",
    "page": f"the {SHOWN} largest sizes, with 3 attributes each", "older": f"the next {SHOWN} after a position",
}
FEW, MANY = 100, 600
"""How many calls are made when instructions are counted."""
MOST_ASKED = {"get": 200_000, "set_plain": 200_000, "set_size": 200_000, "by_name": 20_000, "containing": 2_000}


def asked_of(peer: Peer, case: str, nodes: int, count: int, chance: random.Random) -> List[Tuple[Any, ...]]:
    """Returns the arguments of this many calls of a case."""
    numbers = [chance.randrange(1, nodes + 1) for _ in range(count)]
    sizes = nodes // SIZES
    if case == "get":
        return [(number,) for number in numbers]
    if case in ("set_plain", "set_size"):
        most = sizes if case == "set_size" else 2**40
        return [(number, chance.randrange(most)) for number in numbers]
    if case == "page":
        return [(None,)] * count
    if case == "older":
        return [(peer.place(number % sizes, number),) for number in numbers]
    if case in ("by_name", "containing"):
        make = peer.name if case == "by_name" else peer.part
        return [(make(number),) for number in numbers]
    return [(peer.size(number % sizes),) for number in numbers]


def timed(peer: Peer, case: str, asked: List[Tuple[Any, ...]], now: Callable[[], float] = time.perf_counter) -> Any:
    """Returns how many seconds these calls take, and what the last one found."""
    call, found = getattr(peer, case), None
    if not case.startswith("set"):
        peer.begin()
    begun = now()
    for arguments in asked:
        found = call(*arguments)
    taken = now() - begun
    if not case.startswith("set"):
        peer.end()
    return taken, found


def measured(peers: List[Peer], options: argparse.Namespace) -> Dict[str, Dict[str, List[float]]]:
    """Returns the seconds per call in each round, for each case and peer."""
    now = time.process_time if options.processor else time.perf_counter
    taken: Dict[str, Dict[str, List[float]]] = {case: {peer.title: [] for peer in peers} for case in CASES}
    counts: Dict[str, Dict[str, int]] = {case: {} for case in CASES}
    for number in range(-1, options.rounds):  # the first round determines how many calls fill the time
        for case in CASES:
            for peer in peers:
                count = counts[case].get(peer.title, 20)
                asked = asked_of(peer, case, options.nodes, count, random.Random(number))
                seconds = timed(peer, case, asked, now)[0]
                if number >= 0:
                    taken[case][peer.title].append(seconds / count)
                else:
                    fitting = max(20, int(count * options.seconds / max(seconds, 1e-9)))
                    counts[case][peer.title] = min(fitting, MOST_ASKED.get(case, 5_000))
    return taken


def compare(peers: List[Peer], nodes: int) -> None:
    """Checks that all peers return the same answers."""
    for case in CASES:
        for seed in range(5):
            answers = [timed(peer, case, asked_of(peer, case, nodes, 1, random.Random(seed)))[1] for peer in peers]
            if any(answer != answers[0] for answer in answers):
                sys.exit(f"{CASES[case]}: the peers' answers differ: {answers}")


def rate(seconds: float) -> str:
    return f"{1 / seconds:,.0f}"


def print_times(taken: Dict[str, Dict[str, List[float]]], peers: List[Peer]) -> None:
    """Prints the table: the calls per second in the best round, how many times faster bestore is, and its worst round relative
    to its best."""
    others = [peer.title for peer in peers if peer.title != "bestore"]
    print("| case | " + " | ".join(others) + " | bestore | spread |\n|---" + "|---" * (len(others) + 2) + "|")
    for case, title in CASES.items():
        own = taken[case]["bestore"]
        cells = [f"{rate(min(taken[case][it]))} ({min(taken[case][it]) / min(own):.2f})" for it in others]
        spread = max(max(it) / min(it) for it in taken[case].values())
        print(f"| {title} | {' | '.join(cells)} | {rate(min(own))} | {spread:.2f} |")


def print_instructions(titles: List[str], nodes: int) -> None:
    """Prints a table of instructions per call."""
    print("| case | " + " | ".join(titles) + " |\n|---" + "|---" * len(titles) + "|")
    own = [sys.executable, os.path.abspath(__file__), "--nodes", str(nodes), "--one"]
    for case, title in CASES.items():
        cells = [instructions_a_call([*own, it, case], FEW, MANY) for it in titles]
        print(f"| {title} | {' | '.join(cells)} |", flush=True)


def made(nodes: int) -> List[Peer]:
    """Returns the peers that are installed."""
    peers: List[Peer] = []
    for title, peer in PEERS.items():
        try:
            peers.append(peer(nodes))
        except ImportError as error:
            if title == "bestore":
                raise
            print(f"{title}: skipped, {error}", file=sys.stderr)
    return peers


def main() -> None:
    parser = argparse.ArgumentParser(description=__doc__, formatter_class=argparse.RawDescriptionHelpFormatter)
    parser.add_argument("--rounds", type=int, default=5, help="how many rounds (5)")
    parser.add_argument("--nodes", type=int, default=10_000, help="how many nodes (10,000), from 100 to 15,000")
    parser.add_argument("--seconds", type=float, default=0.2, help="how long a case takes in a round (0.2)")
    parser.add_argument("--processor", action="store_true", help="take the processor's time instead of the clock's")
    parser.add_argument("--instructions", action="store_true", help="count instructions instead")
    parser.add_argument("--one", nargs=3, metavar=("PEER", "CASE", "COUNT"), help=argparse.SUPPRESS)
    options = parser.parse_args()
    if not SIZES <= options.nodes <= MOST or options.rounds < 1:
        parser.error("from 100 to 15,000 nodes and at least one round are needed")
    if options.one:
        title, case, count = options.one
        asked = asked_of(peer := PEERS[title](options.nodes), case, options.nodes, MANY, random.Random(1))
        timed(peer, case, asked[:int(count)])
        peer.close()
        return
    peers = made(options.nodes)
    compare(peers, options.nodes)
    if options.instructions:
        print_instructions([peer.title for peer in peers], min(options.nodes, 1_000))
    else:
        print_times(measured(peers, options), peers)
    for peer in peers:
        peer.close()


if __name__ == "__main__":
    main()
