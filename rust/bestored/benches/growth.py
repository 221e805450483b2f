#!/usr/bin/env python3
"""Measures a server that receives writes for a long time. How large do its files get, how much memory does it need, and how much
does it read at the next start?

usage: growth.py FOLDER [WRITES]    the folder with bestored, such as rust/target/release; 10,000,000 writes by default

The program creates a store of 60,000 nodes in a new folder. One client sends many small writes at a time, and a
second client sends its writes one by one. The second client's slowest reply shows how long the server pauses when it rewrites its
state. The second client also measures the files after each write. After 10,000 writes, and again after all writes, the program
kills the server and restarts it. Then it has the state rewritten, makes another 10,000 writes, and restarts the server once more,
to compare that start with the first. PYTHONPATH must name the folder that contains the bestore package.

The program exits with 1 if the database and its WAL ever became longer than twice the database right after a rewrite, when the WAL is
empty, plus 1 MB. It exits with 1 if the memory became larger than twice the pages plus 100 MB, for the server itself and for waiting
entries. It also exits with 1 if the last start takes over a fifth more processor time than the first,
or if the one before it takes more than twice as much.
"""
from __future__ import annotations

import json
import multiprocessing
import multiprocessing.connection
import multiprocessing.synchronize
import os
import socket
import subprocess
import sys
import tempfile
import time
from pathlib import Path
from typing import Any, Dict, List, NamedTuple, Tuple

import bestore
from filled import NODES, fill

PAGES = 40_960
WRITES = 10_000_000
FIRST = 10_000
"""How many writes to make before the server is restarted for the first time."""
AT_ONCE = 500
"""How many writes to send before reading their replies."""
MOST_GROWTH = 2.0
EXTRA_IN_FILES = 1 << 20
"""How many more bytes the files may take: 256 KiB of entries before a small state is rewritten, 512 KiB of WAL, and what is
written until the rewrite begins."""
EXTRA_IN_MEMORY = 100 << 20
MOST_SLOWER = 1.2
MOST_FULL = 2.0
TICK = os.sysconf("SC_CLK_TCK")


class Files(NamedTuple):
    """The lengths of the database, of its WAL, and of both together, in bytes: at one moment, or the maximum of each."""

    database: int
    wal: int
    both: int

    def __str__(self) -> str:
        database, wal, both = (f"{length / (1 << 20):.1f} MB" for length in self)
        return f"{both} ({database} of the database, {wal} of its WAL)"


class Start(NamedTuple):
    """The cost of a start: elapsed time, processor time, and the number of entries applied after the state."""

    seconds: float
    busy: float
    entries: int

    def __str__(self) -> str:
        return f"{self.seconds:.2f} s ({self.busy:.2f} s of a processor) and {self.entries} entries"


class Most(NamedTuple):
    """The second client's slowest reply, in seconds, and the maximum lengths of the files."""

    seconds: float
    files: Files


def files_of(path: Path) -> Files:
    """Measures the files of a server's store."""
    def length(name: str) -> int:
        try:
            return path.with_name(name).stat().st_size
        except FileNotFoundError:
            return 0
    database, wal = length(path.name), length(path.name + "-wal")
    return Files(database, wal, database + wal)


class Server:
    """A server that keeps its store in the folder. It is killed when the `with` block ends."""

    def __init__(self, program: Path, folder: Path) -> None:
        self.path, self.kept = str(folder / "socket"), folder / "kept"
        started = time.perf_counter()
        self._process = subprocess.Popen(
            [program, "--socket", self.path, "--keep", self.kept, "--every", "100", "--pages", str(PAGES)],
            stderr=subprocess.DEVNULL)
        self._wait()
        seconds = time.perf_counter() - started
        self.start = Start(seconds, self._busy, Lines(self.path).ask({"status": {}})["entries"])

    def _wait(self) -> None:
        while self._process.poll() is None:
            try:
                bestore.connect(self.path).close()
                return
            except OSError:
                time.sleep(0.005)
        raise SystemExit("the server has ended")

    def __enter__(self) -> Server:
        return self

    def __exit__(self, *error: object) -> None:
        self._process.kill()
        self._process.wait()

    @property
    def _busy(self) -> float:
        """The number of seconds of processor time that the server has used."""
        fields = Path(f"/proc/{self._process.pid}/stat").read_text().rsplit(")", 1)[1].split()
        return (int(fields[11]) + int(fields[12])) / TICK

    def end(self) -> Files:
        """Shuts the server down, and measures its files."""
        self._process.terminate()
        self._process.wait()
        return files_of(self.kept)

    @property
    def memory(self) -> int:
        """The number of bytes of memory that the server is using."""
        status = Path(f"/proc/{self._process.pid}/status").read_text()
        return int(next(line.split()[1] for line in status.splitlines() if line.startswith("VmRSS"))) << 10


class Lines:
    """A connection that sends and receives lines."""

    def __init__(self, path: str) -> None:
        self._socket = socket.socket(socket.AF_UNIX)
        self._socket.connect(path)
        self._replies = self._socket.makefile("rb")

    def ask(self, *requests: Dict[str, Any]) -> Any:
        """Sends several requests together, and returns the result of the last one."""
        lines = (json.dumps({"id": number, **request}) for number, request in enumerate(requests))
        self._socket.sendall(("\n".join(lines) + "\n").encode())
        replies = [json.loads(self._replies.readline()) for _ in requests]
        for reply in replies:
            if "ok" not in reply:
                raise SystemExit(f"the server replies {reply}")
        return replies[-1]["ok"]


def watch(path: str, kept: Path, is_over: multiprocessing.synchronize.Event, found: multiprocessing.connection.Connection) -> None:
    """Makes one write after another, and sends what it has measured to `found`."""
    longest, most = 0.0, Files(0, 0, 0)
    with bestore.connect(path) as store:
        while not is_over.is_set():
            begin = time.perf_counter()
            store.set(1, "watched", 1)
            longest = max(longest, time.perf_counter() - begin)
            most = Files(*map(max, most, files_of(kept)))
            time.sleep(0.002)
    found.send(Most(longest, most))


def write(server: Server, count: int) -> int:
    """Makes this many small writes, waits until they are in the file, and returns the maximum size of the memory."""
    lines = Lines(server.path)
    sizes: List[int] = []
    for first in range(0, count, AT_ONCE):
        lines.ask(*(
            {"batch": {"operations": [["set", number % NODES + 1, "count", number]]}} for number in range(first, first + AT_ONCE)))
        if first % 50_000 == 0:
            sizes.append(server.memory)
    lines.ask({"flush": {}})
    return max(sizes)


def write_for_long(server: Server, count: int) -> Tuple[int, Files]:
    """Makes the writes while a second client also writes. Prints the figures, and returns the maximum size of the memory and of
    the files."""
    is_over, (found, sent) = multiprocessing.Event(), multiprocessing.Pipe(duplex=False)
    watching = multiprocessing.Process(target=watch, args=(server.path, server.kept, is_over, sent))
    watching.start()
    sent.close()
    before, begin = server.memory, time.perf_counter()
    memory = write(server, count)
    seconds = time.perf_counter() - begin
    is_over.set()
    most: Most = found.recv()
    watching.join()
    print(f"{count} writes in {seconds:.0f} s; the longest of the other client took {most.seconds * 1000:.0f} ms")
    print(f"memory: {before >> 20} MB before, {memory >> 20} MB at most, {server.memory >> 20} MB after; the pages take "
          f"{PAGES >> 8} MB")
    return memory, most.files


def main() -> None:
    if not 2 <= len(sys.argv) <= 3 or sys.argv[1].startswith("-"):
        raise SystemExit(__doc__)
    program = Path(sys.argv[1]).resolve() / "bestored"
    count = int(sys.argv[2]) if len(sys.argv) > 2 else WRITES
    with tempfile.TemporaryDirectory() as name:
        folder = Path(name)
        with Server(program, folder) as server:
            fill(server.path)
            Lines(server.path).ask({"compact": {}})
            state = server.end()
        with Server(program, folder) as server:
            of_state = server.start
            write(server, FIRST)
        with Server(program, folder) as server:
            first = server.start
            memory, files = write_for_long(server, count)
        with Server(program, folder) as server:
            many = server.start
            Lines(server.path).ask({"compact": {}})
            write(server, FIRST)
        with Server(program, folder) as server:
            last = server.start
    print(f"files: {state.both / (1 << 20):.1f} MB with the state; at most {files}")
    print(f"a start: {of_state} with the state, {first} after {FIRST} writes, {many} after {count} more, and {last} with the state of "
          f"that time and {FIRST} writes")
    is_longer = files.both > MOST_GROWTH * state.both + EXTRA_IN_FILES
    is_larger = memory > MOST_GROWTH * (PAGES << 12) + EXTRA_IN_MEMORY
    is_slower = last.busy > MOST_SLOWER * first.busy or many.busy > MOST_FULL * first.busy
    if is_longer or is_larger or is_slower:
        raise SystemExit(1)


if __name__ == "__main__":
    main()
