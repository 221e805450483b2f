#!/usr/bin/env python3
"""Sends batches again with their tokens while the server is killed again and again. Is each batch written exactly once?

usage: retries.py FOLDER [BATCHES]    the folder with bestored, such as rust/target/release; 100,000 batches by default

32 processes write to a server that keeps its store in a file. Each batch creates a node, removes the node that the process created
before, and increments a counter. The server is killed with signal 9 at random moments and restarted. At the end, every process must
have received a reply to each of its batches, and the store must have created exactly one node per batch. PYTHONPATH must name the
folder that contains the bestore package. The program exits with 1 if a batch is missing or was written twice.
"""
from __future__ import annotations

import multiprocessing
import random
import subprocess
import sys
import tempfile
import time
from multiprocessing.pool import AsyncResult
from pathlib import Path
from typing import List

import bestore
from bestore import Batch

CLIENTS = 32
BATCHES = 100_000
PATIENCE = 120.0
"""How many seconds a client keeps sending a batch."""
LIFE = 1.5
"""The maximum number of seconds before a server is killed."""


def connect(socket: str) -> bestore.connected.ConnectedPass:
    """Connects to a server that may be killed at any moment."""
    until = time.monotonic() + PATIENCE
    while True:
        try:
            return bestore.connect(socket, repeat=PATIENCE)
        except (bestore.NoServer, bestore.connected.BrokenConnection, bestore.NoPass):
            if time.monotonic() > until:
                raise
            time.sleep(0.005)


def write(socket: str, node: int, count: int) -> int:
    """Writes batches, each exactly once. Returns how many replies arrived."""
    last = 0
    with connect(socket) as store:
        for number in range(1, count + 1):
            batch = Batch()
            batch.new_node()
            batch.set(node, "count", number)
            if last:
                batch.remove_node(last)
            _, made = store.apply(batch)
            last = made[0]
    return count


class Server:
    """A server that can be killed and restarted."""

    def __init__(self, programs: Path, folder: Path) -> None:
        self.socket = str(folder / "socket")
        self._command = [str(programs / "bestored"), "--socket", self.socket, "--keep", str(folder / "kept")]
        self.start()

    def start(self) -> None:
        self._process = subprocess.Popen(self._command, stderr=subprocess.DEVNULL)
        connect(self.socket).close()

    def kill(self) -> None:
        self._process.kill()
        self._process.wait()


def kill_until(server: Server, writing: List[AsyncResult[int]]) -> int:
    """Kills the server again and again until all writers have finished. Returns how many times it did so."""
    kills = 0
    while not all(one.ready() for one in writing):
        time.sleep(random.uniform(0.01, LIFE))
        server.kill()
        server.start()
        kills += 1
    return kills


def check(server: Server, begin: int, each: int) -> None:
    """Exits unless each batch was written exactly once."""
    with bestore.connect(server.socket) as store, store.pin() as version:
        counts = version.column(range(1, CLIENTS + 1), "count")
        made = version.next_node - begin
        if counts != [each] * CLIENTS or made != each * CLIENTS:
            raise SystemExit(f"{made} nodes were made by {each * CLIENTS} batches, and the counts are {counts}")


def main() -> None:
    if not 2 <= len(sys.argv) <= 3 or sys.argv[1].startswith("-"):
        raise SystemExit(__doc__)
    programs = Path(sys.argv[1]).resolve()
    each = int(sys.argv[2] if len(sys.argv) > 2 else BATCHES) // CLIENTS
    with tempfile.TemporaryDirectory() as name, multiprocessing.Pool(CLIENTS) as pool:
        server = Server(programs, Path(name))
        try:
            with bestore.connect(server.socket) as store:
                for node in range(1, CLIENTS + 1):
                    store.new_node()
                    store.set(node, "count", 0)
                with store.pin() as version:
                    begin = version.next_node
            started = time.monotonic()
            writing = [pool.apply_async(write, (server.socket, node, each)) for node in range(1, CLIENTS + 1)]
            kills = kill_until(server, writing)
            replies = sum(one.get(PATIENCE) for one in writing)
            check(server, begin, each)
        finally:
            server.kill()
    seconds = time.monotonic() - started
    print(f"{replies} batches by {CLIENTS} clients in {seconds:.0f} s, each written once; the server was killed {kills} times")


if __name__ == "__main__":
    main()
