#!/usr/bin/env python3
"""Measures how fast workers in Python claim one job each from a queue, compared with sqlite3. Prints a Markdown table
with the claims per second.

    /usr/bin/python3 bench/claims.py                          queues of 500, 2,000 and 16,000 jobs, one worker and eight
    /usr/bin/python3 bench/claims.py --queued 500 --rounds 1  a trial run
    /usr/bin/python3 bench/claims.py --instructions           instead, the instructions per claim of one worker, by perf or valgrind

It needs the package (PYTHONPATH=python). A claim reads a waiting job and marks it as claimed, in one step: any job, or the most
urgent one. Claimed jobs are queued again between rounds, so that the queue always has the same length. The stores are:

    bestore               a `change`, as in examples/python/jobs.py. The most urgent job then loses its urgency
    sqlite3, statement    a single UPDATE with RETURNING, in memory. All workers share a connection, guarded by a lock
    sqlite3, transaction  what `change` does: begin, select a job, let Python look at it, update the job, and commit; otherwise
                          as before
    sqlite3, file         the same transaction on a file with a write-ahead log, in /dev/shm if there is one, with
                          synchronous=NORMAL and a connection for each worker
"""

from __future__ import annotations

import argparse
import os
import sqlite3
import sys
import tempfile
import threading
from typing import Any, Callable, Dict, List, Optional, Sequence, Tuple, Union

sys.path[:0] = [os.path.join(os.path.dirname(os.path.abspath(__file__)), folder) for folder in ("../python", "script")]

import bestore

from instructions import instructions_a_call
from timing import seconds_of

CLAIMS = 400
"""How many jobs are claimed per round."""
FEW, MANY = 100, 400
"""How many claims are made when instructions are counted."""
WAYS = ("any_job", "urgent_job")
Claim = Callable[[], Optional[int]]


def urgency_of(number: int) -> int:
    return number * 7919 % 1000


class Bestore:
    """Jobs as nodes. `claimers` are the ways to claim a job."""

    def __init__(self, queued: int) -> None:
        self._store = bestore.open(16384)
        self._store.make_index("job:state", bestore.STRING)
        self._store.make_index("job:urgency", bestore.INT64)
        self._urgencies = {self._store.new_node(): urgency_of(number) for number in range(queued)}
        self.queue_again(list(self._urgencies))

    def any_job(self) -> Claim:
        """Claims any job, through the worker's own pass."""
        user, waiting = self._store.another(), bestore.prepare("job:state==waiting")

        def claim(change: bestore.Change) -> Optional[int]:
            for job in change.any(waiting, 1):
                change.set(job, "job:state", "claimed")
                return job
            return None

        return lambda: user.change(claim)

    def urgent_job(self) -> Claim:
        """Claims the most urgent job. Only waiting jobs have an urgency in the index."""
        user, waiting = self._store.another(), bestore.prepare("job:state==waiting")

        def claim(change: bestore.Change) -> Optional[int]:
            for job in change.query_prepared(waiting, by="job:urgency", descending=True, limit=1):
                change.set(job, "job:state", "claimed")
                change.unset(job, "job:urgency")
                return job
            return None

        return lambda: user.change(claim)

    def queue_again(self, jobs: List[int]) -> None:
        for job in jobs:
            self._store.apply(bestore.Batch().set(job, "job:state", "waiting").set(job, "job:urgency", self._urgencies[job]))

    def close(self) -> None:
        self._store.close()


class Sqlite:
    """Jobs as rows in memory, with an index on state and urgency. A claim is a single statement."""

    def __init__(self, queued: int) -> None:
        self._lock = threading.Lock()
        self._connections: List[sqlite3.Connection] = []
        self._connection = self._connected()
        self._connection.execute("CREATE TABLE job (number INTEGER PRIMARY KEY, state TEXT, urgency INTEGER)")
        self._connection.execute("CREATE INDEX jobs ON job (state, urgency)")
        rows = [("waiting", urgency_of(number)) for number in range(queued)]
        self._write("INSERT INTO job (state, urgency) VALUES (?, ?)", rows)

    def _connected(self, path: str = ":memory:") -> sqlite3.Connection:
        connection = sqlite3.connect(path, timeout=60, isolation_level=None, check_same_thread=False)
        self._connections.append(connection)
        return connection

    def _write(self, line: str, rows: Sequence[Sequence[Any]]) -> None:
        """Executes a statement with each of these rows, in one transaction."""
        self._connection.execute("BEGIN")
        self._connection.executemany(line, rows)
        self._connection.execute("COMMIT")

    def any_job(self) -> Claim:
        return self._claim("SELECT number FROM job WHERE state = 'waiting' LIMIT 1")

    def urgent_job(self) -> Claim:
        return self._claim("SELECT number FROM job WHERE state = 'waiting' ORDER BY urgency DESC, number DESC LIMIT 1")

    def _claim(self, chosen: str) -> Claim:
        """Returns a way to claim the job that a SELECT chooses."""
        line = f"UPDATE job SET state = 'claimed' WHERE number = ({chosen}) RETURNING number"

        def claim() -> Optional[int]:
            with self._lock:
                rows = self._connection.execute(line).fetchall()
            return rows[0][0] if rows else None

        return claim

    def queue_again(self, jobs: List[int]) -> None:
        self._write("UPDATE job SET state = 'waiting' WHERE number = ?", [(job,) for job in jobs])

    def close(self) -> None:
        for connection in self._connections:
            connection.close()


def claim_in_transaction(connection: sqlite3.Connection, chosen: str) -> Optional[int]:
    """Claims the job that a SELECT chooses. Nothing else is written between the SELECT and the UPDATE."""
    connection.execute("BEGIN IMMEDIATE")
    row: Optional[Tuple[int]] = connection.execute(chosen).fetchone()
    if row is not None:
        connection.execute("UPDATE job SET state = 'claimed' WHERE number = ?", row)
    connection.execute("COMMIT")
    return None if row is None else row[0]


class SqliteTransaction(Sqlite):
    """Jobs as rows in memory. A claim is a transaction that reads and then writes."""

    def _claim(self, chosen: str) -> Claim:
        def claim() -> Optional[int]:
            with self._lock:
                return claim_in_transaction(self._connection, chosen)

        return claim


class SqliteFile(Sqlite):
    """Jobs as rows in a file with a write-ahead log. A claim is a transaction, and each worker has its own connection."""

    def __init__(self, queued: int) -> None:
        self._folder = tempfile.TemporaryDirectory(dir="/dev/shm" if os.path.isdir("/dev/shm") else None)
        super().__init__(queued)

    def _connected(self, path: str = "") -> sqlite3.Connection:
        connection = super()._connected(path or os.path.join(self._folder.name, "jobs"))
        connection.execute("PRAGMA journal_mode = WAL")
        connection.execute("PRAGMA synchronous = NORMAL")
        return connection

    def _claim(self, chosen: str) -> Claim:
        connection = self._connected()
        return lambda: claim_in_transaction(connection, chosen)

    def close(self) -> None:
        super().close()
        self._folder.cleanup()


STORES: Dict[str, Callable[[int], Union[Bestore, Sqlite]]] = {
    "bestore": Bestore, "sqlite3, statement": Sqlite, "sqlite3, transaction": SqliteTransaction, "sqlite3, file": SqliteFile,
}


def work(claim: Claim, count: int, begin: threading.Barrier, claimed: List[int]) -> None:
    """Claims this many jobs once all workers are ready."""
    begin.wait()
    for _ in range(count):
        job = claim()
        if job is None:
            return
        claimed.append(job)


def rate(claims: List[Claim], queue_again: Callable[[List[int]], None]) -> float:
    """Returns how many jobs these workers claim per second."""
    begin = threading.Barrier(len(claims) + 1)
    claimed: List[List[int]] = [[] for _ in claims]
    workers = [threading.Thread(target=work, args=(claim, CLAIMS // len(claims), begin, jobs)) for claim, jobs in zip(claims, claimed)]
    taken = seconds_of(workers, begin)
    jobs = [job for some in claimed for job in some]
    if len(set(jobs)) != CLAIMS:
        sys.exit(f"{len(jobs)} claims of {len(set(jobs))} jobs, and not of {CLAIMS}")
    queue_again(jobs)
    return CLAIMS / taken


def measured(title: str, queued: int, workers: int, rounds: int) -> List[str]:
    """Returns a store's best rate for each way to claim."""
    store, best = STORES[title](queued), []
    for way in WAYS:
        claims = [getattr(store, way)() for _ in range(workers)]
        best.append(f"{max(rate(claims, store.queue_again) for _ in range(rounds)):,.0f}")
    store.close()
    return best


def instructions(title: str, queued: int) -> List[str]:
    """Returns one worker's instructions per claim, for each way."""
    own = [sys.executable, os.path.abspath(__file__), "--queued", str(queued), "--one"]
    return [instructions_a_call([*own, title, way], FEW, MANY) for way in WAYS]


def claim_some(title: str, way: str, count: int, queued: int) -> None:
    """Claims this many jobs and does nothing else."""
    store = STORES[title](queued)
    claim: Claim = getattr(store, way)()
    for _ in range(count):
        claim()
    store.close()


def main() -> None:
    parser = argparse.ArgumentParser(description=__doc__, formatter_class=argparse.RawDescriptionHelpFormatter)
    parser.add_argument("--rounds", type=int, default=5, help="how many rounds (5)")
    parser.add_argument("--queued", type=int, nargs="*", default=[500, 2_000, 16_000], help="how many jobs wait")
    parser.add_argument("--workers", type=int, nargs="*", default=[1, 8], help="how many workers there are")
    parser.add_argument("--instructions", action="store_true", help="count instructions instead")
    parser.add_argument("--one", nargs=3, metavar=("STORE", "WAY", "COUNT"), help=argparse.SUPPRESS)
    options = parser.parse_args()
    if options.one:
        claim_some(options.one[0], options.one[1], int(options.one[2]), options.queued[0])
        return
    print("| queued, workers | store | any job | most urgent job |\n|---|---|---|---|")
    for workers in [1] if options.instructions else options.workers:
        for queued in options.queued:
            for title in STORES:
                if options.instructions:
                    cells = instructions(title, queued)
                else:
                    cells = measured(title, queued, workers, options.rounds)
                print(f"| {queued:,}, {workers} | {title} | {' | '.join(cells)} |", flush=True)


if __name__ == "__main__":
    main()
