"""Clients that write and read until the round is over, and that record what they did."""
from __future__ import annotations

import random
import threading
import time
from collections import Counter
from dataclasses import dataclass, field
from typing import Counter as Counts
from typing import List, Optional, Sequence, Tuple

from crowd import Crowd
from lines import Connection, Gone, Late, Refused, Reply
from record import REGISTERS, Outcome, Read, Snapshot, Write

PART_READS = 0.3
"""The proportion of snapshots that a writer only reads."""
REST = 0.02
"""How many seconds a client waits before it retries."""
REPEATING = 60.0
"""How many seconds a client keeps sending a batch."""
FIRST_REPLY = 0.5
"""How many seconds a client waits for a server's first reply if there is another server to turn to. A server that is paused accepts
connections, but doesn't reply."""
LATE_MOST = 4
"""How many connections a client keeps while their replies are late."""
NOT_WRITTEN = {"Conflict", "NotLeader", "Stopped", "Busy", "Full"}
"""Errors that mean a batch sent for the first time wasn't written."""
NOT_WRITTEN_BEFORE = {"Conflict"}
"""Errors that mean no earlier attempt wrote the batch either."""


@dataclass
class Setting:
    """The settings that a round's clients share. `base` is the last node before the trail's first one. With `is_latest`, each read
    that `flush` confirms must show everything that was acknowledged before it. If there is a crowd, each snapshot is also queried."""

    places: Sequence[str]
    base: int
    seed: str
    is_latest: bool
    pause: float
    crowd: Optional[Crowd] = None
    over: threading.Event = field(default_factory=threading.Event)


def snapshot_of(connection: Connection, crowd: Optional[Crowd]) -> Snapshot:
    """Pins a snapshot, reads the registers, queries the crowd, and unpins it."""
    columns = {"nodes": list(range(1, REGISTERS + 1)), "names": ["value", "number"]}
    questions = crowd.questions() if crowd else []
    pinned, read, *counted, _ = connection.ask_all([("pin", {}), ("columns", columns), *questions, ("unpin", {})])
    values = tuple(int(row[0]) for row in read["rows"])
    counts = tuple(int(answer["count"]) for answer in counted)
    return Snapshot(connection.run, pinned["commit"], int(read["rows"][0][1]), values, counts)


class Client(threading.Thread):
    """A client that reconnects after errors. Each client tries the servers' addresses in its own order."""

    def __init__(self, setting: Setting, number: int, places: Sequence[str], patience: float) -> None:
        super().__init__()
        self.setting, self.number, self.patience = setting, number, patience
        self.random = random.Random(f"{setting.seed} {number}")
        self.reads: List[Read] = []
        self.errors: Counts[str] = Counter()
        self._places = list(places)
        self._connection: Optional[Connection] = None

    def run(self) -> None:
        while not self.setting.over.is_set():
            try:
                self.turn(self.connect())
                time.sleep(self.random.uniform(0, self.setting.pause))
            except Refused as refused:
                self.errors[refused.name] += 1
                self.leave()
            except (Gone, Late):
                self.leave()
        self.leave()

    def turn(self, connection: Connection) -> None:
        """Performs one operation."""
        self.read(connection)

    def read(self, connection: Connection) -> Snapshot:
        """Reads a snapshot, and records it once the server has confirmed that all of it is kept."""
        begin = time.monotonic()
        snapshot = snapshot_of(connection, self.setting.crowd)
        connection.ask("flush", {})
        self.reads.append(Read(snapshot, begin, time.monotonic(), self.setting.is_latest))
        return snapshot

    def connect(self) -> Connection:
        """Returns the current connection, or a new one to the first address that accepts it."""
        first = self.patience if len(self._places) == 1 else min(self.patience, FIRST_REPLY)
        while self._connection is None and not self.setting.over.is_set():
            try:
                self._connection = Connection(self._places[0], first)
                self._connection.wait(self.patience)
            except (Gone, Late, Refused):
                self.turn_places()
                self.setting.over.wait(REST)
        if self._connection is None:
            raise Gone("the round is over")
        return self._connection

    def turn_places(self) -> None:
        """Makes the next address the first to try."""
        self._places.append(self._places.pop(0))

    def leave(self) -> None:
        """Closes the connection, and moves on to the next address."""
        if self._connection is not None:
            self._connection.close()
            self._connection = None
            self.turn_places()


class Writer(Client):
    """A client that writes batches based on what it has read. Every other writer sends a batch again, with its token, until the
    outcome is known."""

    def __init__(self, setting: Setting, number: int, places: Sequence[str], patience: float) -> None:
        super().__init__(setting, number, places, patience)
        self.writes: List[Write] = []
        self.acknowledged = 0
        self._repeats = number % 2 == 0
        self._late: List[Tuple[Connection, Write]] = []

    def turn(self, connection: Connection) -> None:
        if self.random.random() < PART_READS:
            self.read(connection)
            return
        write = self._next(snapshot_of(connection, self.setting.crowd))
        self.writes.append(write)
        self._send(connection, write, NOT_WRITTEN)
        until = time.monotonic() + REPEATING
        while self._repeats and write.outcome is Outcome.UNKNOWN and time.monotonic() < until:
            try:
                self._send(self.connect(), write, NOT_WRITTEN_BEFORE)
            except Gone:
                return
            self.setting.over.wait(REST)

    def _next(self, on: Snapshot) -> Write:
        value = self.number * 10**9 + len(self.writes) + 1
        registers = tuple(self.random.sample(range(1, REGISTERS + 1), self.random.randint(1, 3)))
        return Write(value, registers, on, time.monotonic())

    def _send(self, connection: Connection, write: Write, not_written: "set[str]") -> None:
        """Sends a batch, and records what the client then knows about it."""
        on, node = write.on, self.setting.base + write.on.number + 1
        operations = [["new"], ["set", node, "value", write.value], ["set", 1, "number", on.number + 1]]
        operations += [["set", register, "value", write.value] for register in write.registers]
        if self.setting.crowd:
            operations += self.setting.crowd.moves(on.number + 1)
        batch = {"operations": operations, "expected": on.commit, "run": on.run}
        if self._repeats:
            batch["token"] = f"{self.setting.base} {write.value}"
        try:
            self._acknowledge(write, connection.ask("batch", batch), connection.run)
        except Refused as refused:
            self.errors[refused.name] += 1
            write.errors.append(refused.name)
            if refused.name in not_written:
                write.outcome, write.end = Outcome.REFUSED, time.monotonic()
            if refused.name != "Conflict":
                self.leave()
        except Late:
            write.errors.append("no reply in time")
            self._keep_late(connection, write)
        except Gone:
            write.errors.append("the connection ended")
            self.leave()

    def _acknowledge(self, write: Write, reply: Reply, run: str) -> None:
        self.acknowledged += 1
        write.outcome, write.end, write.run = Outcome.ACKNOWLEDGED, time.monotonic(), run
        write.commit, write.entry = reply["commit"], reply.get("entry")
        write.number = reply["nodes"][0] - self.setting.base
        write.is_repeated = reply.get("repeated", False)

    def _keep_late(self, connection: Connection, write: Write) -> None:
        """Sets the connection aside, since the server may still acknowledge the batch on it."""
        self._late.append((connection, write))
        self._connection = None
        self.turn_places()
        if len(self._late) > LATE_MOST:
            self._take_late(0.0)

    def _take_late(self, seconds: float) -> None:
        """Receives the reply that has been late the longest, if it arrives within this many seconds."""
        connection, write = self._late.pop(0)
        connection.wait(max(seconds, 0.001))
        try:
            reply = connection.receive()
            if "ok" in reply and write.outcome is not Outcome.ACKNOWLEDGED:
                self._acknowledge(write, reply["ok"], connection.run)
        except (Gone, Late):
            pass
        connection.close()

    def take_all_late(self, seconds: float) -> None:
        """Receives the late replies after the client has finished."""
        until = time.monotonic() + seconds
        while self._late:
            self._take_late(until - time.monotonic())
