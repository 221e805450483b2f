"""A round: clients write and read for a while, faults occur, and then everything that the clients saw is checked."""
from __future__ import annotations

import random
import time
from collections import Counter
from dataclasses import dataclass, field
from typing import Counter as Counts
from typing import Callable, Iterator, List, Optional, Tuple

from checker import violations
from clients import Client, Setting, Writer
from crowd import Crowd
from faults import Fault
from lines import Connection, Reply
from record import REGISTERS, History, Outcome
from servers import LogServers, Servers

WRITERS = 8
PATIENCES = (2.0, 12.0)
"""How many seconds the writers wait for a reply if there is another server to turn to. The values alternate between writers."""
PATIENT = 120.0
"""How many seconds they wait if there is no other server."""
AT_ONCE = 1_000
"""How many of the trail's nodes to read with one request."""
OPERATIONS = 64
LATE = 5.0
"""How many seconds to wait for late replies at the end."""
LOOK = 0.02
Made = List[Tuple[Fault, float]]
"""Faults, and the times after which writes must soon continue."""


@dataclass
class Report:
    """A round's outcome. `waits` holds the number of seconds from each fault to the next write."""

    history: History
    violations: List[str]
    waits: List[Tuple[Fault, Optional[float]]]
    errors: Counts[str] = field(default_factory=Counter)

    def count(self, outcome: Outcome) -> int:
        return sum(write.outcome is outcome for write in self.history.writes)

    def slow(self, times: float = 1.0) -> List[str]:
        """Returns the faults after which writes took more than `times` times the fault's limit to continue."""
        return [f"{fault.name}: writes went on after {'more than the rest of the round' if wait is None else f'{wait:.1f} s'}"
                for fault, wait in self.waits if wait is None or wait > times * fault.bound]


class Plan:
    """A plan that causes random faults for this many seconds."""

    def __init__(self, seed: str, seconds: float, faults: List[Fault], pauses: Tuple[float, float]) -> None:
        self.dice = random.Random(seed)
        self._until = time.monotonic() + seconds
        self._faults, self._pauses = faults, pauses

    def run(self, servers: Servers, written: Callable[[], int]) -> Made:
        """Causes the faults, and returns when each of them happened. `written` returns how many batches have been acknowledged."""
        made: Made = []
        while time.monotonic() < self._until:
            time.sleep(self.dice.uniform(*self._pauses))
            fault = self.dice.choice(self._faults)
            made.append((fault, fault.act(servers, self.dice)))
            servers.connect().close()
        return made


class Given(Plan):
    """A plan that causes each of these faults once, each after some batches have been written."""

    def __init__(self, seed: str, faults: List[Fault], batches: int) -> None:
        super().__init__(seed, 0.0, faults, (0.0, 0.1))
        self._batches = batches

    def run(self, servers: Servers, written: Callable[[], int]) -> Made:
        made: Made = []
        for fault in self._faults:
            until, enough = time.monotonic() + PATIENT, written() + self._batches
            while written() < enough and time.monotonic() < until:
                time.sleep(LOOK)
            time.sleep(self.dice.uniform(*self._pauses))
            made.append((fault, fault.act(servers, self.dice)))
            servers.connect().close()
        return made


def run_round(servers: Servers, plan: Plan, seed: str, pause: float, crowd: Optional[Crowd] = None) -> Report:
    """Runs clients that rest up to `pause` seconds after each write while the plan causes its faults, and then checks what they
    saw. With a crowd, the store must be new."""
    is_shared = isinstance(servers, LogServers)
    setting = Setting(servers.places, servers.ask_leader(lambda connection: _begin(connection, crowd)), seed, not is_shared, pause, crowd)
    writers = [Writer(setting, number + 1, _from(servers.places, number), PATIENCES[number % 2] if is_shared else PATIENT)
               for number in range(WRITERS)]
    readers = [Client(setting, WRITERS + 1 + number, [place], PATIENT) for number, place in enumerate(servers.places) if is_shared]
    clients: List[Client] = [*writers, *readers]
    for client in clients:
        client.start()
    try:
        made = plan.run(servers, lambda: sum(writer.acknowledged for writer in writers))
        _wait_for_writes(writers, made)
    finally:
        setting.over.set()
        for client in clients:
            client.join()
    for writer in writers:
        writer.take_all_late(LATE)
    history = History([it for writer in writers for it in writer.writes], [it for client in clients for it in client.reads])
    history.trail = servers.ask_leader(lambda connection: _trail(connection, setting.base))
    found = list(violations(history, crowd)) + list(_other_trails(servers, setting.base, history.trail))
    errors = sum((client.errors for client in clients), Counter[str]())
    return Report(history, found, [(fault, _wait_after(history, since)) for fault, since in made], errors)


def _from(places: List[str], number: int) -> List[str]:
    """Returns the addresses in an order that starts with a different one for each client."""
    first = number % len(places)
    return places[first:] + places[:first]


def _begin(connection: Connection, crowd: Optional[Crowd]) -> int:
    """Creates the registers and the crowd, or resets the registers and removes the previous round's trail. Returns the last node before
    the next trail."""
    if connection.ask("next", {})["next"] == 1:
        if crowd:
            crowd.restore(connection)
        else:
            _apply(connection, [["new"]] * REGISTERS)
    first = (crowd.last if crowd else REGISTERS) + 1
    while True:
        nodes = connection.ask("nodes", {"from": first, "limit": OPERATIONS})["nodes"]
        if not nodes:
            break
        _apply(connection, [["remove", node] for node in nodes])
    _apply(connection, [["set", 1, "number", 0], *(["set", register, "value", 0] for register in range(1, REGISTERS + 1))])
    base = int(connection.ask("next", {})["next"]) - 1
    connection.ask("flush", {})
    return base


def _apply(connection: Connection, operations: List[List[object]]) -> Reply:
    return connection.ask("batch", {"operations": operations})


def _trail(connection: Connection, base: int) -> List[int]:
    """Returns the batches' values in order, with 0 for each node that has no value."""
    connection.ask_all([("flush", {}), ("pin", {})])
    after = connection.ask("next", {})["next"]
    trail: List[int] = []
    for first in range(base + 1, after, AT_ONCE):
        nodes = list(range(first, min(first + AT_ONCE, after)))
        read = connection.ask("columns", {"nodes": nodes, "names": ["value"]})
        trail += [int(row[0] or 0) for row in read["rows"]]
    connection.ask("unpin", {})
    return trail


def _other_trails(servers: Servers, base: int, trail: List[int]) -> Iterator[str]:
    """Yields the servers of a log whose trails still differ from the leader's once they have all of its entries."""
    if not isinstance(servers, LogServers):
        return
    entry = servers.ask_leader(lambda connection: connection.ask("log", {}))["entry"]

    def late_trail(connection: Connection) -> List[int]:
        connection.ask("log", {"entry": entry, "within": 60_000})
        return _trail(connection, base)

    for place in servers.places:
        if servers.ask_at(place, late_trail) != trail:
            yield f"{place} has another trail than the leader"


def _wait_for_writes(writers: List[Writer], made: Made) -> None:
    """Waits until a batch has been written after the last fault."""
    since = max((since for _, since in made), default=time.monotonic())
    until = since + PATIENT
    while time.monotonic() < until:
        if any(_has_written(writer, since) for writer in writers):
            return
        time.sleep(LOOK)


def _has_written(writer: Writer, since: float) -> bool:
    last = [write for write in writer.writes[-2:] if write.outcome is Outcome.ACKNOWLEDGED]
    return any(write.begin >= since for write in last)


def _wait_after(history: History, since: float) -> Optional[float]:
    """Returns how many seconds passed between a fault and the first acknowledgement of a batch that was sent after it."""
    ends = [write.end - since for write in history.writes
            if write.outcome is Outcome.ACKNOWLEDGED and write.begin >= since and write.end is not None]
    return min(ends, default=None)
