"""The faults that a round causes while clients write. Each returns the time after which writes must soon continue."""
from __future__ import annotations

import random
import signal
import time
from dataclasses import dataclass
from typing import Callable, List

from servers import FileServers, LogServers, Server

SOON = 10.0
"""The number of seconds within which writes must continue."""
HANGS = 15.0
"""How many seconds a database hangs."""
PAUSED = 30.0
"""How many seconds a leader is paused."""


@dataclass(frozen=True)
class Fault:
    """A fault, and the number of seconds within which writes must continue after it."""

    name: str
    bound: float
    act: Callable[..., float]


def _leader(servers: LogServers) -> Server:
    """Waits until a server leads, and returns it."""
    servers.connect().close()
    return servers.leader() or _leader(servers)


def _kill(servers: FileServers, dice: random.Random) -> float:
    servers.members[0].send(signal.SIGKILL)
    return time.monotonic()


def _kill_starting(servers: FileServers, dice: random.Random) -> float:
    """Kills the server, and then kills its successor while that is starting."""
    server = servers.members[0]
    starts = server.starts
    server.send(signal.SIGKILL)
    while server.starts == starts:
        time.sleep(0.001)
    time.sleep(dice.uniform(0, 0.02))
    server.send(signal.SIGKILL)
    return time.monotonic()


def _end(servers: FileServers, dice: random.Random) -> float:
    servers.members[0].send(signal.SIGTERM)
    return time.monotonic()


def _pause(servers: FileServers, dice: random.Random) -> float:
    _stop_for(servers.members[0], dice.uniform(0.1, 3))
    return time.monotonic()


def _stop_for(server: Server, seconds: float) -> float:
    """Pauses a server for this many seconds, and returns when the pause began."""
    server.send(signal.SIGSTOP)
    begin = time.monotonic()
    time.sleep(seconds)
    server.send(signal.SIGCONT)
    return begin


def _kill_leader(servers: LogServers, dice: random.Random) -> float:
    _leader(servers).send(signal.SIGKILL)
    return time.monotonic()


def _end_leader(servers: LogServers, dice: random.Random) -> float:
    _leader(servers).send(signal.SIGTERM)
    return time.monotonic()


def _pause_leader(servers: LogServers, dice: random.Random) -> float:
    return _stop_for(_leader(servers), PAUSED)


def _kill_follower(servers: LogServers, dice: random.Random) -> float:
    followers = servers.followers()
    if followers:
        dice.choice(followers).send(signal.SIGKILL)
    return time.monotonic()


def _pause_follower(servers: LogServers, dice: random.Random) -> float:
    followers = servers.followers()
    return _stop_for(dice.choice(followers), dice.uniform(1, 5)) if followers else time.monotonic()


def _restart_database(servers: LogServers, dice: random.Random) -> float:
    servers.postgres.end(dice.choice([signal.SIGINT, signal.SIGQUIT]))
    time.sleep(dice.uniform(0.2, 3))
    servers.postgres.begin()
    return time.monotonic()


def _hang_database(servers: LogServers, dice: random.Random) -> float:
    servers.postgres.signal_all(signal.SIGSTOP)
    time.sleep(HANGS)
    servers.postgres.signal_all(signal.SIGCONT)
    return time.monotonic()


def _lose_standby(servers: LogServers, dice: random.Random) -> float:
    """Makes PostgreSQL wait at each commit for a standby that doesn't exist."""
    _set(servers, "SET synchronous_standby_names = 'away'")
    time.sleep(HANGS)
    _set(servers, "RESET synchronous_standby_names")
    return time.monotonic()


def _set(servers: LogServers, setting: str) -> None:
    servers.postgres.sql(f"ALTER SYSTEM {setting}")
    servers.postgres.sql("SELECT pg_reload_conf()")


KILL = Fault("the server is killed", SOON, _kill)
KILL_LEADER = Fault("the leader is killed", SOON, _kill_leader)
RESTART_DATABASE = Fault("PostgreSQL ends, and starts again", SOON, _restart_database)

OF_FILE: List[Fault] = [
    KILL,
    Fault("the server is killed, and again while it starts", SOON, _kill_starting),
    Fault("the server is ended by SIGTERM", SOON, _end),
    Fault("the server is paused for up to 3 s", SOON, _pause),
]
OF_LOG: List[Fault] = [
    KILL_LEADER,
    Fault("the leader is ended by SIGTERM", SOON, _end_leader),
    Fault(f"the leader is paused for {PAUSED:.0f} s", SOON, _pause_leader),
    Fault("a follower is killed", SOON, _kill_follower),
    Fault("a follower is paused for up to 5 s", SOON, _pause_follower),
    RESTART_DATABASE,
    Fault(f"PostgreSQL hangs for {HANGS:.0f} s", SOON, _hang_database),
    Fault(f"PostgreSQL's synchronous standby is away for {HANGS:.0f} s", SOON, _lose_standby),
]
