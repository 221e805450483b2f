"""A history's servers: one with a file, or three with a log. A server that ends is restarted, as it would be by a service manager."""
from __future__ import annotations

import os
import shutil
import signal
import subprocess
import tempfile
import threading
import time
from pathlib import Path
from typing import Callable, List, Optional, TypeVar

from lines import Connection, Gone, Late, Refused, Reply
from postgres import Postgres

T = TypeVar("T")
PAGES = 16_384
JOURNAL = 256
"""How many KiB of entries a server's journal may hold in memory before it is freed. The limit is reached several times a minute."""
PATIENCE = 120.0
"""How many seconds a server may take to start or to answer."""
LOOK = 0.02
"""How often, in seconds, to check whether a server is running."""


class Server:
    """A program that is restarted `rest` seconds after it ends."""

    def __init__(self, command: List[str], place: Path, rest: float) -> None:
        self.place = str(place)
        self._command, self._rest = command, rest
        self._lock = threading.Lock()
        self._is_over = threading.Event()
        self.starts = 0
        self._start()
        self._keeper = threading.Thread(target=self._keep_running)
        self._keeper.start()

    def _start(self) -> None:
        with open(self.place + ".said", "ab") as said, self._lock:
            self._process = subprocess.Popen(self._command, stdin=subprocess.DEVNULL, stderr=said)
            self.starts += 1

    def _keep_running(self) -> None:
        while not self._is_over.wait(LOOK):
            if self._process.poll() is not None and not self._is_over.wait(self._rest):
                self._start()

    def change_command(self, command: List[str]) -> None:
        """Sets the command for the next start and later ones."""
        self._command = command

    def send(self, how: signal.Signals) -> None:
        with self._lock:
            if self._process.poll() is None:
                self._process.send_signal(how)

    def memory(self) -> int:
        """Returns how many MiB of memory the server uses."""
        try:
            status = Path(f"/proc/{self._process.pid}/status").read_text()
        except OSError:
            return 0
        sizes = [line.split()[1] for line in status.splitlines() if line.startswith("VmRSS:")]
        return int(sizes[0]) >> 10 if sizes else 0

    def close(self) -> None:
        self._is_over.set()
        self._keeper.join()
        self._process.kill()
        self._process.wait()


class Servers:
    """The servers of one store, in a new folder."""

    def __init__(self, programs: Path) -> None:
        self.program = str(programs / "bestored")
        self.folder = Path(tempfile.mkdtemp(prefix="bestored-history-", dir=_memory()))
        self.members: List[Server] = []

    def leader(self) -> Optional[Server]:
        """Returns the server that currently accepts writes, if there is one."""
        raise NotImplementedError

    @property
    def places(self) -> List[str]:
        return [member.place for member in self.members]

    def connect(self) -> Connection:
        """Waits until a server accepts writes, and returns a connection to it."""
        until = time.monotonic() + PATIENCE
        while time.monotonic() < until:
            leader = self.leader()
            try:
                if leader is not None:
                    return Connection(leader.place, PATIENCE)
            except (Gone, Late, Refused):
                pass
            time.sleep(LOOK)
        raise SystemExit(f"no server has taken writes for {PATIENCE:.0f} seconds\n{self.said()}")

    def ask_leader(self, ask: Callable[[Connection], T]) -> T:
        """Calls `ask` with a connection to the server that accepts writes. Calls it again if that server ends in the meantime."""
        return _ask_again(self.connect, ask)

    def ask_at(self, place: str, ask: Callable[[Connection], T]) -> T:
        """Does the same with a connection to the server at this address."""
        return _ask_again(lambda: self.connect_to(place), ask)

    def connect_to(self, place: str) -> Connection:
        """Waits until this server accepts a connection, and returns the connection."""
        until = time.monotonic() + PATIENCE
        while time.monotonic() < until:
            try:
                return Connection(place, PATIENCE)
            except (Gone, Late, Refused):
                time.sleep(LOOK)
        raise SystemExit(f"{place} has taken no connection for {PATIENCE:.0f} seconds\n{self.said()}")

    def said(self) -> str:
        """Returns the last lines that the servers have printed."""
        return "\n".join(Path(f"{place}.said").read_text()[-2000:] for place in self.places)

    def memory(self) -> int:
        """Returns how many MiB of memory the servers use."""
        return sum(member.memory() for member in self.members)

    def __enter__(self) -> Servers:
        return self

    def __exit__(self, *error: object) -> None:
        for member in self.members:
            member.send(signal.SIGCONT)
            member.close()
        shutil.rmtree(self.folder)


class FileServers(Servers):
    """A single server with a file."""

    def __init__(self, programs: Path, *options: str, pages: int = PAGES) -> None:
        super().__init__(programs)
        place = self.folder / "socket"
        command = [self.program, "--socket", str(place), "--pages", str(pages), "--journal", str(JOURNAL),
                   "--keep", str(self.folder / "kept"), *options]
        self.members.append(Server(command, place, 0.0))

    def leader(self) -> Optional[Server]:
        return self.members[0]


class LogServers(Servers):
    """Three servers that share a log in PostgreSQL."""

    def __init__(self, programs: Path, postgres: Postgres) -> None:
        super().__init__(programs)
        self.postgres = postgres
        for number in range(3):
            place = self.folder / f"socket{number}"
            command = self._command(place, "--follow" if number else "--log")
            self.members.append(Server(command, place, 2.0))
            self.connect().close()
        self.members[0].change_command(self._command(self.folder / "socket0", "--follow"))

    def _command(self, place: Path, how: str) -> List[str]:
        return [self.program, "--socket", str(place), "--pages", str(PAGES), "--journal", str(JOURNAL), how, self.postgres.url]

    def leader(self) -> Optional[Server]:
        """Returns the leader of the last term. A leader that was paused doesn't notice right away that it no longer leads."""
        terms = [(_log_of(member.place).get("term", 0), number) for number, member in enumerate(self.members)]
        term, last = max(terms)
        return self.members[last] if term else None

    def followers(self) -> List[Server]:
        return [member for member in self.members if _log_of(member.place).get("role") == "follower"]


def _ask_again(connect: Callable[[], Connection], ask: Callable[[Connection], T]) -> T:
    """Calls `ask` with a connection, and retries with a new one if the server ends or can't answer."""
    until = time.monotonic() + PATIENCE
    while True:
        connection = connect()
        try:
            return ask(connection)
        except (Gone, Late, Refused):
            if time.monotonic() > until:
                raise
            time.sleep(LOOK)
        finally:
            connection.close()


def _log_of(place: str) -> Reply:
    """Returns what a server reports about its log, or an empty reply if it doesn't answer."""
    try:
        connection = Connection(place, 0.5)
    except (Gone, Late, Refused):
        return {}
    try:
        return connection.ask("log", {})
    except (Gone, Late, Refused):
        return {}
    finally:
        connection.close()


def _memory() -> Optional[str]:
    """Returns a folder in memory, if possible. Its contents survive when a process is killed."""
    return "/dev/shm" if os.access("/dev/shm", os.W_OK) else None
