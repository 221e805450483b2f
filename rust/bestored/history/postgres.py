"""A private PostgreSQL server that can be shut down, or stopped so that it hangs."""
from __future__ import annotations

import os
import pwd
import shutil
import signal
import socket
import subprocess
import tempfile
import time
from pathlib import Path
from typing import Iterator, List, Optional

OPTIONS = ["max_connections=100", "shared_buffers=32MB", "fsync=off", "log_min_messages=fatal", "max_wal_size=64MB"]
PATIENCE = 60.0
"""How many seconds the server may take to start."""


def programs() -> Optional[Path]:
    """Returns the folder of the latest installed version, or `None` if PostgreSQL isn't installed."""
    found = sorted(Path("/usr/lib/postgresql").glob("*/bin/initdb"))
    return found[-1].parent if found else None


def _user() -> Optional[str]:
    """If this process runs as root, returns another user to run PostgreSQL as, since PostgreSQL refuses to run as root."""
    if os.geteuid() != 0:
        return None
    names = {user.pw_name for user in pwd.getpwall()}
    return "postgres" if "postgres" in names else "nobody"


def _free_port() -> int:
    with socket.socket() as probe:
        probe.bind(("127.0.0.1", 0))
        port: int = probe.getsockname()[1]
        return port


class Postgres:
    """A database server. When the `with` block ends, the server is stopped and its folder is removed."""

    def __init__(self) -> None:
        found = programs()
        if found is None:
            raise SystemExit("PostgreSQL isn't installed")
        self._programs, self._user, self._port = found, _user(), _free_port()
        self._folder = Path(tempfile.mkdtemp(prefix="bestored-postgres-"))
        self._process: Optional[subprocess.Popen[bytes]] = None
        if self._user is not None:
            shutil.chown(self._folder, self._user)
        self._run("initdb", "--no-sync", "--username=bestore", "--auth=trust", "--encoding=UTF8", "--locale=C", "-D", self._data)
        self.begin()

    @property
    def _data(self) -> str:
        return str(self._folder / "data")

    def _command(self, program: str, *words: str) -> List[str]:
        command = [str(self._programs / program), *words]
        return command if self._user is None else ["setpriv", f"--reuid={self._user}", f"--regid={self._user}", "--clear-groups", *command]

    def _run(self, program: str, *words: str) -> str:
        ran = subprocess.run(self._command(program, *words), cwd="/", check=True, stdout=subprocess.PIPE, text=True)
        return ran.stdout.strip()

    def begin(self) -> None:
        """Starts the server, and waits until it accepts connections."""
        options = [word for option in OPTIONS for word in ("-c", option)]
        command = self._command("postgres", "-D", self._data, "-k", str(self._folder), "-p", str(self._port), *options)
        self._process = subprocess.Popen(command, cwd="/", stdin=subprocess.DEVNULL, stdout=subprocess.DEVNULL, stderr=subprocess.DEVNULL)
        ready = self._command("pg_isready", "-q", "-h", str(self._folder), "-p", str(self._port))
        until = time.monotonic() + PATIENCE
        while subprocess.run(ready, cwd="/").returncode:
            if time.monotonic() > until:
                raise SystemExit("PostgreSQL doesn't start")
            time.sleep(0.02)

    def end(self, how: signal.Signals) -> None:
        """Shuts the server down. SIGINT rolls its sessions back, and SIGQUIT acts like a crash."""
        if self._process is not None:
            self._process.send_signal(how)
            self._process.wait(PATIENCE)
            self._process = None

    def signal_all(self, how: signal.Signals) -> None:
        """Sends a signal to the server and each of its processes."""
        if self._process is not None:
            for number in [self._process.pid, *_children(self._process.pid)]:
                _send(number, how)

    def sql(self, statements: str) -> str:
        """Runs statements, and returns the result of the last one."""
        return self._run("psql", "-X", "-q", "-A", "-t", "-v", "ON_ERROR_STOP=1", "-U", "bestore", "-d", "postgres",
                         "-h", str(self._folder), "-p", str(self._port), "-c", statements)

    @property
    def url(self) -> str:
        return f"postgresql:///postgres?user=bestore&host={self._folder}&port={self._port}"

    def __enter__(self) -> Postgres:
        return self

    def __exit__(self, *error: object) -> None:
        self.signal_all(signal.SIGCONT)
        self.end(signal.SIGQUIT)
        shutil.rmtree(self._folder)


def _children(parent: int) -> Iterator[int]:
    """Yields the child processes of a process."""
    for path in Path("/proc").glob("[0-9]*/stat"):
        try:
            fields = path.read_text().rpartition(")")[2].split()
        except OSError:
            continue
        if int(fields[1]) == parent:
            yield int(path.parent.name)


def _send(number: int, how: signal.Signals) -> None:
    try:
        os.kill(number, how)
    except ProcessLookupError:
        pass
