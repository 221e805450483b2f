"""A client for the server's protocol. It shares no code with the server or its packages, so it can't share their mistakes."""
from __future__ import annotations

import json
import socket
from typing import Any, Dict, List, Tuple

Command = Tuple[str, Dict[str, Any]]
Reply = Dict[str, Any]


class Gone(Exception):
    """The connection was closed, or the server doesn't accept connections."""


class Late(Exception):
    """No reply arrived in time, but it may still arrive."""


class Refused(Exception):
    """The server replied with an error. `name` is the error's name."""

    def __init__(self, error: Reply) -> None:
        super().__init__(f"{error['name']}: {error['message']}")
        self.name: str = error["name"]


class Connection:
    """A connection that waits up to `patience` seconds for a reply. `run` is the server's run."""

    def __init__(self, place: str, patience: float) -> None:
        self._socket = socket.socket(socket.AF_UNIX)
        self._socket.settimeout(patience)
        self._bytes = b""
        self._last = 0
        try:
            self._socket.connect(place)
            self.run: str = self.ask("hello", {})["run"]
        except OSError as error:
            self.close()
            raise Gone(f"{place}: {error}") from error
        except (Gone, Late, Refused):
            self.close()
            raise

    def ask(self, name: str, parameters: Dict[str, Any]) -> Reply:
        """Sends one command, and returns the reply's `ok`."""
        return self.ask_all([(name, parameters)])[0]

    def ask_all(self, commands: List[Command]) -> List[Reply]:
        """Sends the commands together, and returns the `ok` of each reply."""
        lines = []
        for name, parameters in commands:
            self._last += 1
            lines.append(json.dumps({"id": self._last, name: parameters}) + "\n")
        try:
            self._socket.sendall("".join(lines).encode())
        except socket.timeout as error:
            raise Late from error
        except OSError as error:
            raise Gone(str(error)) from error
        replies = [self.receive() for _ in commands]
        for reply in replies:
            if "error" in reply:
                raise Refused(reply["error"])
        return [reply["ok"] for reply in replies]

    def wait(self, seconds: float) -> None:
        """Sets how many seconds the connection waits for each later reply."""
        self._socket.settimeout(seconds)

    def receive(self) -> Reply:
        """Returns the next reply."""
        while b"\n" not in self._bytes:
            try:
                part = self._socket.recv(1 << 16)
            except (socket.timeout, BlockingIOError) as error:
                raise Late from error
            except OSError as error:
                raise Gone(str(error)) from error
            if not part:
                raise Gone("the server has closed the connection")
            self._bytes += part
        line, _, self._bytes = self._bytes.partition(b"\n")
        reply: Reply = json.loads(line)
        return reply

    def close(self) -> None:
        self._socket.close()
