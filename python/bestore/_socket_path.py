"""Finds a server's socket. The server and all its clients follow the same rule, which is in docs/SERVER.md."""

from __future__ import annotations

import os
from dataclasses import dataclass
from typing import Any, Optional, Union


@dataclass(frozen=True)
class SocketPath:
    """The path of a server's socket. It can be used like any other path."""

    path: str
    is_named: bool
    """Whether the path was named explicitly. If not, the path is the one where servers listen by default, and anybody may have created the
    folder."""

    @classmethod
    def find(cls, named: Union[str, bytes, "os.PathLike[Any]", None] = None) -> SocketPath:
        """Returns the path named by a parameter or an option. If no path is named, returns the first of these: the path in
        BESTORE_SOCKET, unless that variable is empty; bestore/socket in the folder that XDG_RUNTIME_DIR names, unless that
        variable is empty or relative; /tmp/bestore-UID/socket, where UID is the effective user's number."""
        if isinstance(named, SocketPath):
            return named
        if named is not None:
            return cls(os.fsdecode(named), True)
        variable = os.environ.get("BESTORE_SOCKET")
        if variable:
            return cls(variable, True)
        runtime = os.environ.get("XDG_RUNTIME_DIR", "")
        folder = os.path.join(runtime, "bestore") if os.path.isabs(runtime) else f"/tmp/bestore-{os.geteuid()}"
        return cls(os.path.join(folder, "socket"), False)

    def __fspath__(self) -> str:
        return self.path

    def __str__(self) -> str:
        return self.path
