"""Opens a file with the desktop's default program for its type."""

from __future__ import annotations

import os
import shutil
import subprocess
import tempfile
from typing import Optional

_MEANINGS = {2: "there is no such file", 3: "a program that it needs is missing", 4: "no program opens a file of this type"}


class CannotOpen(Exception):
    """A file can't be opened, for the reason given in the message."""


class Opening:
    """A file that xdg-open is opening. Raises `CannotOpen` if xdg-open can't be started."""

    def __init__(self, path: Optional[str], name: str) -> None:
        if path is None:
            raise CannotOpen(f"{name} can't be opened: its attributes don't say where it is")
        if not os.path.lexists(path):
            raise CannotOpen(f"{shown(path)} can't be opened: it isn't there any more")
        program = shutil.which("xdg-open")
        if program is None:
            raise CannotOpen(f"{shown(path)} can't be opened: xdg-open isn't installed (Debian has it in xdg-utils)")
        self._path = path
        try:
            self._said = tempfile.TemporaryFile()
            self._process = subprocess.Popen(
                [program, path], stdin=subprocess.DEVNULL, stdout=subprocess.DEVNULL, stderr=self._said, start_new_session=True)
        except OSError as error:
            raise CannotOpen(f"{shown(path)} can't be opened: {error.strerror}") from error

    def has_ended(self) -> bool:
        """Returns whether xdg-open has ended. Raises `CannotOpen` if it failed."""
        code = self._process.poll()
        if code is None:
            return False
        with self._said:
            self._said.seek(0)
            said = self._said.read().decode(errors="replace").strip().splitlines()
        if code != 0:
            reason = _MEANINGS.get(code) or (said[-1] if said else f"xdg-open ended with {code}")
            raise CannotOpen(f"{shown(self._path)} can't be opened: {reason}")
        return True


def shown(path: str) -> str:
    """Returns a path on one line."""
    return "".join(it if it.isprintable() else "\ufffd" for it in path)
