"""Detects damage to a store's file. This module checks the rows' checksums, and the last entry's number, which is kept next to
the file.

docs/KEPT.md describes both.
"""

from __future__ import annotations

import os
import struct
from contextlib import suppress
from typing import Optional
from zlib import crc32

_ONE, _TWO, _THREE = struct.Struct("<Q"), struct.Struct("<QQ"), struct.Struct("<QQQ")


def of_about(what: str, number: int) -> int:
    """Returns the checksum of a row in the table `about`."""
    name = what.encode()
    return crc32(_ONE.pack(number), crc32(name, crc32(_ONE.pack(len(name)))))


def of_state(place: int, batch: bytes) -> int:
    """Returns the checksum of a row in the table `state`."""
    return crc32(batch, crc32(_TWO.pack(place, len(batch))))


def of_entry(number: int, by: int, batch: bytes) -> int:
    """Returns the checksum of a row in the table `entry`."""
    return crc32(batch, crc32(_THREE.pack(number, by, len(batch))))


def of_token(number: int, token: bytes, nodes: bytes) -> int:
    """Returns the checksum of a row in the table `token`."""
    return crc32(nodes, crc32(_ONE.pack(len(nodes)), crc32(token, crc32(_TWO.pack(number, len(token))))))


def _line(identity: int, number: int) -> bytes:
    return b"%016x %020d %08x\n" % (identity, number, crc32(_TWO.pack(identity, number)))


class LastEntry:
    """The number of a file's last entry, kept in a file with the same name plus `-last`. SQLite ignores everything after a
    damaged frame in its WAL, and doesn't report the loss."""

    def __init__(self, path: str, identity: int) -> None:
        within = os.path.realpath(path)
        self._path, self._wal, self._identity = within + "-last", within + "-wal", identity
        self._file: Optional[int] = None

    def read(self) -> int:
        """Returns the number, or 0 if the number isn't known."""
        with suppress(OSError, ValueError, IndexError):
            with open(self._path, "rb") as file:
                line = file.read()
            number = int(line.split()[1])
            return number if line == _line(self._identity, number) else 0
        return 0

    def begin(self, number: int) -> None:
        """From now on, keeps the number, if a file can be created in the folder."""
        with suppress(OSError):
            self._file = os.open(self._path, os.O_WRONLY | os.O_CREAT | os.O_CLOEXEC, 0o600)
            self.set(number)

    def set(self, number: int) -> None:
        """Records that the file now contains this entry."""
        if self._file is not None:
            with suppress(OSError):  # the check is then weaker
                os.pwrite(self._file, _line(self._identity, number), 0)

    def close(self, is_in_place: bool) -> None:
        """Call this after the store's file has been closed. The number is then no longer needed, unless a WAL remains, or the file
        isn't at its path any more."""
        file, self._file = self._file, None
        if file is not None:
            os.close(file)
            if is_in_place and not os.path.exists(self._wal):
                with suppress(OSError):
                    os.remove(self._path)
