"""Errors from stores that are kept in a file."""

from __future__ import annotations

from dataclasses import dataclass
from typing import TYPE_CHECKING, Optional, Tuple

from ._surface import ErrorClass
from .errors import CommitsSpent, Error, Full, NoMemory, _OfPath
from .values import Kind

if TYPE_CHECKING:
    import sqlite3

# SQLite's codes and messages. Before Python 3.11, only the messages are available.
_BUSY, _LOCKED, _NO_MEMORY, _READ_ONLY, _IO, _CORRUPT, _FULL, _CANT_OPEN, _NO_DATABASE = 5, 6, 7, 8, 10, 11, 13, 14, 26
_CODES = {
    "database is locked": _BUSY, "database table is locked": _LOCKED, "database or disk is full": _FULL,
    "file is not a database": _NO_DATABASE, "database disk image is malformed": _CORRUPT, "disk I/O error": _IO,
    "attempt to write a readonly database": _READ_ONLY, "unable to open database file": _CANT_OPEN, "out of memory": _NO_MEMORY,
}
_IO_WRITE, _IO_FSYNC = 778, 1034  # extended codes, which say which part of _IO failed
_OF_THE_SYSTEM = {_BUSY, _LOCKED, _NO_MEMORY, _READ_ONLY, _IO, _FULL, _CANT_OPEN, _NO_DATABASE}  # not caused by the file's contents


class SavedError(_OfPath):
    """The base class for errors from a store's file."""


class Foreign(SavedError):
    """The file belongs to another program. The file is left unchanged."""

    _summary = "the file belongs to another program; name another one"


@dataclass(eq=False, repr=False)
class Newer(SavedError):
    """The file has a newer format. The file is left unchanged."""

    _summary = "the file has format {version}, and format {known} is the latest known here; use a newer version of bestore"

    version: int
    """The version of the file's format."""
    known: int
    """The latest version that can be read."""


class Held(SavedError):
    """The file is open in another process, or in another store of this process."""

    error_class = ErrorClass.RETRY
    _summary = "the file is open in another process or store; close it there first"


@dataclass(eq=False, repr=False)
class Moved(SavedError):
    """The open file is no longer at its path, so the next opening wouldn't find what is written now."""

    error_class = ErrorClass.GONE

    is_replaced: bool
    """Whether another file is at the path now."""

    @property
    def summary(self) -> str:
        what = "another file has taken the open file's place" if self.is_replaced else "the open file was moved or removed"
        return f"{what}; put the file back with its -wal and -last and open it again, or copy the store, which can still be read"


class DiskFull(SavedError):
    """The disk is full."""

    error_class = ErrorClass.FULL
    _summary = "the disk is full"


class NoFile(SavedError):
    """A folder of volumes, which an earlier version wrote, lacks this volume's file, but has a later volume's."""

    _summary = "the file of this volume is missing, and a later volume has one; put it back"


@dataclass(eq=False, repr=False)
class Exists(SavedError):
    """A folder of volumes, which an earlier version wrote, can't become one file, because its new name is taken. Nothing has changed."""

    _summary = "the folder of volumes would become one file, and be kept as {other}, which exists; move that away"

    other: str
    """What the folder would be called."""


@dataclass(eq=False, repr=False)
class OtherKind(SavedError):
    """A folder of volumes, which an earlier version wrote, can't become one file, because an index has different kinds in two
    volumes. Nothing has changed."""

    name: str
    """The index's name."""
    first: Tuple[int, Kind]
    """A volume that has the index, and its kind there."""
    second: Tuple[int, Kind]
    """Another volume that has it with another kind."""

    @property
    def summary(self) -> str:
        (first, kind), (second, other) = self.first, self.second
        return (f'the index "{self.name}" has kind {kind.name} in volume {first}, and kind {other.name} in volume {second}; open one of '
                "these volumes by itself, and remove the index from it")


@dataclass(eq=False, repr=False)
class SqliteError(SavedError):
    """SQLite reported some other error, which is in `__cause__`."""

    error_class = ErrorClass.GONE
    _summary = "{reason}"

    reason: str
    """What SQLite said."""


@dataclass(eq=False, repr=False)
class _AtPlace(SavedError):
    """An error in one part of the file."""

    reason: str
    entry: Optional[int] = None
    """The number of the entry, counting from 1, or None."""
    batch: Optional[int] = None
    """The batch of the state, counting from 0, or None."""

    @property
    def place(self) -> str:
        """The part of the file that contains the error."""
        if self.entry is not None:
            return f"entry {self.entry}"
        return "the state" if self.batch is None else f"batch {self.batch} of the state"

    @property
    def summary(self) -> str:
        return f"{self.place}: {self.reason}"


class Differs(_AtPlace):
    """The file contains something that no store wrote. The error from the store or the batch is in `__cause__`."""

    error_class = ErrorClass.GONE


@dataclass(eq=False, repr=False)
class TooLarge(_AtPlace):
    """The file's contents exceed the store's limits. The store's error is in `__cause__`."""

    error_class = ErrorClass.FULL


@dataclass(eq=False, repr=False)
class Damaged(_AtPlace):
    """Part of the file has changed since it was written. If SQLite detected the damage, its error is in `__cause__`."""

    error_class = ErrorClass.GONE

    until: Optional[int] = None
    """The entry to pass to `be restore --until`, or None if `be restore` can't read the file."""

    @property
    def place(self) -> str:
        return "the file" if self.entry is None and self.batch is None else super().place

    @property
    def summary(self) -> str:
        advice = "restore a backup"
        if self.until is not None:
            advice = f"be restore --until {self.until} restores what comes before it"
        return f"{self.place} is damaged: {self.reason}; {advice}"


@dataclass(eq=False, repr=False)
class CutOff(SavedError):
    """Later entries are missing from the file: a frame in its WAL is damaged, or the WAL is missing."""

    error_class = ErrorClass.GONE
    _summary = (
        "the file ends with entry {last}, but it once had entry {had}: {path}-wal is damaged or missing; put it back, or restore what is "
        "left with be restore --until {last}. If the file is an older copy, remove {path}-last")

    last: int
    """The last entry in the file."""
    had: int
    """The last entry that the file had earlier."""


@dataclass(eq=False, repr=False)
class NotSaved(SavedError):
    """The write is in memory, and may or may not be in the file. The commit's error is in `__cause__`."""

    error_class = ErrorClass.GONE

    number: Optional[int]
    """The commit number of the write, or None if a server didn't give it."""
    reason: str
    """What went wrong."""

    @property
    def summary(self) -> str:
        what = "the write" if self.number is None else f"write {self.number}"
        return f"{what} is not saved: {self.reason}"


@dataclass(eq=False, repr=False)
class Stopped(SavedError):
    """Saving has stopped, and nothing was written. `__cause__` is the error from the commit that failed, or None if the file
    was closed."""

    error_class = ErrorClass.GONE

    reason: Optional[str] = None
    """What went wrong with that commit, or None if the file was closed."""

    @property
    def summary(self) -> str:
        return "the file is closed" if self.reason is None else f"saving has failed: {self.reason}"


def said(error: BaseException) -> str:
    """Returns what went wrong, without naming the file."""
    summary = getattr(error, "summary", None)
    return str(error) if summary is None else str(summary)


def _code(error: sqlite3.Error) -> Optional[int]:
    code = getattr(error, "sqlite_errorcode", None)
    return _CODES.get(str(error)) if code is None else code & 0xff


def of_sqlite(path: str, error: sqlite3.Error) -> SavedError:
    """Converts an SQLite error to one of this module's errors."""
    code = _code(error)
    if code in (_BUSY, _LOCKED):
        return Held(path)
    if code == _FULL:
        return DiskFull(path)
    if code == _CORRUPT:
        return Damaged(path, str(error))
    return Foreign(path) if code == _NO_DATABASE else SqliteError(path, str(error))


def is_of_writing(error: SavedError) -> bool:
    """Returns whether the system let nothing more be written: the disk is full or broken, the user's quota is used up, or the file
    has the greatest size that the process may give it. SQLite reports the last two like a broken disk. Before Python 3.11, only a
    full disk is recognised."""
    return isinstance(error, DiskFull) or getattr(error.__cause__, "sqlite_errorcode", None) in (_IO_WRITE, _IO_FSYNC)


def of_reading(path: str, error: sqlite3.Error, entry: Optional[int] = None, batch: Optional[int] = None,
               until: Optional[int] = None) -> SavedError:
    """Returns the error for a part of the file that SQLite can't read."""
    if _code(error) in _OF_THE_SYSTEM:
        return of_sqlite(path, error)
    return Damaged(path, str(error), entry, batch, until)


def refused(path: str, error: Error, entry: Optional[int] = None, batch: Optional[int] = None) -> SavedError:
    """Converts an error from the store that is replaying the file's contents to one of this module's errors."""
    if isinstance(error, Full):
        return TooLarge(path, "the file needs more pages than the store has; open it with more", entry, batch)
    if isinstance(error, (CommitsSpent, NoMemory)):
        return TooLarge(path, f"the file doesn't fit the limits of the store: {error}", entry, batch)
    return Differs(path, f"the file contains something that no store wrote: {error}", entry, batch)
