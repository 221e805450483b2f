"""A store's file: an SQLite database with the last state and the entries made since that state. docs/KEPT.md describes the
format."""

from __future__ import annotations

import ctypes
import errno
import os
import sqlite3
import time
import weakref
from contextlib import contextmanager, suppress
from itertools import chain
from random import SystemRandom
from typing import Any, Callable, ClassVar, Dict, Iterable, Iterator, List, NamedTuple, Optional, Sequence, Tuple

from ._saved_checks import LastEntry, of_about, of_entry, of_state, of_token
from ._saved_errors import CutOff, Damaged, Differs, Foreign, Held, Moved, Newer, of_reading, of_sqlite

APPLICATION = 0x62657374
""""best" in ASCII: the number in SQLite's header that identifies the file."""
FORMAT = 3
"""The version of the format, in which the state is a listing. In the earlier ones, the state consists of operations."""
_WITHOUT_CHECKSUMS = 1  # the first version, whose rows have no checksums

_TRIES = 6  # how many more times a file is tried that is held, or was moved while it was opened
_PAUSE = 0.04  # the longest pause before each of these tries, in seconds
_LEAST_DUE = 256 * 1024  # the fewest bytes of entries that are worth rewriting the state
_ROW_BYTES = 20  # the approximate size of a row without its batch
_LAST_NUMBER = 2**63 - 1  # the highest entry number: SQLite's integers end there

# After 1,000 pages (4.1 MB), the WAL is overwritten from its start, so the limit truncates only what a large commit added. The
# last two statements take the lock.
_SETTINGS = (
    "PRAGMA journal_mode = WAL", "PRAGMA synchronous = FULL", "PRAGMA journal_size_limit = 8388608", "BEGIN IMMEDIATE", "COMMIT")
_TABLES = (
    f"PRAGMA application_id = {APPLICATION}", f"PRAGMA user_version = {FORMAT}",
    "CREATE TABLE about (what TEXT PRIMARY KEY, number INTEGER NOT NULL, checksum INTEGER) WITHOUT ROWID",
    "CREATE TABLE state (place INTEGER PRIMARY KEY, batch BLOB NOT NULL, checksum INTEGER)",
    "CREATE TABLE entry (number INTEGER PRIMARY KEY, pass INTEGER NOT NULL, batch BLOB NOT NULL, checksum INTEGER)",
)

# The statements, one for each number of entries to add. All of them fit in the connection's cache.
_INSERTS = ["INSERT OR IGNORE INTO entry VALUES " + ", ".join(["(?, ?, ?, ?)"] * count) for count in range(65)]
_INSERT_WITHOUT = "INSERT OR IGNORE INTO entry VALUES (?, ?, ?)"
_WRONG_SUM = "its checksum doesn't match"

Row = Tuple[int, int, bytes]
"""An entry: its number in the file, the pass that wrote it, and its batch."""


class About(NamedTuple):
    """What the file says about its state."""

    entries: int
    """The number of the last entry that the state includes."""
    next_node: int
    """The number of the next new node."""


def _make_private(path: str) -> None:
    """Creates the file if it doesn't exist, with a mode that lets only the user read it. SQLite gives the `-wal` file the same
    mode. If the system refuses, raises SQLite's error with the system's reason, which SQLite wouldn't give."""
    try:
        with suppress(FileExistsError, ValueError):
            os.close(os.open(os.path.realpath(path), os.O_WRONLY | os.O_CREAT | os.O_EXCL, 0o600))
        if os.path.exists(path) and not os.access(path, os.R_OK | os.W_OK, effective_ids=True):
            raise PermissionError(errno.EACCES, os.strerror(errno.EACCES))
    except OSError as error:
        raise sqlite3.OperationalError(f"unable to open database file: {error.strerror}") from error


def _at(path: str) -> Optional[Tuple[int, int]]:
    """Returns the device and the inode of the file at a path, or None if there is no file. SQLite keeps its file open, so no other
    file can have the same two in the meantime."""
    try:
        found = os.stat(path)
    except OSError:
        return None
    return found.st_dev, found.st_ino


class File:
    """The file, which only this process may use until `close`. Only one thread uses it at a time."""

    _open: ClassVar[weakref.WeakSet[File]] = weakref.WeakSet()

    def __init__(self, path: str) -> None:
        self.path = path
        self._connection: Optional[sqlite3.Connection] = None
        self._reading: List[sqlite3.Cursor] = []
        self._last: Optional[LastEntry] = None
        self.format = FORMAT
        """The version of the file's format, at most `FORMAT`."""
        self._entry_bytes, self._due_bytes = 0, _LEAST_DUE
        for _ in range(_TRIES):
            # Programs that open the file at the same moment can keep each other from locking it. After pauses of different
            # lengths, one of them is the first.
            with suppress(Held, Moved):
                self._open_once()
                return
            time.sleep(SystemRandom().uniform(0, _PAUSE))
        self._open_once()

    def _open_once(self) -> None:
        """Opens the file, unless it is held now."""
        with self._translated():
            # SQLite doesn't treat ":memory:" or an empty name as a file unless a folder precedes the name.
            within = os.path.join(os.curdir, self.path)
            _make_private(within)
            self._place = within if os.path.isabs(within) else os.path.join(os.getcwd(), within)
            self._opened = _at(self._place)
            self._connection = sqlite3.connect(within, timeout=0, isolation_level=None, check_same_thread=False)
        File._open.add(self)
        try:
            self._take()
            self.check_place()
        except BaseException:
            self.close()
            raise

    def check_place(self) -> None:
        """Raises `Moved` if the open file is no longer at its path. The next opening wouldn't find what is written now."""
        found = _at(self._place)
        if found is None or found != self._opened:
            raise Moved(self.path, found is not None)

    @contextmanager
    def _translated(self) -> Iterator[None]:
        """Converts SQLite's errors to this file's errors."""
        try:
            yield
        except sqlite3.Error as error:
            raise of_sqlite(self.path, error) from error

    def _run(self, sql: str, *values: Any) -> sqlite3.Cursor:
        assert self._connection is not None
        return self._connection.execute(sql, values)

    def _number(self, sql: str) -> Any:
        row = self._run(sql).fetchone()
        return None if row is None else row[0]

    def _take(self) -> None:
        """Locks the file, checks which program it belongs to, and creates the tables if the file is empty. At that point the
        file has no WAL that could lose the tables."""
        with self._translated():
            assert self._connection is not None
            self._connection.text_factory = lambda text: None  # no column that is read contains text
            self._run("PRAGMA locking_mode = EXCLUSIVE")
            is_new = self._check_format()
            if is_new:
                self._run("PRAGMA auto_vacuum = FULL")
                self._run("PRAGMA synchronous = FULL")
        if is_new:
            with self._transaction():
                for statement in _TABLES:
                    self._run(statement)
                self._set_identity()
                self._set_about(entries=0, next=1)
        with self._translated():
            for statement in _SETTINGS:
                self._run(statement)

    def _set_identity(self) -> None:
        """Gives the file an identity that no other file has."""
        self._set_about(file=int.from_bytes(os.urandom(8), "little") >> 1)

    def _set_about(self, **numbers: int) -> None:
        for what, number in numbers.items():
            self._run("INSERT OR REPLACE INTO about (what, number, checksum) VALUES (?, ?, ?)", what, number, of_about(what, number))

    def _check_format(self) -> bool:
        """Returns whether the file is new. Refuses a file that belongs to another program or has a newer format."""
        has_tables = self._number("SELECT count(*) FROM sqlite_master") > 0
        application, version = self._number("PRAGMA application_id"), self._number("PRAGMA user_version")
        if application == APPLICATION and version > FORMAT:
            raise Newer(self.path, version, FORMAT)
        if application == APPLICATION and version >= _WITHOUT_CHECKSUMS:
            self.format = version
            return False
        if (application, version) == (0, 0) and not has_tables:
            return True
        raise Foreign(self.path)

    @contextmanager
    def _transaction(self) -> Iterator[None]:
        """Runs a transaction, which is committed at the end of the `with` block or rolled back after an exception. A
        transaction that an earlier exception left open is rolled back first."""
        try:
            self._roll_back()
            self._run("BEGIN")
            yield
            self._run("COMMIT")
        except sqlite3.Error as error:
            self._roll_back()
            raise of_sqlite(self.path, error) from error
        except BaseException:
            self._roll_back()
            raise

    def _roll_back(self) -> None:
        if self._connection is not None and self._connection.in_transaction:
            with self._translated():
                self._run("ROLLBACK")

    @property
    def has_checksums(self) -> bool:
        """Whether the file's rows have checksums."""
        return self.format > _WITHOUT_CHECKSUMS

    def about(self) -> About:
        """What the file says about its state."""
        return About(self._about("entries"), self._about("next"))

    def _about(self, what: str) -> int:
        try:
            row = self._run(f"SELECT number, {self._checksum} FROM about WHERE what = ?", what).fetchone()
        except sqlite3.Error as error:
            raise of_reading(self.path, error) from error
        if row is None or not isinstance(row[0], int) or row[0] < 0:
            reason = "the file doesn't say what its state contains"
            raise Damaged(self.path, reason) if self.has_checksums else Differs(self.path, reason)
        if self.has_checksums and row[1] != of_about(what, row[0]):
            raise Damaged(self.path, f"{_WRONG_SUM} at {what!r}")
        return row[0]

    @property
    def _checksum(self) -> str:
        """Returns the checksum column for a statement that reads rows."""
        return "checksum" if self.has_checksums else "NULL"

    def check(self, last: int) -> None:
        """Refuses a file that ends with this entry but had later entries before. Also refuses a file with pages that SQLite reports as
        damaged."""
        if self.has_checksums:
            had = LastEntry(self.path, self._about("file")).read()
            if had > last:
                raise CutOff(self.path, last, had)
        assert self._connection is not None
        factory, self._connection.text_factory = self._connection.text_factory, str
        try:
            found = self._number("PRAGMA quick_check(1)")
        except sqlite3.Error as error:
            raise of_reading(self.path, error, until=last) from error
        finally:
            self._connection.text_factory = factory
        if found != "ok":
            raise Damaged(self.path, str(found).replace("\n", " "), until=last)

    def keep_last(self, last: int) -> None:
        """From now on, also keeps the last entry's number next to the file. `last` is the number's current value."""
        if self.has_checksums:
            self._last = LastEntry(self.path, self._about("file"))
            self._last.begin(last)

    @property
    def is_due(self) -> bool:
        """Whether the entries take more than half as many bytes as the state, and enough to be worth rewriting it."""
        return self._entry_bytes > self._due_bytes

    def measure(self) -> None:
        """Measures the state and the entries."""
        sums = (f"SELECT coalesce(sum(length(batch) + {_ROW_BYTES}), 0) FROM {table}" for table in ("state", "entry"))
        with self._translated():
            state, self._entry_bytes = map(self._number, sums)
        self._due_bytes = max(state // 2, _LEAST_DUE)

    def commits_within(self, commits: int) -> int:
        """Returns how many of `commits` transactions a store opened from this file may accept without running out of entry
        numbers."""
        return min(commits, _LAST_NUMBER - self.about().entries)

    def state(self) -> Iterator[Tuple[int, bytes]]:
        """Yields each batch of the state in order, with its index."""
        due, sql = 0, f"SELECT place, NULL, batch, {self._checksum} FROM state ORDER BY place"
        for place, batch in self._checked(sql, lambda place, _, batch: of_state(place, batch), lambda: {"batch": due}):
            if place != due:
                raise Differs(self.path, "the batch is missing", batch=due)
            yield place, batch
            due += 1

    def entries(self, after: int) -> Iterator[Tuple[int, bytes]]:
        """Yields the number and the batch of each entry after this one, in ascending order."""
        sql = f"SELECT number, pass, batch, {self._checksum} FROM entry ORDER BY number"
        for number, batch in self._checked(sql, _sum_of, lambda: {"entry": after + 1, "until": after}):
            yield number, batch
            after = number

    def _checked(self, sql: str, sum_of: Callable[[int, Any, bytes], Optional[int]],
                 place: Callable[[], Dict[str, int]]) -> Iterator[Tuple[int, bytes]]:
        """Yields the number and the batch of each row, after checking the row's checksum. `place` returns the position of the
        next row, for errors."""
        rows = self._rows(sql)
        while True:
            try:
                row = next(rows, None)
            except sqlite3.Error as error:
                raise of_reading(self.path, error, **place()) from error
            if row is None:
                return
            number, by, batch, found = row
            if self.has_checksums and (not isinstance(batch, bytes) or found != sum_of(number, by, batch)):
                raise Damaged(self.path, _WRONG_SUM, **place())
            yield number, batch if isinstance(batch, bytes) else b""

    def _rows(self, sql: str) -> Iterator[Tuple[Any, ...]]:
        rows = self._run(sql)
        self._reading.append(rows)
        for row in rows:  # `yield from` would close the rows, even after the connection was closed
            yield row

    def append(self, rows: Sequence[Row]) -> None:
        """Adds all entries in one commit. If the file already has an entry with the same number, the two entries are identical,
        and the old entry is kept."""
        self.check_place()
        if self.has_checksums and len(rows) < len(_INSERTS):
            self._append_by_one_statement(rows)
        else:
            with self._transaction():
                assert self._connection is not None
                if self.has_checksums:
                    self._connection.executemany(_INSERTS[1], map(_checked, rows))
                else:
                    self._connection.executemany(_INSERT_WITHOUT, rows)
        self._entry_bytes += sum(len(batch) + _ROW_BYTES for _, _, batch in rows)
        if self._last is not None and rows:
            self._last.set(rows[-1][0])

    def _append_by_one_statement(self, rows: Sequence[Row]) -> None:
        """Adds a few entries. The statement is a transaction of its own, so Python lets other threads run only once."""
        assert self._connection is not None
        if self._connection.in_transaction:  # left open by an exception
            self._roll_back()
        values = _checked(rows[0]) if len(rows) == 1 else list(chain.from_iterable(map(_checked, rows)))
        try:
            self._connection.execute(_INSERTS[len(rows)], values)
        except sqlite3.Error as error:
            self._roll_back()
            raise of_sqlite(self.path, error) from error

    def write_state(self, number: int, next_node: int, batches: Iterable[bytes]) -> None:
        """Replaces the old state and the entries up to `number` with this state, which includes them and is a listing. After an
        error the file is unchanged."""
        self._due_bytes = max(self._due_bytes, self._entry_bytes) + _LEAST_DUE  # so that another attempt isn't due at once
        with self._transaction():
            assert self._connection is not None
            self._run("DELETE FROM state")
            self._run("DELETE FROM entry WHERE number <= ?", number)
            if not self.has_checksums:
                self._add_checksums()
            if self.format != FORMAT:
                self._run(f"PRAGMA user_version = {FORMAT}")
            rows = ((place, batch, of_state(place, batch)) for place, batch in enumerate(batches))
            self._connection.executemany("INSERT INTO state VALUES (?, ?, ?)", rows)
            self._set_about(entries=number, next=next_node)
        self.format = FORMAT
        self.measure()

    def _add_checksums(self) -> None:
        """Adds checksums to the rows of a file in an earlier format, except to the rows in `about`."""
        assert self._connection is not None
        has_tokens = self._number("SELECT count(*) FROM sqlite_master WHERE name = 'token'") > 0
        for table in ("about", "state", "entry") + (("token",) if has_tokens else ()):
            self._run(f"ALTER TABLE {table} ADD COLUMN checksum INTEGER")
        self._set_identity()
        rows = self._run("SELECT number, pass, batch FROM entry").fetchall()
        self._connection.executemany(
            "UPDATE entry SET checksum = ? WHERE number = ?", [(of_entry(*row), row[0]) for row in rows])
        if has_tokens:
            rows = self._run("SELECT number, CAST(token AS BLOB), nodes FROM token").fetchall()
            self._connection.executemany(
                "UPDATE token SET checksum = ? WHERE number = ?", [(of_token(*row), row[0]) for row in rows])

    def close(self) -> None:
        """Closes and unlocks the file."""
        is_in_place = _at(self._place) == self._opened
        connection, self._connection = self._connection, None
        if connection is not None:
            with self._translated():
                for rows in self._reading:  # SQLite holds the lock while any of them is open
                    rows.close()
                connection.close()
        if self._last is not None:
            self._last.close(is_in_place)

    def _leave_to_parent(self) -> None:
        """In a forked child, keeps SQLite from closing the file, which would remove the parent's WAL."""
        if self._connection is not None:
            ctypes.pythonapi.Py_IncRef(ctypes.py_object(self._connection))
            self._connection = None


def _sum_of(number: Any, by: Any, batch: bytes) -> Optional[int]:
    """Returns the checksum that a row in the table `entry` should have, or None if the row's values have the wrong types."""
    is_row = isinstance(number, int) and isinstance(by, int) and number >= 0 and by >= 0
    return of_entry(number, by, batch) if is_row else None


def _checked(row: Row) -> Tuple[int, int, bytes, int]:
    return (*row, of_entry(*row))


def _leave_all_to_parent() -> None:
    for file in list(File._open):
        file._leave_to_parent()


os.register_at_fork(after_in_child=_leave_all_to_parent)
