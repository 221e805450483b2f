"""Stores that are saved in an SQLite file.

    from bestore import saved

    with saved.open("mail.bestore") as store:
        letter = store.new_node()
        store.set(letter, "MAIL:from", "ann")

The store is in memory, and each accepted write is saved in the file before its call returns. The write survives `kill -9`.
It also survives a power failure, provided that the disk stores data before confirming it. Opening the file builds the store's last
state, and repeats the writes since then. If an outcome differs, the file is refused. Only one store at a time can have a file open.
docs/KEPT.md describes the promises and the format, which is the same as the Rust crate's. If the open file was removed, moved or
replaced, the next write fails like a failed commit, because the next opening wouldn't find it.

Concurrent writers share a commit: one writer saves what all of them have written, in the journal's order. While a write's call
waits, a snapshot may already show the write, although the write isn't in the file yet. Call `flush` before you pass a
snapshot's data to anyone else. If a `KeyboardInterrupt` ends the wait, or anything else that a signal handler raises, the write
is in memory, and the next commit saves it. The handler itself can't write, flush, compact or close while the call that it
interrupted uses the file: its calls raise a RuntimeError, and a write is then only in memory too.

In a forked child, all handles are dead, as everywhere in the package. The child can't open the file itself, because SQLite
would mistake the parent's handle for the child's own.
"""

from __future__ import annotations

import atexit
import math
import operator
import os
import threading
from contextlib import ExitStack, suppress
from types import TracebackType
from typing import Any, Dict, Iterator, List, Optional, Tuple, Type, Union

from . import local as _local
from ._library import check
from ._saved_errors import (
    CutOff, Damaged, Differs, DiskFull, Exists, Foreign, Held, Moved, Newer, NoFile, NotSaved, OtherKind, SavedError, SqliteError,
    Stopped, TooLarge, is_of_writing, refused, said)
from ._saved_file import FORMAT, File, Row
from ._saved_line import Line, Turn
from ._saved_volumes import join_volumes, state_of, whole_of
from ._waits import Waits
from .change import Change
from .errors import BadLimits, CommitsSpent, Error, Full
from .operations import NEW, Batch
from .store import PASSES

__all__ = [
    "CutOff", "Damaged", "Differs", "DiskFull", "Exists", "Foreign", "Held", "Moved", "Newer", "NoFile", "NotSaved", "OtherKind", "Saved",
    "SavedError", "SavedPass", "SqliteError", "Stopped", "TooLarge", "open",
]

_MOST_ROWS = 1024  # the maximum number of entries in a commit
_TRIES = 2**63 - 1  # as long as other passes are writing, because an unread entry would end all saving


class _Reader:
    """Reads journal entries as bytes, through a pass that nobody else uses."""

    def __init__(self, user: _local.LocalPass) -> None:
        self._user = user

    def read(self, number: int) -> Tuple[int, bytes]:
        """Returns the pass and the batch from the entry with this commit number."""
        answer, carried, by, batch = self._user._repeated(Waits(_TRIES, math.inf), self._user._journal_entry, number - 1)
        check(answer, carried)
        assert batch is not None
        return by, batch.to_bytes()


class _Saver:
    """Saves the journal's entries. A writer queues its entry and waits for its turn. In its turn, the writer saves all queued
    entries. The writers of those entries then continue."""

    def __init__(self, file: File, own: _local.LocalPass, last: int, every: Optional[float]) -> None:
        self.own = own
        """A pass that nobody else uses. It reads entries that weren't queued, and creates the other passes."""
        self.path, self._reader = file.path, _Reader(own)
        self._file: Optional[File] = file
        self._failed: Optional[Exception] = None
        self._is_closing = False
        with own.pin() as version:
            self._line = Line(version.number)
        self._shift = last - self._line.saved
        self._handed_in: Dict[int, Row] = {}  # by commit number; a missing entry can be read from the journal
        self._work, self._ending = threading.Lock(), threading.Event()
        self._work.acquire()  # it is held as long as there is nothing to save
        self.is_timed = every is not None
        if every is not None:
            threading.Thread(target=self._save_now_and_then, args=(every,), name="bestore-saving", daemon=True).start()
            atexit.register(self.close)

    @property
    def is_due(self) -> bool:
        """Whether it is time to rewrite the file's state."""
        file = self._file
        return file is not None and file.is_due

    def number_in_file(self, commit: int) -> int:
        """Returns the number that the entry with this commit number has in the file."""
        return commit + self._shift

    def check(self) -> None:
        """Raises `Stopped` if saving has stopped."""
        if self._failed is not None or self._file is None:
            raise Stopped(self.path, None if self._failed is None else said(self._failed)) from self._failed

    def keep(self, number: int, by: int, batch: Batch, made: Optional[List[int]] = None) -> None:
        """Saves the write with this commit number, or notifies the saving thread that there is a write to save. If `made` is
        None, the batch already contains the numbers of the nodes that its operations created."""
        if self.is_timed and not self._is_closing:
            self._hand_in_for_later(number, by, batch, made)
            return
        line, turn = self._line, Turn(number)
        self._handed_in[number] = number + self._shift, by, batch._packed(made)
        try:
            if line.take(turn):
                self._save_up_to(number)
        except Stopped as error:
            raise NotSaved(self.path, number, error.reason or error.summary) from error.__cause__ or error
        finally:
            line.leave(turn)
            if number in self._handed_in and line.saved >= number:
                self._handed_in.pop(number, None)

    def _hand_in_for_later(self, number: int, by: int, batch: Batch, made: Optional[List[int]]) -> None:
        """Queues an entry for the saving thread. If there are too many entries, that thread reads the journal instead."""
        if len(self._handed_in) < _MOST_ROWS:
            self._handed_in[number] = number + self._shift, by, batch._packed(made)
            if self._line.saved >= number:
                self._handed_in.pop(number, None)
        self._wake_saving()

    def _wake_saving(self) -> None:
        """Wakes the saving thread. This only releases a lock, so a signal handler may write at any moment of another write."""
        if self._work.locked():
            with suppress(RuntimeError):  # another thread has released it
                self._work.release()

    def _save_up_to(self, number: int) -> None:
        """During a turn, saves the entries up to this commit number, and any later entries that have been queued."""
        line, handed_in = self._line, self._handed_in
        while line.saved < number:
            self.check()
            assert self._file is not None
            first = line.saved + 1
            try:
                rows = self._next_rows(first, number)
                self._file.append(rows)
            except (Error, MemoryError) as error:  # and not what a signal handler raises
                self._failed = error
                self.check()
            line.saved += len(rows)
            for saved in range(first, first + len(rows)):
                handed_in.pop(saved, None)

    def _next_rows(self, number: int, least: int) -> List[Row]:
        """Returns up to `_MOST_ROWS` entries to save next, starting with this commit number. Entries up to the commit number
        `least` that haven't been queued are read from the journal. Later entries are included if they have been queued."""
        rows: List[Row] = []
        while len(rows) < _MOST_ROWS:
            row = self._handed_in.get(number)
            if row is None:
                if number > least:
                    break
                row = (number + self._shift, *self._reader.read(number))
            rows.append(row)
            number += 1
        return rows

    def flush(self) -> None:
        """Saves everything that was written before the call."""
        with self._line.turn():
            self._save_all()
            self._check_place()

    def _save_all(self) -> None:
        self.check()
        with self.own.pin() as version:
            number = version.number
        self._save_up_to(number)

    def _check_place(self) -> None:
        """Stops all saving, and raises `Stopped`, if the file is no longer at its path."""
        assert self._file is not None
        try:
            self._file.check_place()
        except Moved as error:
            self._failed = error
            self.check()

    def compact(self) -> None:
        """Writes the current snapshot into the file, replacing the state and the entries that the snapshot includes."""
        with self._line.turn():
            self.check()
            with self.own.pin() as version:
                self._save_up_to(version.number)
                self._check_place()
                assert self._file is not None
                number = self.number_in_file(version.number)
                self._file.write_state(number, version.next_node, version.listing())

    def _save_now_and_then(self, every: float) -> None:
        """In a loop, saves what was written, `every` seconds after the first unsaved write. Closes the file at the end."""
        while not self._ending.is_set():
            self._work.acquire()
            self._ending.wait(min(every, threading.TIMEOUT_MAX))
            self._work.acquire(blocking=False)
            try:
                self.flush()
            except Exception as error:  # later writes and `flush` raise this error
                if self._failed is None and not isinstance(error, Stopped):
                    self._failed = error
                self._ending.wait()
        with suppress(Error):
            self.close()

    def end(self) -> None:
        """Closes the file, or makes the saving thread close it. The caller may be that thread."""
        if self.own._is_dead:
            return
        if self.is_timed:
            self._ending.set()
            self._wake_saving()
        else:
            self.close()

    def close(self) -> None:
        """Saves what was written and closes the file. A forked child leaves the file to its parent."""
        if self.own._is_dead:
            return
        with self._line.turn():
            file = self._file
            if file is None:
                return
            self._is_closing = True  # so that a write that comes now, and isn't saved below, raises an error
            try:
                self._save_all()
            finally:
                self._file = None
                self._close(file)

    def _close(self, file: File) -> None:
        """Closes the file, and ends the saving thread."""
        try:
            file.close()
        finally:
            self.own.close()
            self._ending.set()
            self._wake_saving()
            atexit.unregister(self.close)


class SavedPass(_local.LocalPass):
    """A pass whose writes are saved. Each call that writes may also raise `Stopped` if saving has stopped, or `NotSaved` if the
    write couldn't be saved."""

    def __init__(self, saver: _Saver, first: Optional[Saved] = None) -> None:
        super().__init__()
        self._saver, self._first = saver, first  # this reference keeps the file from being closed
        self._own_number: Optional[int] = None

    def _write(self, batch: Batch, waits: Waits, expected: Optional[int]) -> Tuple[int, List[int]]:
        self._check_process()
        saver = self._saver
        saver.check()
        if self._own_number is None:
            self._own_number = self.number
        written = super()._write(batch, waits, expected)
        self._keep(written[0], self._own_number, batch, written[1])
        return written

    def _commit(self, change: Change) -> int:
        self._check_process()
        saver = self._saver
        saver.check()
        if self._own_number is None:
            self._own_number = self.number
        batch = change._collected()
        number = super()._commit(change)
        self._keep(number, self._own_number, batch)
        return number

    def _keep(self, number: int, by: int, batch: Batch, made: Optional[List[int]] = None) -> None:
        """Saves a write that has been made. If that fails, snapshots still show the write, so the threads that wait for writes
        are woken all the same."""
        self._committed = number
        try:
            self._saver.keep(number, by, batch, made)
        except BaseException:
            self._wake()
            raise

    def another(self) -> SavedPass:
        """Returns a pass of the same store for another thread. Any pass can do this, in any thread. Raises `NoPass` if no pass is left."""
        other = SavedPass(self._saver, self._first)
        other._open_by(self._saver.own)
        return other

    def flush(self) -> None:
        """Returns once everything written before the call is in the file. Raises `Stopped` if that fails."""
        self._check_process()
        self._saver.flush()

    def compact(self) -> None:
        """Writes the current snapshot into the file, replacing the state and the entries that the snapshot includes. In the
        meantime, writes wait for the file. If this raises `DiskFull` or `SqliteError`, the file is unchanged. Raises `Stopped`
        like `flush`. Takes time to read and write all attributes."""
        self._check_process()
        self._saver.compact()

    @property
    def is_due(self) -> bool:
        """Whether it is time to call `compact`, to make the file smaller and faster to open: the entries since the state take more
        than half as many bytes as the state, and at least 256 KiB. After a call that failed, another 256 KiB must be written."""
        return self._saver.is_due

    def number_in_file(self, commit: int) -> int:
        """Returns the number that the entry with this commit number has in the file. Numbers in the file continue from
        one opening to the next."""
        return self._saver.number_in_file(commit)


class Saved(SavedPass):
    """The first pass of a saved store. The file is closed together with this pass, or when all of the store's passes are gone."""

    def __init__(self, saver: _Saver) -> None:
        super().__init__(saver)
        self._open_by(saver.own)

    def another(self) -> SavedPass:
        other = super().another()
        other._first = self
        return other

    def close(self) -> None:
        """Saves what was written, and closes the file and this pass. Other passes can still read. Raises `Stopped` if something
        couldn't be saved; even then, the file and the pass are closed."""
        try:
            self._saver.close()
        finally:
            super().close()

    def __exit__(self, kind: Optional[Type[BaseException]], value: Optional[BaseException],
                 trace: Optional[TracebackType]) -> None:
        if isinstance(value, (NotSaved, Stopped)) and value.path == self._saver.path:
            with suppress(Stopped):  # which would say the same again
                self.close()
        else:
            self.close()

    def __del__(self) -> None:
        try:
            self._saver.end()
        finally:
            super().close()


def open(path: Union[str, bytes, "os.PathLike[Any]"], pages: int = 16_384, passes: int = PASSES, commits: int = 2**32 - 1,
         every: Optional[float] = None) -> Saved:
    """Opens or creates the file, and builds the store. The limits are those of `bestore.open`, except that `passes` is at most
    63. The journal begins with the entries that are newer than the file's state, so `commits` must allow for them. Takes time
    and memory for everything in the file.

    With `every`, a write returns immediately and is saved `every` seconds later, or earlier by `flush` or `close`.

    If the file has entries that are newer than its state, or an earlier format, the state is rewritten. The file is left
    unchanged if the disk is full or, since Python 3.11, if the user's quota is used up or the file may not grow.

    If the path is a folder of volumes, in which an earlier version kept a shelf, a file with the contents of all volumes takes
    its place, and the folder is renamed: docs/KEPT.md says how. Raises `NoFile`, `OtherKind`, `Exists` or an OSError if that
    isn't possible.

    Raises `Foreign`, `Newer` or `Held`; `Damaged` or `CutOff` if part of the file was changed or lost; `Differs` or `TooLarge`,
    with the position in the file; `DiskFull` or `SqliteError`; the errors of `bestore.open`; and a ValueError if `every` is
    below 0."""
    if not 1 <= operator.index(passes) <= 63:
        raise BadLimits()
    if every is not None and not every >= 0:
        raise ValueError(f"the file can't be written every {every} seconds; give 0 or more")
    name = os.fsdecode(path)
    name = name.rstrip(os.sep) or name  # because a folder may become a file
    with ExitStack() as opened:
        builder = opened.enter_context(_local.LocalBuilder(pages, passes + 1, commits))
        join_volumes(os.path.realpath(name))
        file = File(name)
        opened.callback(file.close)
        most = file.commits_within(commits)
        if most < commits:
            builder.close()
            builder = opened.enter_context(_few_commits(file, pages, passes + 1, most))
        own, last = _load(file, builder, (pages, passes + 1, most))
        opened.callback(own.close)
        file.check(last)
        file.measure()
        has_entries = last != file.about().entries
        saver = _Saver(file, own, last, every)
        opened.callback(saver.close)
        if has_entries or file.format != FORMAT:
            _renew(saver)
        file.keep_last(last)
        store = Saved(saver)
        opened.pop_all()
    return store


def _renew(saver: _Saver) -> None:
    """Rewrites the file's state. If the system lets nothing be written, the file is unchanged, and the next write reports the
    error."""
    try:
        saver.compact()
    except SavedError as error:
        if not is_of_writing(error):
            raise


def _few_commits(file: File, pages: int, passes: int, commits: int) -> _local.LocalBuilder:
    """Begins a store for a file that has only a few entry numbers left. Raises `TooLarge` if the store couldn't accept even one
    transaction."""
    if commits == 0:
        spent = CommitsSpent()
        raise refused(file.path, spent, entry=file.about().entries) from spent
    return _local.LocalBuilder(pages, passes, commits)


def _state(file: File) -> Iterator[Tuple[int, bytes]]:
    """Yields the batches of the state's listing, with their indices."""
    return file.state() if file.format == FORMAT else enumerate(state_of(file).listing())


def _load(file: File, builder: _local.LocalBuilder, limits: Tuple[int, int, int]) -> Tuple[_local.LocalPass, int]:
    """Builds the store from the file's contents. Returns its first pass, and the number of the last entry.

    A built store has as few pages in use as possible, so an entry can need more new pages than it did when it was written. If there are too
    few pages, what all entries lead to is built instead. The store that wrote the file had room for that."""
    about = file.about()
    own = _built(file, builder, _state(file), about.next_node)
    try:
        return own, _repeat_entries(file, own, about.entries)
    except TooLarge as error:
        own.close()
        if not isinstance(error.__cause__, Full):
            raise
    except BaseException:
        own.close()
        raise
    volume, last = whole_of(file)
    with _local.LocalBuilder(*limits) as again:
        return _built(file, again, enumerate(volume.listing()), volume.next_node), last


def _built(file: File, builder: _local.LocalBuilder, batches: Iterator[Tuple[int, bytes]], next_node: int) -> _local.LocalPass:
    """Returns the first pass of a store with these contents."""
    place: Optional[int] = None
    try:
        for place, data in batches:
            builder._build_batch(data)
        place = None
        return builder.finish(next_node)
    except SavedError:
        raise
    except Error as error:
        raise refused(file.path, error, batch=place) from error


def _repeat_entries(file: File, own: _local.LocalPass, last: int) -> int:
    """Applies the entries after this one. Returns the number of the last entry."""
    for number, data in file.entries(last):
        if number != last + 1:
            raise Differs(file.path, "the entry is missing", entry=last + 1)
        try:
            batch = Batch.from_bytes(data)
            made = own.apply(batch, tries=1)[1]
        except Error as error:
            raise refused(file.path, error, number) from error
        if any(made) and made != [node if kind == NEW else 0 for kind, _, node, *_ in batch._parts()]:
            raise Differs(file.path, "it makes different nodes now", entry=number)
        last = number
    return last
