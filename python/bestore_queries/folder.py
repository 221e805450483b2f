"""Imports a folder of files or mail into a store in this process, in a separate thread that follows the folder."""

from __future__ import annotations

import mimetypes
import os
import threading
from typing import Dict, Iterator, List, NamedTuple, Optional

import bestore

from .mail import cut, is_mailbox, mail_attributes

INDICES = {
    "name": bestore.STRING, "folder": bestore.STRING, "size": bestore.INT64, "last_modified": bestore.INT64,
    "BEOS:TYPE": bestore.STRING, "MAIL:from": bestore.STRING, "MAIL:to": bestore.STRING, "MAIL:subject": bestore.STRING,
    "MAIL:when": bestore.INT64, "MAIL:status": bestore.STRING,
}
RESERVE = 48
"""The number of pages that new files must not use, so that files can still be changed and removed."""


def type_of(name: str) -> str:
    """Returns the MIME type for a file name."""
    found, encoding = mimetypes.guess_type(name)
    return f"application/{encoding}" if encoding else found or "application/octet-stream"


def files_below(folder: str) -> Iterator[os.DirEntry[str]]:
    """Yields the files in a folder and its subfolders. Skips files that disappear in the meantime, and files that this process
    may not read."""
    waiting = [folder]
    while waiting:
        try:
            with os.scandir(waiting.pop()) as entries:
                for entry in entries:
                    if entry.is_dir(follow_symlinks=False):
                        waiting.append(entry.path)
                    elif entry.is_file(follow_symlinks=False):
                        yield entry
        except OSError:
            continue


class Known(NamedTuple):
    """A file that has a node."""

    node: int
    size: int
    changed: int
    """The time when the file was last changed, in nanoseconds since 1970."""


class Waiting(NamedTuple):
    """A file to write, or a file that no longer exists."""

    path: str
    values: Dict[str, bestore.Value]
    about: Optional[os.stat_result]
    """None if the file no longer exists."""

    @property
    def operations(self) -> int:
        """The maximum number of operations needed for the file."""
        return len(self.values) + 1


class FolderReader(threading.Thread):
    """Maintains a node for each file in a folder, and keeps looking for files that were added, removed or changed. A changed
    file keeps its node."""

    def __init__(self, user: bestore.Pass, folder: str, pause: float) -> None:
        super().__init__(name="folder", daemon=True)
        self._user, self._folder, self._pause = user, folder, pause
        self._known: Dict[str, Known] = {}
        self._waiting: List[Waiting] = []
        self._ended = threading.Event()
        self._is_full = False  # whether a file didn't fit in this round
        self._counted = 0
        self.rounds = 0
        """The number of times that the whole folder has been read."""
        self.left_out = 0
        """The number of files that didn't fit in the store."""
        self.is_gone = False
        """Whether the folder can't be read. Its files' nodes are kept."""
        self.fault: Optional[BaseException] = None
        """The exception that ended the thread, if any."""

    def __len__(self) -> int:
        return len(self._known)

    def run(self) -> None:
        try:
            while not self._ended.is_set():
                self._read_folder()
                self._ended.wait(self._pause)
        except Exception as fault:  # which the window shows
            self.fault = fault

    def end(self) -> None:
        """Stops the thread and closes its pass."""
        self._ended.set()
        if self.is_alive():
            self.join()
        self._user.close()

    def _read_folder(self) -> None:
        try:
            os.scandir(self._folder).close()
        except OSError:
            self.is_gone = True
            return
        gone, self.is_gone, self._is_full, self._counted = set(self._known), False, False, 0
        for entry in files_below(self._folder):
            if self._ended.is_set():
                return
            gone.discard(entry.path)
            try:
                self._read_file(entry)
            except OSError:
                gone.add(entry.path)  # the file has disappeared in the meantime, or can't be read
        for path in gone & self._known.keys():
            self._wait(Waiting(path, {}, None))
        self._write()
        self.left_out = self._counted
        self.rounds += 1

    def _read_file(self, entry: os.DirEntry[str]) -> None:
        about, known = entry.stat(follow_symlinks=False), self._known.get(entry.path)
        if known is None and self._is_full:
            self._leave_out()
        elif known is None or (known.size, known.changed) != (about.st_size, about.st_mtime_ns):
            self._wait(Waiting(entry.path, self._attributes(entry, about), about))

    def _leave_out(self) -> None:
        self._counted += 1
        self.left_out = max(self.left_out, self._counted)

    def _attributes(self, entry: os.DirEntry[str], about: os.stat_result) -> Dict[str, bestore.Value]:
        folder = os.path.dirname(entry.path)
        values: Dict[str, bestore.Value] = {
            "name": cut(entry.name), "folder": cut(folder), "size": about.st_size,
            "last_modified": int(about.st_mtime), "BEOS:TYPE": type_of(entry.name),
        }
        if is_mailbox(folder):
            values.update(mail_attributes(entry.path))
        return values

    def _wait(self, file: Waiting) -> None:
        """Queues the file until enough files are queued for a change."""
        if sum(it.operations for it in [*self._waiting, file]) > bestore.MOST_OPERATIONS:
            self._write()
        self._waiting.append(file)

    def _write(self) -> None:
        """Writes the queued files. Files that don't fit are skipped in this round."""
        files, self._waiting = self._waiting, []
        try:
            self._commit(files)
            status = self._user.status()
            self._is_full = status.free + status.retired < RESERVE
        except bestore.Full:
            self._is_full = True
            for file in files:
                if file.about is not None and file.path not in self._known:
                    self._leave_out()
            self._remove([file for file in files if file.about is None])

    def _remove(self, gone: List[Waiting]) -> None:
        """Removes files from a full store. Removing files also takes pages, so if necessary, fewer files are removed at a time.
        A file that can't be removed now is removed in a later round."""
        try:
            self._commit(gone)
        except bestore.Full:
            half = len(gone) // 2
            if half:
                self._remove(gone[:half])
                self._remove(gone[half:])

    def _commit(self, files: List[Waiting]) -> None:
        """Writes files, with one change."""
        nodes = self._user.change(lambda change: [self._file(change, it) for it in files])
        for file, node in zip(files, nodes):
            if file.about is None:
                self._known.pop(file.path, None)
            else:
                self._known[file.path] = Known(node, file.about.st_size, file.about.st_mtime_ns)

    def _file(self, change: bestore.Change, file: Waiting) -> int:
        """Writes a file and returns its node."""
        known = self._known.get(file.path)
        if file.about is None:
            if known is not None:
                change.remove(known.node)
            return 0
        node = change.new() if known is None else known.node
        change[node].update(file.values)
        return node
