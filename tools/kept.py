"""Remembers what has passed in earlier runs on this machine, by the checksum of everything that was read. Each record is a file
named after its checksum. The folder is $BESTORE_KEPT, or otherwise bestore in the user's cache, so a run in a fresh clone finds
what has passed in another.
"""
from __future__ import annotations

import hashlib
import os
import shutil
import tempfile
from pathlib import Path
from typing import Callable, Iterable, Protocol


# How many files `keep_file` keeps of a kind.
FILES = 8


def folder() -> Path:
    """Returns the folder, which may not exist yet."""
    cache = Path(os.environ.get("XDG_CACHE_HOME") or Path.home() / ".cache")
    return Path(os.environ.get("BESTORE_KEPT") or cache / "bestore")


class Named(Protocol):
    """A file, or a part of one."""

    @property
    def name(self) -> str: ...

    def read_bytes(self) -> bytes: ...


def checksum(files: Iterable[Named], words: Iterable[str] = (), read: Callable[[Named], bytes] = lambda it: it.read_bytes()) -> str:
    """Returns the checksum of what `read` returns for these files, of their names, and of these words."""
    whole = hashlib.sha256()
    for word in words:
        whole.update(f"{len(word)} {word} ".encode())
    for file in files:
        data = read(file)
        whole.update(f"{file.name} {len(data)} ".encode())
        whole.update(data)
    return whole.hexdigest()


def has(what: str, sum_of_all: str) -> bool:
    return (folder() / what / sum_of_all).is_file()


def text(what: str, sum_of_all: str) -> str:
    """Returns the text that was recorded with this checksum, or an empty string."""
    try:
        return (folder() / what / sum_of_all).read_text()
    except OSError:
        return ""


def keep(what: str, sum_of_all: str, text: str = "") -> None:
    """Records that all of this has passed, with a text. If the folder can't be created or written, nothing is recorded."""
    try:
        place = folder() / what
        place.mkdir(parents=True, exist_ok=True)
        (place / sum_of_all).write_text(text)
    except OSError:
        pass


def keep_file(what: str, sum_of_all: str, file: Path) -> None:
    """Keeps a copy of a file, and removes the oldest of its kind. If the folder can't be made or written, nothing is kept."""
    try:
        place = folder() / what
        place.mkdir(parents=True, exist_ok=True)
        with tempfile.TemporaryDirectory(dir=place) as room:
            shutil.copyfile(file, Path(room, "copy"))
            os.replace(Path(room, "copy"), place / sum_of_all)
        there = sorted((it for it in place.iterdir() if it.is_file()), key=lambda it: it.stat().st_mtime_ns)
        for it in there[:-FILES]:
            it.unlink()
    except OSError:
        pass
