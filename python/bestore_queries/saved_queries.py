"""The file of saved queries, which is shared by all of a user's windows."""

from __future__ import annotations

import contextlib
import fcntl
import json
import os
import re
import tempfile
from typing import Any, Iterator, List, NamedTuple, Optional, Tuple

_HALF = re.compile("[\ud800-\udfff]")  # half of a character, which isn't UTF-8, but JSON has an escape for it


class Saved(NamedTuple):
    """A saved query."""

    name: str
    query: str
    """The query as typed, so that `yesterday` stays relative to the current day."""
    columns: Tuple[str, ...] = ()
    """The attributes that were shown, or empty if none were chosen."""


class BadFile(Exception):
    """The file can't be read or written. It is unchanged."""

    def __init__(self, path: str, reason: str) -> None:
        super().__init__(path, reason)
        self.path, self.reason = path, reason

    def __str__(self) -> str:
        return f"saved queries: {self.path}: {self.reason}"


def default_path() -> str:
    """Returns the default file's path."""
    folder = os.environ.get("XDG_CONFIG_HOME") or os.path.join(os.path.expanduser("~"), ".config")
    return os.path.join(folder, "bestore", "queries.json")


class SavedQueries:
    """The saved queries, by name. Each call reads the file, because another window may have written it."""

    def __init__(self, path: Optional[str] = None) -> None:
        self.path = default_path() if path is None else path

    def all(self) -> List[Saved]:
        """Returns the queries, sorted by name. Raises `BadFile`."""
        return sorted(self._read(), key=lambda it: it.name.casefold())

    def save(self, saved: Saved) -> None:
        """Saves a query, replacing any query with the same name. If this raises `BadFile`, the file is unchanged."""
        with self._alone():
            self._write([it for it in self._read() if it.name != saved.name] + [saved])

    def remove(self, name: str) -> None:
        """Removes a query if it exists. Raises `BadFile`."""
        with self._alone():
            self._write([it for it in self._read() if it.name != name])

    @contextlib.contextmanager
    def _alone(self) -> Iterator[None]:
        """Keeps other windows from writing at the same time."""
        try:
            os.makedirs(os.path.dirname(self.path), exist_ok=True)
            with open(f"{self.path}.lock", "w", encoding="utf-8") as lock:
                fcntl.flock(lock, fcntl.LOCK_EX)
                yield
        except OSError as error:
            raise BadFile(self.path, error.strerror or str(error)) from error

    def _read(self) -> List[Saved]:
        try:
            with open(self.path, encoding="utf-8") as file:
                return [_read_one(it) for it in json.load(file)["queries"]]
        except FileNotFoundError:
            return []
        except json.JSONDecodeError as error:
            raise BadFile(self.path, f"line {error.lineno}, column {error.colno}: {error.msg}") from error
        except OSError as error:
            raise BadFile(self.path, error.strerror or str(error)) from error
        except (KeyError, TypeError, ValueError, RecursionError) as error:
            raise BadFile(self.path, f"it has no list of queries: {error}") from error

    def _write(self, queries: List[Saved]) -> None:
        """Replaces the file, or the one that a link names, so that a reader sees either the old file or the new one."""
        text = json.dumps({"queries": [it._asdict() for it in queries]}, ensure_ascii=False, indent=1)
        text = _HALF.sub(lambda half: f"\\u{ord(half[0]):04x}", text)
        replaced = os.path.realpath(self.path)
        descriptor, path = tempfile.mkstemp(dir=os.path.dirname(replaced), prefix=".queries-")
        try:
            with open(descriptor, "w", encoding="utf-8") as file:
                file.write(text + "\n")
                file.flush()
                os.fsync(file.fileno())
            os.replace(path, replaced)
        except BaseException:
            with contextlib.suppress(OSError):
                os.unlink(path)
            raise


def _read_one(parts: Any) -> Saved:
    name, query, columns = parts["name"], parts["query"], tuple(parts.get("columns", ()))
    if not all(isinstance(it, str) for it in (name, query, *columns)):
        raise ValueError("a name, a query or a column isn't a string")
    return Saved(name, query, columns)
