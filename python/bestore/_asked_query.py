"""Queries whose text a server has parsed. Such queries don't need the library."""

from __future__ import annotations

import threading
from typing import Iterable, List, Optional, Set

from .errors import Closed
from .handles import LockOwner
from .queries import Prepared, prepare


class AskedQuery(LockOwner, Prepared):
    """A prepared query for stores on servers. The object keeps the text, which each server parses again."""

    source: str

    def __init__(self, source: str, names: Iterable[str]) -> None:
        super().__init__()
        self.source = source
        self._named = list(dict.fromkeys(names))
        self._refreshing = threading.RLock()
        self._seen: Set[int] = set()
        self._is_in_library = False
        self._refreshed_in: Optional[object] = None
        self._is_open = True

    def __repr__(self) -> str:
        return f"<query {self.source!r} of servers' stores>"

    def close(self) -> None:
        """Closes the query. There is nothing else to release."""
        self._is_open = False
        self._seen = set()

    def _asked_text(self) -> str:
        self._check_process()
        if not self._is_open:
            raise Closed()
        return self.source

    @property
    def text(self) -> str:
        """Returns the canonical text. This loads the library."""
        with prepare(self._asked_text()) as prepared:
            return prepared.text

    @property
    def _check(self) -> int:
        with prepare(self._asked_text()) as prepared:
            return prepared._check

    @property
    def names(self) -> List[str]:
        """Returns the names in the comparisons, from left to right and without duplicates."""
        self._asked_text()
        return list(self._named)
