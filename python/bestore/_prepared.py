"""Prepared queries, which the library parses and keeps."""

from __future__ import annotations

import ctypes
import struct
import threading
from typing import List, Optional, Sequence, Set, Tuple

from ._engine import PREPARED, HandleOwner
from ._library import calls, check
from .errors import Closed, encoded, encoded_query
from .pages import check_of
from .queries import Item, Name, Operator, Prepared
from .values import Kind, encode_value

_RAW = struct.Struct("@IIIQ")  # a bes_item: its kind, the position and length of its bytes, and its number


def _item(item: Item) -> Tuple[int, int, bytes]:
    """Returns an item's kind, number and bytes."""
    if isinstance(item, Operator):
        return item.value, 0, b""
    if isinstance(item, Name):
        return 0, 0, encoded(item)
    if isinstance(item, str):
        return 1, 0, encoded(item)
    if item < 0:
        return 2, encode_value(item, Kind.INT64)[1], b""
    return 3, encode_value(item, Kind.UINT64)[1], b""


def encode_items(items: Sequence[Item]) -> Tuple[bytes, bytes]:
    """Returns the items in the library's form, and their bytes."""
    taken, texts = [], b""
    for item in items:
        kind, number, text = _item(item)
        taken.append(_RAW.pack(kind, len(texts), len(text), number))
        texts += text
    return b"".join(taken), texts


class PreparedQuery(HandleOwner, Prepared):
    """A prepared query."""

    def __init__(self, source: Optional[str] = None, items: Sequence[Item] = ()) -> None:
        super().__init__(PREPARED)
        self.source = source
        self._named = [str(item) for item in items if isinstance(item, Name)]
        self._refreshing = threading.RLock()
        self._seen: Set[int] = set()
        self._is_in_library = True
        self._refreshed_in: Optional[object] = None
        self._known_check: Optional[int] = None  # for cursors

    def close(self) -> None:
        """Releases the query, unless it has already been released."""
        self._give_up(calls.bes_release)
        self._seen = set()

    @property
    def text(self) -> str:
        count, room = ctypes.c_uint64(), 256
        while True:
            written = ctypes.create_string_buffer(room)
            check(self._call(calls.bes_prepared_text, written, room, ctypes.byref(count)))
            if count.value <= room:
                return written.raw[:count.value].decode()
            room = count.value

    @property
    def _check(self) -> int:
        if self._known_check is None:
            self._known_check = check_of(self.text)
        return self._known_check

    def _asked_text(self) -> str:
        if self.source is None:
            return self.text
        self._check_open()
        return self.source

    def _item_names(self) -> List[str]:
        self._check_open()
        return self._named

    def _check_open(self) -> None:
        """Raises `Closed`, or `Forked` in a forked child."""
        self._check_process()
        if not self._is_live:
            raise Closed()


def prepare(text: str) -> PreparedQuery:
    """Like `queries.prepare`."""
    prepared, taken, place = PreparedQuery(text), encoded_query(text), ctypes.c_uint64()
    answer = calls.bes_prepare(taken, len(taken), prepared._pointer, ctypes.byref(place))
    check(answer, place.value, text)
    prepared._expect(text)
    return prepared


def prepare_items(*items: Item) -> PreparedQuery:
    """Like `queries.prepare_items`."""
    prepared, place = PreparedQuery(items=items), ctypes.c_uint64()
    taken, texts = encode_items(items)
    answer = calls.bes_prepare_items(taken, len(items), texts, len(texts), prepared._pointer, ctypes.byref(place))
    check(answer, place.value, listed="item")
    return prepared
