"""Pages of an answer in an index's order, and cursors, which mark where the next page continues.

    page = version.query("MAIL:to==ann", by="MAIL:when", descending=True, limit=50)
    older = version.query("MAIL:to==ann", by="MAIL:when", descending=True, limit=50, after=page.cursor)
"""

from __future__ import annotations

import base64
import reprlib
import struct
import zlib
from dataclasses import dataclass
from typing import ClassVar, Iterable, List, NamedTuple, Optional, Tuple, TypeVar, Union

from .errors import BadCursor, bad_cursor, decoded, encoded
from .values import RANGES, Kind, Value

_Item = TypeVar("_Item")
_Other = TypeVar("_Other")

_FORMAT = 1  # the first byte of a cursor's text
_HEAD = struct.Struct(">BBBB")  # the format, 1 if descending, the kind's number, and the length of the name
_CHECK = struct.Struct(">I")  # a CRC-32
_NODE = struct.Struct(">Q")
_LONGEST = (4 + 63 + 4 + 264 + 4) * 4 // 3  # characters in a cursor's text, with the longest name and key
_NUMBERED = tuple(Kind)  # a kind's number is its position, from 1
_SIZES = {kind: (numbers.stop - numbers.start).bit_length() // 8 for kind, numbers in RANGES.items()}  # bytes of a number in a key
_LOWEST = {kind: numbers.start for kind, numbers in RANGES.items()}  # the number whose bytes in a key are zeros


class Order(NamedTuple):
    """An order of nodes: by their values in an index, and by number if their values are equal."""

    by: str
    """The name of the index."""
    descending: bool = False
    """Whether the order is reversed."""

    def __str__(self) -> str:
        return f'"{self.by}" {"descending" if self.descending else "ascending"}'


def order_by(by: str, descending: object) -> Order:
    """Returns an order. Each page needs one, and this takes a fraction of the constructor's time."""
    return tuple.__new__(Order, (by, bool(descending)))


def check_of(text: str) -> int:
    """Returns what a cursor remembers about a query: the CRC-32 of the query's canonical text."""
    return zlib.crc32(text.encode())


@dataclass(frozen=True)
class Cursor:
    """A position in a query's ordered answer: the position of a page's last node. The next page begins just after that node,
    even in a later version, whatever was written in between. `str` converts a cursor to a short string, which `parse` reads."""

    order: Order
    """The page's order."""
    check: int
    """The CRC-32 of the query's canonical text. Using a cursor with another query raises `BadCursor`."""
    kind: Optional[Kind] = None
    """The index's kind, or None at the beginning, before the first node."""
    value: Optional[Value] = None
    """The last node's value in the index."""
    node: Optional[int] = None
    """That node."""

    _key: ClassVar[Optional[bytes]] = None  # the key, for a cursor that was made from it

    @property
    def key(self) -> bytes:
        """The value and the node as an index key. The byte order of keys is the order of nodes. Empty at the beginning."""
        if self._key is not None:
            return self._key
        if self.kind is None or self.value is None or self.node is None:
            return b""
        return encode_key(self.kind, self.value, self.node)

    def __str__(self) -> str:
        name, kind = encoded(self.order.by), 0 if self.kind is None else _NUMBERED.index(self.kind) + 1
        head = _HEAD.pack(_FORMAT, self.order.descending, kind, len(name))
        written = head + name + _CHECK.pack(self.check) + self.key
        return base64.urlsafe_b64encode(written + _CHECK.pack(zlib.crc32(written))).rstrip(b"=").decode()

    @staticmethod
    def parse(text: str) -> Cursor:
        """Parses a cursor's text. Raises `BadCursor` if the text isn't a cursor."""
        try:
            return _read(text)
        except (ValueError, struct.error):
            raise bad_cursor(f"{reprlib.repr(text)} isn't a cursor: it is cut off or changed") from None

    @staticmethod
    def of_key(order: Order, check: int, kind: int, key: bytes) -> Cursor:
        """Returns the cursor with this key from an index of this kind. If `kind` is 0 and `key` is empty, the cursor is at the
        beginning."""
        if kind == 0 and not key:
            return Cursor(order, check)
        known = Kind(kind)
        cursor = Cursor(order, check, known, *decode_key(known, key))
        object.__setattr__(cursor, "_key", key)
        return cursor

    def check_fits(self, order: Order, check: int) -> None:
        """Raises `BadCursor` if the cursor belongs to a different order or query."""
        if self.order != order:
            raise bad_cursor(f"the cursor belongs to the order by {self.order}, but this page is in the "
                             f"order by {order}: keep the order, or begin without a cursor")
        if self.check != check:
            raise bad_cursor("the cursor belongs to another query: ask the query that it came from, "
                             "or begin without a cursor")

    def of_other_kind(self, kind: Kind) -> BadCursor:
        """Returns the error for a cursor whose kind differs from the index's kind. `kind` is the index's kind."""
        had = "no kind" if self.kind is None else f"kind {self.kind.name}"
        return bad_cursor(f'the index "{self.order.by}" has kind {kind.name}, and had {had} when the '
                          "cursor was made: begin without a cursor")


_Position = Tuple[Order, int, int, bytes]
"""The arguments of `Cursor.of_key`, from which a cursor is made when it is requested."""


class Page(List[_Item]):
    """Part of an ordered answer, as a list of nodes, or of rows with their values."""

    def __init__(self, items: Iterable[_Item], more: bool, position: Union[Cursor, _Position]) -> None:
        super().__init__(items)
        self.more = more
        """Whether more items follow this page."""
        self._position = position

    @property
    def cursor(self) -> Cursor:
        """The position of the page's last node, from which the next page continues. For an empty page, the position where the
        page began."""
        if not isinstance(self._position, Cursor):
            self._position = Cursor.of_key(*self._position)
        return self._position

    def of(self, items: Iterable[_Other]) -> Page[_Other]:
        """Returns the same page with other items, such as rows instead of their nodes."""
        return Page(items, self.more, self._position)


After = Union[Cursor, str, None]
"""Where a page begins: after a cursor, given as an object or as text, or at the beginning if this is None."""


def cursor_of(after: After) -> Optional[Cursor]:
    """Returns the cursor that was passed to a call. Raises `BadCursor` if it was passed as text that isn't a valid cursor."""
    if after is None or isinstance(after, Cursor):
        return after
    if not isinstance(after, str):
        raise TypeError(f"{after!r} isn't a cursor: use the cursor of a page, or its text")
    return Cursor.parse(after)


def encode_key(kind: Kind, value: Value, node: int) -> bytes:
    """Returns the key for a value and a node in an index of this kind. The byte order of keys is the order of values and nodes."""
    if isinstance(value, int) and kind in _SIZES:
        return (value - _LOWEST[kind]).to_bytes(_SIZES[kind], "big") + _NODE.pack(node)
    if isinstance(value, str) and kind is Kind.STRING:
        return encoded(value) + b"\0" + _NODE.pack(node)
    raise ValueError(f"no index has {value!r} of kind {kind.name}")


def decode_key(kind: Kind, key: bytes) -> Tuple[Value, int]:
    """Returns the value and the node in a key from an index of this kind. Raises a ValueError if the key isn't valid."""
    front, node = key[:-_NODE.size], _NODE.unpack(key[-_NODE.size:])[0]
    if kind in _SIZES and len(front) == _SIZES[kind]:
        return int.from_bytes(front, "big") + _LOWEST[kind], node
    if kind is Kind.STRING and 1 <= len(front) <= 256 and front.index(0) == len(front) - 1:
        return decoded(front[:-1]), node
    raise ValueError(f"{key.hex()} isn't a key of an index of kind {kind.name}")


def _bytes_of(text: str) -> bytes:
    """Returns the bytes that a cursor's text encodes, after checking the last four against the rest. Raises a ValueError if the
    text isn't a cursor."""
    if len(text) > _LONGEST:
        raise ValueError("the text is too long")
    padded = text.encode("ascii") + b"=" * (-len(text) % 4)
    written = base64.b64decode(padded, altchars=b"-_", validate=True)
    front, (check,) = written[:-_CHECK.size], _CHECK.unpack(written[-_CHECK.size:])
    if zlib.crc32(front) != check:
        raise ValueError("the check differs")
    return front


def _read(text: str) -> Cursor:
    """Reads a cursor from its text. Raises a ValueError or a struct.error if the text isn't a cursor."""
    front = _bytes_of(text)
    form, descending, number, length = _HEAD.unpack(front[:_HEAD.size])
    name, rest = front[_HEAD.size:_HEAD.size + length], front[_HEAD.size + length:]
    if form != _FORMAT or descending > 1 or number > len(_NUMBERED) or not 1 <= length <= 63:
        raise ValueError("the head can't be")
    (check,), key = _CHECK.unpack(rest[:_CHECK.size]), rest[_CHECK.size:]
    kind = 0 if number == 0 else _NUMBERED[number - 1]
    cursor = Cursor.of_key(Order(decoded(name), bool(descending)), check, kind, key)
    if str(cursor) != text:
        raise ValueError("the same cursor has another text")
    return cursor
