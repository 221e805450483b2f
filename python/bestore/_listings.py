"""Listings: what a store contains, in batches of bytes that a builder takes. docs/KEPT.md describes a batch."""

from __future__ import annotations

from typing import Iterable, Iterator, Tuple

from .errors import BadBytes
from .operations import Reader

BEGINNING = b"BEV\x01"
INDEX, NODE, ATTRIBUTE, HELD = range(1, 5)
_FULL = 1 << 16  # a batch of this many bytes isn't continued

Record = Tuple[int, int, bytes, bytes]
"""What it is, the number of a node, and the name and the value of an attribute. The value is its type code and its bytes, as in a
`Batch`. An index has a type code for its value."""


def records(data: bytes) -> Iterator[Record]:
    """Yields a batch's records. Raises `BadBytes` at the first one that can't be read."""
    reader = Reader(data)
    reader.read_beginning(BEGINNING)
    while not reader.is_at_end:
        begin, kind = reader.at, reader.read_number(1, "a record")
        if kind == NODE:
            yield kind, reader.read_number(8, "a node"), b"", b""
        elif kind in (INDEX, ATTRIBUTE, HELD):
            name = reader.read_name()
            begin, code = reader.at, reader.read_code()
            if kind != INDEX:
                reader.read_value(code)
            yield kind, 0, name, data[begin:reader.at]
        else:
            raise BadBytes(begin, f"no record has the number {kind}")


def _encoded(record: Record) -> bytes:
    kind, node, name, value = record
    return bytes([kind]) + (node.to_bytes(8, "little") if kind == NODE else bytes([len(name)]) + name + value)


def batches(listed: Iterable[Record]) -> Iterator[bytes]:
    """Yields batches with these records."""
    batch = bytearray(BEGINNING)
    for record in listed:
        if len(batch) >= _FULL:
            yield bytes(batch)
            batch = bytearray(BEGINNING)
        batch += _encoded(record)
    if len(batch) > len(BEGINNING):
        yield bytes(batch)
