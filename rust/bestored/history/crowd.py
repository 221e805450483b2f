"""Nodes that make a store large. A query then reads many pages while batches change some of them, and must see one state."""
from __future__ import annotations

import base64
import struct
from dataclasses import dataclass
from typing import Iterator, List, Tuple

from lines import Command, Connection
from record import REGISTERS

STRIDE = 7_919
"""How many pairs lie between those of two batches. The batches' pairs are spread over the whole store."""
BATCH = 64 << 10
"""How many bytes of a listing a batch has."""
AT_ONCE = 8
"""How many batches to send with one request."""
INTEGER = b"GNLL"
"""The type code LLNG, as the listing has it."""


@dataclass(frozen=True)
class Crowd:
    """This many nodes, an even number, after the registers. They are in pairs, and one node of each pair is in the group: its attribute
    `group` is 1, and the other one's is 0. Batch n exchanges the nodes of a pair, and marks both with n. So whatever is written, half of
    the nodes are in the group, and 2 n of them are marked after batch n. There must be fewer batches than pairs."""

    nodes: int

    @property
    def last(self) -> int:
        """The number of the last node."""
        return REGISTERS + self.nodes

    def restore(self, connection: Connection) -> None:
        """Gives the registers and the nodes to an empty store."""
        batches = [base64.b64encode(batch).decode() for batch in self._listing()]
        for first in range(0, len(batches), AT_ONCE):
            connection.ask("restore", {"batches": batches[first:first + AT_ONCE]})
        connection.ask("restore", {"batches": [], "next": self.last + 1})

    def _listing(self) -> Iterator[bytes]:
        """Yields the batches of the store's listing, in the encoding that docs/KEPT.md describes."""
        batch = bytearray(b"BEV\1" + b"".join(b"\1" + _name(name) + INTEGER for name in ("group", "mark")))
        for node in range(1, self.last + 1):
            batch += b"\2" + struct.pack("<Q", node)
            if node > REGISTERS:
                batch += b"\4" + _name("group") + INTEGER + struct.pack("<q", (node - REGISTERS) % 2)
            if len(batch) >= BATCH:
                yield bytes(batch)
                batch = bytearray(b"BEV\1")
        yield bytes(batch)

    def moves(self, number: int) -> List[List[object]]:
        """Returns the operations that batch `number` has for a pair."""
        one = REGISTERS + 1 + number * STRIDE % (self.nodes // 2) * 2
        return [["set", one, "group", 0], ["set", one, "mark", number], ["set", one + 1, "group", 1], ["set", one + 1, "mark", number]]

    def questions(self) -> List[Command]:
        """Returns the commands that count the nodes in the group, and the marked ones."""
        return [("query", {"query": query, "count": True}) for query in ("group==1", "mark>0")]

    def counts_after(self, number: int) -> Tuple[int, ...]:
        """Returns the counts after this batch."""
        return self.nodes // 2, 2 * number


def _name(name: str) -> bytes:
    return bytes([len(name)]) + name.encode()
