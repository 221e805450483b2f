"""Tests of a store with more nodes than a query's first buffer has room for, and of the memory that a large store takes."""

from __future__ import annotations

import os
import unittest

import bestore

NODES = 280_000
PAGES = 98_304
MOST_OPENED = 30 << 20
"""How many bytes a store may take that has just been opened."""


def resident() -> int:
    """Returns how many bytes of this process are in memory."""
    with open("/proc/self/statm", encoding="ascii") as file:
        return int(file.read().split()[1]) * os.sysconf("SC_PAGESIZE")


class Large(unittest.TestCase):
    def setUp(self) -> None:
        before = resident()
        self.store = bestore.open(PAGES, 1)
        self.addCleanup(self.store.close)
        self.opened = resident() - before
        self.store.make_index("k", bestore.INT32)

    def fill(self) -> None:
        """Creates the nodes. Half of the nodes have the indexed attribute `k`, which orders them backwards."""
        for first in range(1, NODES + 1, 40):
            batch = bestore.Batch()
            for node in range(first, min(first + 40, NODES + 1)):
                batch.new_node()
                if node % 2 == 0:
                    batch.set(node, "k", -node, bestore.INT32)
            self.store.apply(batch)

    def test_memory(self) -> None:
        """Pages take no memory before they are used."""
        self.assertLess(self.opened, MOST_OPENED)

    def test_answers(self) -> None:
        """No answer is cut, whether it is asked for as a whole, in parts or in order."""
        self.fill()
        every = list(range(2, NODES + 1, 2))
        with self.store.pin() as version:
            self.assertEqual(len(version.nodes(0, NODES)), NODES)
            self.assertEqual(version.query("k<0"), every)
            self.assertEqual(version.query("k<0", limit=NODES), every)
            self.assertEqual(version.query("k<0", start=3), every[1:])
            self.assertEqual(version.query("k<0", by="k"), every[::-1])
            self.assertEqual(sorted(version.any("k<0", NODES)), every)
            with bestore.prepare("k<0") as prepared:
                self.assertEqual(version.query_prepared(prepared), every)
                first = version.query_prepared(prepared, by="k", descending=True, limit=NODES // 4)
                self.assertEqual(first, every[: NODES // 4])
                rest = version.query_prepared(prepared, by="k", descending=True, after=first.cursor)
                self.assertEqual(rest, every[NODES // 4 :])
                self.assertFalse(rest.more)


if __name__ == "__main__":
    unittest.main()
