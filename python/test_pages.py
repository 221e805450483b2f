"""Tests of freeing pages: pages that no version uses become free again, whatever was written and read meanwhile. Each run makes
different writes. If a run fails, the message contains its seed: BESTORE_SEED=seed repeats that run.
"""

from __future__ import annotations

import os
import random
import unittest
from typing import List

import bestore

PAGES = 160
NODES = 100
ROUNDS = 3000
SPARE = 30
"""When only this many pages are free, the readers move to the current version."""


class Pages(unittest.TestCase):
    def setUp(self) -> None:
        self.seed = int(os.environ.get("BESTORE_SEED") or random.SystemRandom().randrange(2**32))
        self.chance = random.Random(self.seed)

    def empty(self, store: bestore.Store, nodes: List[int]) -> None:
        """Removes everything from the store and then writes once more, so that the retired pages become free."""
        for node in nodes:
            store.remove_node(node)
        store.remove_index("a")
        for _ in range(2):
            store.make_index("a", bestore.STRING)
            store.remove_index("a")

    def write(self, store: bestore.Store, nodes: List[int]) -> None:
        """Makes one random write."""
        kind = self.chance.random()
        if kind < 0.3 and len(nodes) < NODES or not nodes:
            nodes.append(store.new_node())
        elif kind < 0.4:
            at = self.chance.randrange(len(nodes))
            store.remove_node(nodes[at])
            del nodes[at]
        else:
            name = self.chance.choice(["a", "b"])
            store.set(self.chance.choice(nodes), name, "x" * self.chance.randrange(256))

    def test_pages_come_back(self) -> None:
        """Readers stay pinned until most pages are retired or in use."""
        with bestore.open(PAGES, 4) as store:
            store.make_index("a", bestore.STRING)
            self.empty(store, [])
            free = store.status().free
            readers = [store.another() for _ in range(3)]
            pinned = [reader.pin() for reader in readers]  # keeps references, because a version without any is unpinned
            nodes: List[int] = []
            store.make_index("a", bestore.STRING)
            for _ in range(ROUNDS):
                if store.status().free < SPARE:
                    for version in pinned:
                        version.unpin()
                    pinned = [reader.pin() for reader in readers]
                self.write(store, nodes)
                if self.chance.random() < 0.02:
                    at = self.chance.randrange(len(readers))
                    pinned[at].unpin()
                    pinned[at] = readers[at].pin()
            for reader in readers:
                reader.close()
            self.empty(store, nodes)
            status = store.status()
            self.assertEqual((status.free, status.retired), (free, 0), f"seed {self.seed}")


if __name__ == "__main__":
    unittest.main()
