"""Tests of saved stores that are filled until no page is free. They open again with as many pages.

    PYTHONPATH=python STORES=1000 python3 python/test_saved_full.py

fills that many stores. SEED=n repeats a run."""

import os
import random
import unittest
from unittest import mock

import bestore
from bestore import saved
from saved_files import Files

STORES = int(os.environ.get("STORES", "12"))
ROUNDS = 20
KINDS = {"text": bestore.STRING, "i32": bestore.INT32, "i64": bestore.INT64, "u32": bestore.UINT32, "u64": bestore.UINT64}


class Filled(Files):
    def setUp(self):
        super().setUp()
        self.chance = random.Random()
        self.seed = int(os.environ.get("SEED", self.chance.randrange(2**32)))
        self.chance.seed(self.seed)

    def value(self, name):
        chance = self.chance
        if name in ("text", "more"):
            return "x" * chance.choice([0, 3, 20, 255]) + str(chance.randrange(10**chance.randrange(1, 9)))[:255]
        return chance.randrange(10**chance.randrange(1, 9))

    def batch(self, nodes, following):
        """Returns a few random operations. `nodes` are those that there are, and `following` is the next one."""
        chance, batch, own = self.chance, bestore.Batch(), []
        for _ in range(chance.choice([1, 1, 4, 20])):
            if not nodes and not own or chance.random() < self.grows:
                batch.new_node()
                own.append(following)
                following += 1
            node = chance.choice(own or nodes)
            name = chance.choice(self.names)
            batch.set(node, name, self.value(name)[:255] if name in ("text", "more") else self.value(name), KINDS.get(name))
        if nodes and chance.random() < self.shrinks:
            batch.remove_node(chance.choice(nodes))
        return batch

    def fill(self, store):
        """Writes at random until no page is free, and a few times more."""
        chance, left, rounds = self.chance, self.chance.choice([1, 1, 3]), 0
        while left > 0:
            rounds += 1
            if rounds > ROUNDS:  # by now, it may only grow
                self.grows, self.shrinks = 0.9, 0
            with store.pin() as version:
                nodes, following = version.nodes(0, 10**6), version.next_node
            for _ in range(chance.randrange(1, 30)):
                batch = self.batch(nodes, following)
                try:
                    made = store.apply(batch, tries=1)[1]
                except (bestore.Full, bestore.TooManyAttributes, bestore.NoNode) as error:
                    left -= isinstance(error, bestore.Full)
                    break
                nodes += [node for node in made if node]
                gone = {operation.node for operation in batch if isinstance(operation, bestore.RemoveNode)}
                nodes = [node for node in nodes if node not in gone]
                following += sum(node != 0 for node in made)
            if chance.random() < self.compacts:
                store.compact()

    def contents(self, store):
        with store.pin() as version:
            found = {name: version.query(f'{name}=="*"' if name == "text" else f"{name}!=1000001") for name in version.indices()}
            return list(version.listing()), version.next_node, found

    def one(self):
        chance = self.chance
        pages = chance.choice([12, 16, 24, 32, 48, 64, 100])
        self.names = chance.sample([*KINDS, "more", *"abcdefgh"], chance.randrange(1, 9))
        self.grows, self.shrinks = chance.choice([0.05, 0.3, 0.9]), chance.choice([0, 0.1, 0.6])
        self.compacts = chance.choice([0, 0, 0.02, 0.2])
        path = os.path.join(self.folder, f"{chance.randrange(2**64)}")
        indices = [name for name in self.names if name in KINDS and chance.randrange(3)]
        for turn in range(chance.randrange(1, 4)):
            with saved.open(path, pages, every=3600) as store:
                for name in indices if turn == 0 else ():
                    store.make_index(name, KINDS[name])
                self.fill(store)
                before = self.contents(store)
            with saved.open(path, pages, every=3600) as store:
                self.assertEqual(self.contents(store), before)
        os.remove(path)

    def test_entries_that_do_not_fit(self):
        """A built state has full pages. Entries that divide these can need more pages than they needed when they were written. Then what
        they lead to is built instead."""
        with saved.open(self.path, 48, every=3600) as store:
            attributes, least = [(node, f"{name:02}") for node in store.new_nodes(64) for name in range(60)], 16
            # In about a third of all orders, the entries fit; in this one they don't.
            random.Random(1).shuffle(attributes)
            with self.assertRaises(bestore.Full):
                for node, name in attributes:
                    store.apply(bestore.Batch().set(node, name, 1), tries=1)
                    if store.status().free < least:
                        store.compact()
                        least = 0
            before, number = self.contents(store), store.number_in_file(store.committed)
        with mock.patch.object(saved, "whole_of", side_effect=saved.whole_of) as read, saved.open(self.path, 48) as store:
            self.assertEqual((self.contents(store), read.call_count), (before, 1))
            with store.pin() as version:
                self.assertEqual((version.number, store.number_in_file(0)), (0, number))
            store.remove_node(1)
        with saved.open(self.path, 48) as store:
            self.assertEqual(store.number_in_file(store.status().entries), number + 1)

    def test_open_again(self):
        for number in range(STORES):
            with self.subTest(seed=self.seed, number=number):
                self.one()


if __name__ == "__main__":
    unittest.main()
