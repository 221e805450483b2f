"""Tests of refreshes that examine only what was written, compared with refreshes that run the whole query."""

import random
import signal
import threading
import unittest

import bestore
from bestore import local
from servers import PATIENCE, OverServer

NODES = 300
"""The number of nodes. Answers have at least 96 nodes; with fewer, the whole query is run."""


def change(store, chance):
    """Makes one random write. It sets a value, which may match the query or not, on a new or existing node, unsets a value, or
    removes a node."""
    node = chance.randrange(1, NODES)
    try:
        what = chance.random()
        if what < 0.6:
            store.set(node, "size", chance.randrange(-2, 8))
        elif what < 0.7:
            store.unset(node, "size")
        elif what < 0.8:
            store.remove_node(node)
        else:
            store.apply(bestore.Batch().set(store.new_node(), "size", chance.randrange(-2, 8)))
    except (bestore.NoNode, bestore.NoAttribute):
        pass


def fill(store, chance):
    """Fills a store so that queries find 96 nodes or more."""
    store.make_index("size", bestore.INT64)
    while store.new_node() < NODES:
        pass
    for node in range(1, NODES):
        store.set(node, "size", chance.randrange(-2, 8))


class Refreshes(unittest.TestCase):
    """Each step compares the results of both kinds of refresh with each other, and their sum with the query's answer."""

    def setUp(self):
        super().setUp()
        self.chance = random.Random(0x11FE)
        self.store = bestore.open()
        self.addCleanup(self.store.close)
        fill(self.store, self.chance)
        self.whole, self.changed = bestore.prepare("size>=0"), bestore.prepare("size>=0")
        self.found = set()

    def compare(self, version):
        """Refreshes both queries in this version, and compares the results."""
        created, removed = version.refresh_changed(self.changed)
        self.assertEqual((created, removed), version.refresh(self.whole))
        self.found = self.found.difference(removed).union(created)
        self.assertEqual(sorted(self.found), version.query("size>=0"))

    def compare_now(self, store):
        with store.pin() as version:
            self.compare(version)

    def compare_both(self, other):
        """Compares while writing and reading two stores in turn."""
        self.addCleanup(other.close)
        fill(other, self.chance)
        for _ in range(30):
            store = self.chance.choice((self.store, other))
            for _ in range(self.chance.randrange(4)):
                change(store, self.chance)
            self.compare_now(store)

    def test_few_and_many_writes_between(self):
        for at in range(120):
            for _ in range(self.chance.choice((0, 1, 2, 5, 12, 80))):
                change(self.store, self.chance)
            if at % 40 == 39:
                self.store.make_index(f"other{at}", bestore.INT64)
            self.compare_now(self.store)
        self.assertGreater(len(self.found), 96)

    def test_the_index_goes_and_comes(self):
        self.compare_now(self.store)
        self.store.remove_index("size")
        with self.store.pin() as version:
            self.assertRaises(bestore.NotCovered, version.refresh_changed, self.changed)
        self.store.make_index("size", bestore.INT64)
        for _ in range(3):
            change(self.store, self.chance)
            self.compare_now(self.store)

    def test_versions_of_several_stores(self):
        self.compare_both(bestore.open())

    def test_in_a_change(self):
        self.store.change(self.compare)
        change(self.store, self.chance)
        self.store.change(self.compare)

    def test_while_another_thread_writes(self):
        is_over, other = threading.Event(), self.store.another()
        self.addCleanup(other.close)

        def write():
            chance = random.Random(7)
            while not is_over.is_set():
                change(other, chance)
        writer = threading.Thread(target=write)
        writer.start()
        try:
            for _ in range(200):
                self.compare_now(self.store)
        finally:
            is_over.set()
            writer.join()

    def test_a_watch_follows(self):
        other = self.store.another()
        self.addCleanup(other.close)
        with self.store.watch("size>=0") as watch:
            for at in range(60):
                for _ in range(self.chance.randrange(1, 6)):
                    change(other, self.chance)
                if at % 2:
                    created, removed = watch.refresh()
                else:
                    other.apply(bestore.Batch().set(other.new_node(), "size", 5))  # a node that joins the answer
                    created, removed = watch.wait(PATIENCE)
                self.found = self.found.difference(removed).union(created)
                if at % 2:
                    with self.store.pin() as version:
                        self.assertEqual(sorted(self.found), version.query("size>=0"))

    def test_what_is_no_prepared_query(self):
        with self.store.pin() as version:
            self.assertRaises(TypeError, version.refresh_changed, "size>=0")
            self.changed.close()
            self.assertRaises(bestore.Closed, version.refresh_changed, self.changed)


class Ended(Exception):
    """Raised by a signal's handler."""


class Interrupted(unittest.TestCase):
    def setUp(self):
        def end(number, frame):
            raise Ended
        self.addCleanup(signal.signal, signal.SIGALRM, signal.signal(signal.SIGALRM, end))

    def test_no_change_is_lost(self):
        """If a signal ends a refresh, the next refresh returns what the first one found."""
        slow, ended = "size>=0 && (" + " || ".join(f"name==*{digit}?{digit}*" for digit in range(10)) + ")", 0
        with bestore.open() as store:
            store.make_index("size", bestore.INT64)
            for _ in range(100):
                batch = bestore.Batch()
                for node in store.new_nodes(30):
                    batch.set(node, "size", node).set(node, "name", f"{node * 7919}")
                store.apply(batch)
            for call in ("refresh", "refresh_changed") * 5:
                with bestore.prepare(slow) as query, store.pin() as version:
                    came, nodes = [], version.query_prepared(query)
                    signal.setitimer(signal.ITIMER_REAL, 0.002)
                    try:
                        came = getattr(version, call)(query)[0]
                    except Ended:
                        ended += 1
                    signal.setitimer(signal.ITIMER_REAL, 0)
                    self.assertEqual(came + getattr(version, call)(query)[0], nodes)
                    self.assertEqual(getattr(version, call)(query), ([], []))
        self.assertGreater(ended, 0)


class OfServer(OverServer, Refreshes):
    """The same tests with a server's store, whose watcher refreshes from what was written."""

    def test_in_both_stores(self):
        self.compare_both(local.open())


if __name__ == "__main__":
    unittest.main()
