"""Tests of live queries and prepared queries on a server's store. BESTORED names the server program; without it, the tests are
skipped."""

import select
import threading
import unittest

import bestore
from servers import PATIENCE, WithServer


class Following(WithServer):
    """Live queries while a second client writes."""

    def test_refresh_in_versions(self):
        """A refresh finds the version's answer, wherever the query was last refreshed: here, through another pass, or in a
        store in this process."""
        self.sized(self.store, 5, 1)
        with bestore.prepare("size>=5") as live, self.store.another() as other, bestore.Builder(64) as builder:
            with self.store.pin() as version:
                self.sized(other, 7)
                self.assertEqual((version.refresh(live), version.refresh(live)), (([1], []), ([], [])))
            with other.pin() as version:
                self.assertEqual(version.refresh(live), ([3], []))
                for batch in version.listing():
                    builder.batch(batch)
                local = builder.finish(version.next_node)
            with local:
                local.remove_node(1)
                with local.pin() as version:
                    self.assertEqual((version.refresh(live), version.refresh(live)), (([], [1]), ([], [])))
            with self.store.pin() as version:
                self.assertEqual((version.refresh(live), version.query_prepared(live)), (([1], []), [1, 3]))
            with bestore.prepare("none==1") as uncovered, self.store.pin() as version:
                with self.assertRaises(bestore.NotCovered):
                    version.refresh(uncovered)
            live.close()
            with self.store.pin() as version:
                for call in (version.refresh, version.query_prepared):
                    with self.assertRaises(bestore.Closed):
                        call(live)

    def test_prepare(self):
        """A query that was parsed by a server works on any server's store."""
        self.sized(self.store, 5, 1)
        with self.store.prepare("size>=5 && size>=4") as query, bestore.open(64, 1, 100) as local:
            self.assertEqual((query.source, query.names), ("size>=5 && size>=4", ["size"]))
            self.assertEqual(query.text, '"size">="5" && "size">="4"')
            with self.store.pin() as version:
                self.assertEqual((version.query_prepared(query), version.count(query), version.refresh(query)), ([1], 1, ([1], [])))
            with local.pin() as version:
                for call in (version.query_prepared, version.refresh, version.refresh_changed):
                    with self.assertRaisesRegex(TypeError, "'size>=5 && size>=4' of servers' stores> isn't a prepared query"):
                        call(query)
        with self.assertRaises(bestore.Closed):
            query.names
        for text, error in (("size>5 &&", bestore.QuerySyntax), ("size==[b-a]", bestore.BadPattern), ("a==1||" * 700, bestore.TooLong)):
            with self.assertRaises(error) as fault:
                self.store.prepare(text)
            self.assertEqual(fault.exception.query, text)
        with bestore.open(64, 1, 100) as local, local.prepare("size>=5") as query:
            self.assertEqual(query.text, '"size">="5"')

    def test_names_of_a_query(self):
        """A query on many names that was refreshed in this process can then be refreshed on a server."""
        names = [f"n{number}" for number in range(30)]
        with bestore.open(1024, 1, 200) as local, bestore.prepare(" || ".join(f"{name}==1" for name in names)) as live:
            for store in (local, self.store):
                for name in names:
                    store.make_index(name, bestore.INT64)
            local.change(lambda change: change.set(change.new(), "n29", 1))
            with local.pin() as version:
                self.assertEqual(version.refresh(live), ([1], []))
            with self.store.pin() as version:
                self.assertEqual((version.refresh(live), version.refresh(live)), (([], [1]), ([], [])))

    def test_watch(self):
        self.sized(self.store, 5, 1)
        with self.store.another() as other, self.store.watch("size>=5") as watch:
            self.assertEqual((watch.commit, watch.query, watch.wait(PATIENCE), watch.wait(0)), (2, "size>=5", ([1], []), None))
            self.sized(other, 6, 2)
            self.assertEqual((watch.wait(PATIENCE), watch.commit), (([3], []), 3))
            other.remove_node(1)
            self.sized(self.store, 9)
            self.assertEqual((watch.refresh(), watch.refresh(), watch.commit), (([5], [1]), ([], []), 5))
            with self.store.pin():
                other.remove_node(3)
                self.assertEqual((watch.refresh().removed, watch.commit), ([], 5))
            self.assertEqual(watch.refresh().removed, [3])
            went, came = next(iter(self.after(0.1, lambda: self.sized(other, 8), watch)))
            self.assertEqual((went, came), ([6], []))
            self.assertEqual(repr(watch), f"<watch of size>=5 at commit {watch.commit}>")
        with self.assertRaises(bestore.Closed):
            watch.wait(0)
        self.assertEqual(self.store.watch("size>=9").wait(PATIENCE).created, [5])

    def after(self, seconds, call, value):
        """Has a thread make the call later, and returns the value."""
        timer = threading.Timer(seconds, call)
        timer.start()
        self.addCleanup(timer.join)
        return value

    def test_commits(self):
        with self.store.another() as other, self.store.watch() as watch:
            self.assertEqual((watch.wait(0), watch.commit, repr(watch)), (None, 1, "<watch of each commit at commit 1>"))
            other.new_node()
            self.assertEqual((watch.wait(PATIENCE), watch.commit), (([], []), 2))
            other.new_node()
            self.assertEqual((watch.refresh(), watch.commit), (([], []), 3))

    def test_select(self):
        """`select` reports the descriptor as readable after a push."""
        with self.store.another() as other, self.store.watch("size>=5") as watch:
            self.assertIsNone(watch.wait(0))
            self.assertEqual(select.select([self.store], [], [], 0)[0], [])
            self.sized(other, 5)
            self.assertEqual(select.select([self.store], [], [], PATIENCE)[0], [self.store])
            self.assertEqual(watch.wait(0).created, [1])

    def test_ended_by_an_error(self):
        with self.store.another() as other, self.store.watch("size>=5") as watch:
            other.remove_index("size")
            with self.assertRaises(bestore.NotCovered) as fault:
                watch.wait(PATIENCE)
            self.assertEqual((fault.exception.missing, fault.exception.offset, fault.exception.query), ("size", 0, "size>=5"))
            with self.assertRaises(bestore.NotCovered):
                watch.refresh()
        for text, error in [("size>", bestore.QuerySyntax), ("size>5", bestore.NotCovered), ("\udcff", bestore.QueryNotUTF8)]:
            with self.assertRaises(error):
                self.store.watch(text)
        self.assertEqual(self.store.new_node(), 1)

    def test_how_many(self):
        """Watches without references are closed when a new one begins."""
        for _ in range(70):
            self.store.watch("size>=5")
        kept = [self.store.watch() for _ in range(32)]
        with self.assertRaises(bestore.TooManyWatches):
            self.store.watch()
        kept.pop().close()
        self.store.watch().close()

    def test_adds_up(self):
        """While two other clients write, the refreshes always add up to the version's answer, whatever was pushed meanwhile."""
        def write(store, ending):
            nodes = []
            while not ending.is_set():
                nodes += self.sized(store, 4, 6)
                if len(nodes) > 20:
                    store.remove_node(nodes.pop(len(nodes) % 20))
        ending = threading.Event()
        writers = [threading.Thread(target=write, args=(self.store.another(), ending)) for _ in range(2)]
        for thread in writers:
            thread.start()
        try:
            with self.store.watch("size>=5") as watch, bestore.prepare("size>=5") as live:
                watched, refreshed = set(), set()
                for number in range(100):
                    if number % 3 == 0:
                        self.add_up(watched, watch.wait(0) or ([], []))
                    with self.store.pin() as version:
                        self.add_up(watched, watch.refresh())
                        self.add_up(refreshed, version.refresh(live))
                        answer = set(version.query("size>=5"))
                        self.assertEqual((watched, refreshed, watch.commit), (answer, answer, version.number))
                self.store.set(self.sized(self.store, 1)[0], "size", 7)
                self.add_up(watched, watch.refresh())
                self.assertGreaterEqual(watch.commit, self.store.committed)
        finally:
            ending.set()
            for thread in writers:
                thread.join()

    def add_up(self, found, changes):
        created, removed = changes
        self.assertTrue(found.isdisjoint(created) and found.issuperset(removed))
        found.update(created)
        found.difference_update(removed)


if __name__ == "__main__":
    unittest.main()
