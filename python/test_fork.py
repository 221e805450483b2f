"""Tests of handles in a forked child."""

import gc
import os
import threading
import traceback
import unittest
import warnings

import bestore

from busy_passes import used_by_a_thread


@unittest.skipUnless(hasattr(os, "fork"), "there is no fork")
class Forks(unittest.TestCase):
    def in_child(self, work):
        """Runs this in a forked child, which must succeed within 20 seconds."""
        reading, writing = os.pipe()
        with warnings.catch_warnings():
            warnings.simplefilter("ignore")  # Python 3.12 and later warn about forking in a process with threads
            child = os.fork()
        if child == 0:
            try:
                work()
                os.write(writing, b"ended well")
            except BaseException:
                os.write(writing, traceback.format_exc().encode())
            finally:
                os._exit(0)
        os.close(writing)
        with os.fdopen(reading, "rb") as said:
            timer = threading.Timer(20, os.kill, (child, 9))
            timer.start()
            self.assertEqual(said.read().decode(), "ended well")
            timer.cancel()
        os.waitpid(child, 0)

    def test_dead(self):
        with bestore.open(64, 2, 100) as store, bestore.prepare("k==1") as query:
            store.make_index("k", bestore.INT64)
            version = store.pin()

            def work():
                for use in (
                    store.new_node, store.another, store.pin, store.status, store.journal, store.meet, lambda: store.number,
                    lambda: version.query("k==1"), lambda: version.get(1, "k"), lambda: version.query_prepared(query),
                    lambda: query.text, lambda: version.refresh(query), lambda: version.count(query),
                    lambda: store.change(lambda change: change.new()),
                    lambda: list(store.journal_from()), lambda: store.reindex("k"), lambda: list(version.listing()),
                ):
                    with self.assertRaises(bestore.Forked):
                        use()
                with store, query, version:
                    pass
            self.in_child(work)
            self.assertEqual((version.query("k==1"), store.status().oldest), ([], (1, store.number)))
            version.unpin()
            self.assertEqual(store.new_node(), 1)

    def test_destructors_do_nothing(self):
        with bestore.open(64, 3, 100) as store:
            kept = [store.another(), bestore.prepare("k==1")]
            kept.append(kept[0].pin())

            def work():
                kept.clear()
                gc.collect()
            self.in_child(work)
            kept[0].new_node()
            self.assertEqual((kept[2].nodes(), kept[0].status().entries), ([], 1))

    def test_witness(self):
        with bestore.open(64, 2, 100) as store:
            try:
                kept = [store.witness()]
            except bestore.Unavailable:
                self.skipTest("a pass of a server has no witness")

            def work():
                for use in (store.witness, lambda: store.join(kept[0])):
                    with self.assertRaises(bestore.Forked):
                        use()
                with kept[0]:
                    pass
                kept.clear()
                gc.collect()
            self.in_child(work)
            store.new_node()
            self.assertEqual(store.join(kept[0]), 1)

    def test_lock_of_a_thread_that_is_not_there(self):
        """If one of the parent's threads is in a call during the fork, the child doesn't wait for it."""
        with bestore.open(64, 1, 100) as store:
            def work():
                with self.assertRaises(bestore.Forked):
                    store.new_node()
                store.close()
            with used_by_a_thread(store):
                self.in_child(work)

    def test_lock_of_threads_that_wait(self):
        """If one of the parent's threads begins or ends a wait for commits during the fork, the child doesn't wait for it."""
        is_held, is_over = threading.Event(), threading.Event()
        with bestore.open(64, 1, 100) as store, store.watch() as watch:
            def hold():
                with store._store._lock:
                    is_held.set()
                    is_over.wait(20)

            def work():
                for wait in lambda: store.reach(1, 5), lambda: watch.wait(5):
                    with self.assertRaises(bestore.Forked):
                        wait()
            holding = threading.Thread(target=hold)
            holding.start()
            is_held.wait(20)
            try:
                self.in_child(work)
            finally:
                is_over.set()
                holding.join()
            self.assertIsNone(watch.wait(0))

    def test_store_of_the_child(self):
        with bestore.open(64, 1, 100) as store:
            def work():
                with bestore.open(64, 2, 100) as own, own.another() as other, bestore.prepare("k==1") as query:
                    own.make_index("k", bestore.INT64)
                    other.change(lambda change: change.set(change.new(), "k", 1))
                    with own.pin() as version:
                        self.assertEqual(version.query_prepared(query), [1])
                    self.in_child(lambda: self.assertRaises(bestore.Forked, own.new_node))
            self.in_child(work)
            self.assertEqual(store.new_node(), 1)


if __name__ == "__main__":
    unittest.main()
