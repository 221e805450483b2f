"""Tests of watches and of waiting for a commit: in this process, saved in a file, and with a server,
which BESTORED names."""

import copy
import os
import pickle
import shutil
import signal
import tempfile
import threading
import time
import unittest
from unittest import mock

import bestore
from bestore import commits, local, saved, watches
from servers import BESTORED, MEMORY, PATIENCE, Server


class Stores:
    """A store with an index on `size`, and a second pass."""

    def setUp(self):
        self.store = self.opened()
        self.addCleanup(self.store.close)
        self.other = self.store.another()
        self.addCleanup(self.other.close)
        self.store.make_index("size", bestore.INT64)

    def sized(self, size):
        """Creates a node of this size through the other pass."""
        def make(change):
            node = change.new()
            change[node]["size"] = size
            return node
        return self.other.change(make)

    def later(self, write):
        """Writes from another thread once this one is waiting."""
        waits, wait = threading.Event(), commits.Waiter.wait

        def waited(waiter, left):
            waits.set()
            wait(waiter, left)
        patched = mock.patch.object(commits.Waiter, "wait", waited)
        patched.start()
        self.addCleanup(patched.stop)

        def run():
            waits.wait(PATIENCE if BESTORED is None or not isinstance(self, OfServer) else 0.05)
            write()
        thread = threading.Thread(target=run)
        thread.start()
        self.addCleanup(thread.join)


class Watches(Stores):
    def test_changes(self):
        node = self.sized(7)
        with self.store.watch("size>=5") as watch:
            self.assertIsInstance(watch, bestore.Watch)
            self.assertEqual((watch.query, watch.wait(PATIENCE), watch.wait(0), watch.wait(-1)), ("size>=5", ([node], []), None, None))
            self.later(lambda: (self.sized(3), self.other.set(node, "size", 4)))
            self.assertEqual(watch.wait(PATIENCE), ([], [node]))
            made = [self.sized(5) for _ in range(3)]
            self.other.set(made[0], "size", 1)
            created, removed = watch.refresh()
            found = set(created) - set(removed)
            with self.store.pin() as version:
                self.assertEqual((sorted(found), watch.commit), (version.query("size>=5"), version.number))
            self.assertEqual((watch.refresh(), watch.wait(0)), (([], []), None))
            self.assertEqual(repr(watch), f"<watch of size>=5 at commit {watch.commit}>")
        self.assertRaises(bestore.Closed, watch.wait, 0)
        self.assertRaises(bestore.Closed, watch.refresh)
        watch.close()

    def test_each_commit(self):
        with self.store.watch() as watch:
            self.assertIsNone(watch.wait(0))
            self.later(self.other.new_node)
            self.assertEqual((watch.wait(1e300), watch.wait(0)), (([], []), None))
            self.assertEqual((repr(watch), self.store.reach(self.entries(), PATIENCE)), (
                f"<watch of each commit at commit {watch.commit}>", self.entries()))

    def entries(self):
        return self.other.status().entries

    def test_loop(self):
        self.sized(9)
        seen = []
        with self.store.watch("size>=5") as watch:
            for created, removed in watch:
                seen += created
                if len(seen) == 4:
                    break
                self.later(lambda: self.sized(6))
        self.assertEqual(len(set(seen)), 4)

    def test_refused(self):
        self.assertRaises(bestore.QuerySyntax, self.store.watch, "size>=")
        with self.assertRaises(bestore.NotCovered) as fault:
            self.store.watch("name==a")
        self.assertEqual(fault.exception.missing, "name")
        with self.store.watch("size>=5") as watch:
            self.other.remove_index("size")
            with self.assertRaises(bestore.NotCovered) as fault:
                while watch.wait(PATIENCE) is not None:
                    pass
            self.assertEqual(fault.exception.missing, "size")

    def test_reach(self):
        expected = self.entries() + 2
        self.later(lambda: [self.other.new_node() for _ in range(2)])
        self.assertEqual(self.store.reach(expected, PATIENCE), expected)
        self.assertRaises(bestore.NotReached, self.store.reach, expected + 1, 0.01)

    def test_copies(self):
        """A copy of a handle would close what the original still uses, so there are none."""
        node = self.sized(7)
        with self.store.watch("size>=5") as watch, self.store.prepare("size>=5") as prepared:
            with self.store.pin() as version:
                for handle in (self.store, watch, prepared, version):
                    self.assert_uncopied(handle)
                self.assertEqual(version.query_prepared(prepared), [node])
            self.store.change(self.assert_uncopied)
            self.assertEqual(watch.wait(PATIENCE), ([node], []))

    def assert_uncopied(self, handle):
        for copying in (copy.copy, copy.deepcopy, pickle.dumps):
            with self.assertRaisesRegex(TypeError, "^a [a-z ]+ can't be copied or pickled; [a-z]+ "):
                copying(handle)


class OfThisProcess(Watches):
    def test_nobody_looks_again_and_again(self):
        """A waiting watch checks only at the start, after a commit, and when the time is up."""
        with self.store.watch("size>=5") as watch, mock.patch.object(local.LocalPass, "pin", autospec=True,
                                                                     side_effect=local.LocalPass.pin) as pin:
            self.assertIsNone(watch.wait(0.2))
            self.assertLessEqual(pin.call_count, 3)
        with mock.patch.object(local.LocalPass, "status", autospec=True, side_effect=local.LocalPass.status) as status:
            self.assertRaises(bestore.NotReached, self.store.reach, 2**40, 0.2)
            self.assertLessEqual(status.call_count, 3)

    def written_after(self, owner, check):
        """Writes once, through the other pass, directly after this method of a class has checked the store."""
        original, left = getattr(owner, check), [1]

        def checked(*arguments):
            found = original(*arguments)
            while left:
                left.pop()
                self.other.new_node()
            return found
        return mock.patch.object(owner, check, checked)

    def test_write_between_a_check_and_the_wait(self):
        """It ends the wait."""
        begun = time.monotonic()
        with self.store.watch() as watch, self.written_after(watches.LocalWatch, "_look"):
            self.assertEqual(watch.wait(PATIENCE), ([], []))
        expected = self.entries() + 1
        with self.written_after(local.LocalPass, "status"):
            self.assertEqual(self.store.reach(expected, PATIENCE), expected)
        self.assertLess(time.monotonic() - begun, PATIENCE / 2)

    def test_each_call_that_writes_wakes(self):
        node = self.sized(1)
        writes = [lambda: self.other.set(node, "size", 2), lambda: self.other.set(node, "size", 3, bestore.INT64),
                  lambda: self.other.unset(node, "size"), lambda: self.other.remove_node(node), self.other.new_node,
                  lambda: self.other.remove_index("size")]
        with self.store.watch() as watch:
            for write in writes:
                self.later(write)
                self.assertEqual(watch.wait(PATIENCE), ([], []))

    def test_pinned_or_closed(self):
        with self.store.watch("size>=5") as watch:
            with self.store.pin():
                self.assertRaises(bestore.Pinned, watch.wait, 0)
                self.assertRaises(bestore.Pinned, self.store.watch)
            self.assertIsNone(watch.wait(0))
            begun = time.monotonic()
            self.later(watch.close)
            self.assertRaises(bestore.Closed, watch.wait, PATIENCE)
        with self.store.watch() as watch:
            self.later(self.store.close)
            self.assertRaises(bestore.Closed, watch.wait, PATIENCE)
        self.assertLess(time.monotonic() - begun, PATIENCE)  # each of them woke this thread

    def test_many_wait(self):
        passes, seen = [self.store.another() for _ in range(8)], []

        def follow(user):
            with user, user.watch() as watch:
                begun.wait()
                while not watch.commit >= last:
                    watch.wait(PATIENCE)
                seen.append(watch.commit)
        begun, last = threading.Barrier(9), self.entries() + 200
        running = [threading.Thread(target=follow, args=(user,)) for user in passes]
        for thread in running:
            thread.start()
        begun.wait()
        for _ in range(200):
            self.other.new_node()
        for thread in running:
            thread.join(PATIENCE)
        self.assertEqual(seen, [last] * 8)


class InProcess(OfThisProcess, unittest.TestCase):
    def opened(self):
        return bestore.open(256)

    def test_write_of_a_signal(self):
        """A write in a signal handler wakes the thread that the signal interrupted."""
        before = signal.signal(signal.SIGALRM, lambda *_: self.other.new_node())
        self.addCleanup(signal.signal, signal.SIGALRM, before)
        with self.store.watch() as watch:
            signal.setitimer(signal.ITIMER_REAL, 0.05)
            self.assertEqual(watch.wait(PATIENCE), ([], []))


class Kept(OfThisProcess, unittest.TestCase):
    def opened(self):
        folder = tempfile.mkdtemp(dir=MEMORY)
        self.addCleanup(shutil.rmtree, folder)
        return saved.open(os.path.join(folder, "store.bestore"), 256)


@unittest.skipUnless(BESTORED, "BESTORED names no bestored")
class OfServer(Watches, unittest.TestCase):
    def opened(self):
        server = Server("--pages", 256)
        self.addCleanup(server.close)
        return server.connect()


del Watches, OfThisProcess

if __name__ == "__main__":
    unittest.main()
