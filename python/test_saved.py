"""Tests of stores that are saved in a file: reopening it, and saving at intervals."""

import gc
import os
import threading
import time
import unittest
import weakref
from unittest import mock

import bestore
from bestore import local, saved
from bestore._saved_file import File
from saved_files import PATIENCE, Files, file_size, run, sizes, sql, three


class Kept(Files):
    def test_there_again(self):
        three(self.path)
        for count in range(3):
            with saved.open(self.path, 64) as store:
                self.assertEqual(len(sizes(store)), 3 + count)
                with store.pin() as version:
                    self.assertEqual(store.number_in_file(version.number), 4 + 2 * count)
                self.assertEqual(file_size(store, 9), 4 + count)
                store.set(1, "round", bestore.UInt32(count))
                self.assertEqual(store.number_in_file(store.committed), 6 + 2 * count)
        with saved.open(self.path, 64) as store, store.pin() as version:
            self.assertEqual(version.attributes(1, kinds=True), {"round": (2, bestore.UINT32), "size": (1, bestore.INT64)})
            self.assertEqual((version.indices(), len(list(version))), ({"size": bestore.INT64}, 6))

    def test_modes(self):
        def modes():
            return {name: os.stat(os.path.join(self.folder, name)).st_mode & 0o7777 for name in os.listdir(self.folder)}
        self.addCleanup(os.umask, os.umask(0))
        with saved.open(self.path, pages=64) as store:
            store.new_node()
            self.assertEqual(modes(), dict.fromkeys(("test.bestore", "test.bestore-last", "test.bestore-wal"), 0o600))
        os.chmod(self.path, 0o640)  # a mode that someone has chosen is left alone
        with saved.open(self.path, pages=64) as store:
            store.new_node()
            self.assertEqual(modes(), {"test.bestore": 0o640, "test.bestore-last": 0o600, "test.bestore-wal": 0o640})

    def test_mode_of_a_link(self):
        """The link may be there before the file that it names."""
        self.addCleanup(os.umask, os.umask(0))
        os.symlink("elsewhere", self.path)
        with saved.open(self.path, pages=64) as store:
            store.new_node()
            modes = {os.stat(os.path.join(self.folder, name)).st_mode & 0o7777 for name in os.listdir(self.folder)}
        self.assertEqual(modes, {0o600})

    def test_each_call(self):
        """Every call that writes is saved, from every pass, even from one that is gone."""
        with saved.open(self.path, 64) as store, store.another() as other, other.another() as third:
            nodes = other.new_nodes(65)
            third.apply(bestore.Batch().set(1, "k", "é").set(1, "r", b"\0").new_node())
            with store.pin() as version:
                number = version.number
            store.apply_if(number, bestore.Batch().unset(1, "r"))
            with self.assertRaises(bestore.Conflict):
                other.apply_if(number, bestore.Batch().new_node())
            store.make_index("k", bestore.STRING)
            self.assertEqual(third.reindex("k"), 1)
            third.remove_node(66)
            with self.assertRaises(bestore.NoNode):
                store.unset(66, "k")
            entries = list(store.journal_from())
        with saved.open(self.path.encode(), 64) as store, store.pin() as version:
            self.assertEqual((list(version), version.next_node), (nodes, 67))
            self.assertEqual((version.attributes(1), version.query("k==é")), ({"k": "é"}, [1]))
            self.assertEqual(len(entries), store.number_in_file(version.number))
        with saved.open(self.path, 64) as store:
            self.assertEqual(store.new_node(), 67)

    def test_rows(self):
        """The rows that writers hand in match the journal's entries, in order, even if the last writer hands in its row first."""
        batches = [
            bestore.Batch().new_node().new_node(), bestore.Batch().make_index("i", bestore.INT32).make_index("k", bestore.STRING),
            bestore.Batch().set(1, "i", bestore.Int32(-5)).set(2, "u", bestore.UInt64(2**64 - 1)).set(2, "k", "é"),
            bestore.Batch([bestore.NewNode(77)]).set(1, "r", b"\0\xff").set(1, "t", "").set(1, "e", b""),
            bestore.Batch().unset(1, "r").remove_node(2).remove_index("k"), bestore.Batch().set(1, "i", 2**63 - 1)]
        batches += [bestore.Batch().new_node().set(1, "n", count) for count in range(100)]
        expected = []
        with saved.open(self.path, 64) as store:
            with store._saver._line.turn():
                keep, written = store._saver.keep, []
                with mock.patch.object(saved._Saver, "keep", lambda saver, *entry: written.append(entry)):
                    for batch in batches:
                        store.apply(batch)
                waiting = [threading.Thread(target=keep, args=entry) for entry in reversed(written)]
                for count, thread in enumerate(waiting):
                    thread.start()
                    while len(store._saver._line._writers) <= count:
                        time.sleep(0.001)
            for thread in waiting:
                thread.join()
            for entry in store.journal_from():
                expected.append((entry.number, entry.pass_number, bestore.Batch(entry.operations).to_bytes()))
        self.assertEqual(sql(self.path, "SELECT number, pass, batch FROM entry ORDER BY number"), expected)
        with saved.open(self.path, 64) as store, store.pin() as version:
            self.assertEqual(version.get(1, "n"), 99)

    def test_writers_share(self):
        with saved.open(self.path, 24) as store:
            store.new_node()
            passes = [store.another() for _ in "abcd"]

            def write(user, name):
                for count in range(40):
                    user.change(lambda change: change.set(1, name, count))
            running = [threading.Thread(target=write, args=pair) for pair in zip(passes, "abcd")]
            for thread in running:
                thread.start()
            store.compact()
            for thread in running:
                thread.join()
            store.compact()
            number = store.number_in_file(store.status().entries)
        self.assertEqual(sql(self.path, "SELECT count(*) FROM entry"), [(0,)])
        self.assertEqual(number, 161)
        with saved.open(self.path, 24) as store, store.pin() as version:
            self.assertEqual(version.attributes(1), dict.fromkeys("abcd", 39))

    def test_compact(self):
        three(self.path)
        self.assertEqual(sql(self.path, "SELECT count(*), min(number) FROM entry"), [(4, 1)])
        with saved.open(self.path, 64) as store:
            store.remove_node(3)
            with store.pin() as version:
                store.compact()
                self.assertEqual(version.nodes(), [1, 2])
            file_size(store, 4)
        self.assertEqual(sql(self.path, "SELECT number FROM entry"), [(6,)])
        self.assertEqual(sql(self.path, "SELECT number FROM about WHERE what <> 'file' ORDER BY what"), [(5,), (4,)])
        with saved.open(self.path, 64) as store:
            self.assertEqual(sizes(store), [1, 2, 4])
        self.assertEqual(os.listdir(self.folder), ["test.bestore"])

    def test_is_due(self):
        with saved.open(self.path, 256, every=3600) as store, store.another() as other:
            node = store.new_node()

            def fill(entries):
                """Writes about 16 KiB in each entry."""
                for _ in range(entries):
                    batch = bestore.Batch()
                    for place in range(60):
                        batch.set(node, f"k{place}", bytes(255))
                    other.apply(batch)
                store.flush()
            fill(15)
            self.assertFalse(store.is_due)
            fill(2)
            self.assertTrue(store.is_due and other.is_due)
            with mock.patch.object(local.LocalVersion, "_listing_from", side_effect=saved.DiskFull(self.path)):
                self.assertRaises(saved.DiskFull, store.compact)
            self.assertFalse(store.is_due)
            fill(17)
            self.assertTrue(store.is_due)
            store.compact()
            self.assertFalse(store.is_due)
            fill(18)
        self.assertFalse(store.is_due)
        with saved.open(self.path, 256) as store:  # which compacts
            self.assertFalse(store.is_due)

    def test_compact_comes_first(self):
        """A state that is waiting to be written goes before the waiting writers, and saves their writes too."""
        ran, append, write_state = [], File.append, File.write_state

        def recorded(call):
            def record(*arguments):
                ran.append((call.__name__, threading.current_thread().name))
                return call(*arguments)
            return record
        with saved.open(self.path, 64) as store, store.another() as other:
            running = [threading.Thread(target=other.new_node), threading.Thread(target=store.compact, name="compact")]
            with mock.patch.object(File, "append", recorded(append)), \
                    mock.patch.object(File, "write_state", recorded(write_state)):
                with store._saver._line.turn():
                    running[0].start()
                    while store.status().entries == 0:
                        time.sleep(0.001)
                    running[1].start()
                    while store._saver._line.askers < 1:
                        time.sleep(0.001)
                for thread in running:
                    thread.join()
        self.assertEqual(ran, [("append", "compact"), ("write_state", "compact")])

    def test_closed(self):
        with saved.open(self.path, 64) as store:
            other = store.another()
            node = other.new_node()
        for use in (other.new_node, other.flush, other.compact):
            with self.assertRaises(saved.Stopped) as stopped:
                use()
            self.assertEqual(str(stopped.exception), f"{self.path}: the file is closed")
        for use in (other.another, store.new_node):
            with self.assertRaises(bestore.Error):
                use()
        with saved.open(self.path, 64), other.pin() as version:
            self.assertIn(node, version)
            store.close()
        other.close()

    def test_last_pass(self):
        """A store without references stays open as long as one of its passes is used."""
        other = saved.open(self.path, 64).another()
        other.new_node()
        self.assertIsInstance(self.refusal(), saved.Held)
        del other
        with saved.open(self.path, 64) as store, store.pin() as version:
            self.assertEqual(version.nodes(), [1])

    def test_limits(self):
        for passes in (0, 64, -1):
            with self.assertRaises(bestore.BadLimits):
                saved.open(self.path, passes=passes)
        for every in (-1, float("nan")):
            with self.assertRaises(ValueError):
                saved.open(self.path, every=every)
        self.assertEqual(os.listdir(self.folder), [])
        with saved.open(self.path, 64, passes=2, every=float("inf")) as store, store.another() as other:
            with self.assertRaises(bestore.NoPass):
                other.another()
        with saved.open(self.path, 64) as store:
            others = [store.another() for _ in range(62)]
            self.assertRaises(bestore.NoPass, others[0].another)


class Timed(Files):
    def count(self):
        with saved.open(self.path, 64) as store, store.pin() as version:
            return len(version.nodes())

    def test_flush_and_close(self):
        store = saved.open(self.path, 64, every=3600)
        store.new_node()
        with mock.patch.object(File, "append", side_effect=AssertionError):
            store.new_node()
        store.flush()
        store.new_node()
        store.close()
        self.assertEqual(self.count(), 3)

    def test_time(self):
        with saved.open(self.path, 64, every=0.005) as store:
            for _ in range(10):
                store.new_node()
                time.sleep(0.001)
            for _ in range(2000):
                if store._saver._line.saved == 10:
                    break
                time.sleep(0.005)
            self.assertEqual(store._saver._line.saved, 10)
        self.assertEqual(self.count(), 10)

    def test_write_beside_close(self):
        """A write that comes too late for the last commit fails."""
        store = saved.open(self.path, 64, every=3600)
        other, save_all = store.another(), saved._Saver._save_all

        def late(saver):
            save_all(saver)
            writing.start()
            while other.committed == 0:
                time.sleep(0.001)
        refused = []

        def write():
            try:
                other.new_node()
            except saved.NotSaved as error:
                refused.append(str(error))
        writing = threading.Thread(target=write)
        with mock.patch.object(saved._Saver, "_save_all", late):
            store.close()
        writing.join()
        self.assertEqual((refused, self.count()), ([f"{self.path}: write 1 is not saved: the file is closed"], 0))

    def test_close_that_fails(self):
        """If closing fails, the saving thread still ends, and nothing keeps the closed store alive."""
        others = self.threads()
        store = saved.open(self.path, 64, every=3600)
        store.new_node()
        saving, saver = self.threads() - others, weakref.ref(store._saver)
        with mock.patch.object(File, "append", side_effect=saved.DiskFull(self.path)), self.assertRaises(saved.Stopped):
            store.close()
        saving.pop().join(PATIENCE)
        self.assertLessEqual(self.threads(), others)
        del store
        gc.collect()
        self.assertIsNone(saver())

    def threads(self):
        return {it for it in threading.enumerate() if it.name == "bestore-saving"}

    def test_saving_that_ends(self):
        """After an error, the saving thread ends and writes are refused."""
        with self.stopping(4096, every=0) as store:
            with mock.patch.object(saved._Saver, "_save_all", side_effect=bestore.NoMemory()):
                with self.assertRaises(saved.Stopped) as stopped:
                    while True:
                        store.new_node()
            self.assertIsInstance(stopped.exception.__cause__, bestore.NoMemory)
            self.assertRaises(saved.Stopped, store.flush)

    def test_many_in_one_commit(self):
        with mock.patch.object(saved, "_MOST_ROWS", 7), saved.open(self.path, 64, every=3600) as store:
            for _ in range(50):
                store.new_node()
        self.assertEqual(self.count(), 50)

    def test_left_open(self):
        """A dropped store is closed, and so is one that is still open when Python exits."""
        saved.open(self.path, 64, every=3600).new_node()
        for _ in range(2000):
            try:
                self.assertEqual(self.count(), 1)
                break
            except saved.Held:
                time.sleep(0.005)
        self.assertEqual(self.ended(run("end_without_close", self.path)), (3, []))
        self.assertEqual(self.count(), 4)


if __name__ == "__main__":
    unittest.main()
