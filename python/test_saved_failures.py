"""Tests of saved stores whose files are refused, and of commits that fail or are interrupted."""

import os
import pickle
import shutil
import signal
import sqlite3
import subprocess
import sys
import threading
import time
import unittest
from contextlib import contextmanager
from unittest import mock

import bestore
from bestore import local, saved
from bestore._saved_errors import is_of_writing, of_sqlite
from bestore._saved_file import File
from bestore._saved_line import Line, Turn
from saved_files import Files, run, sql, three, to_format


def four_writers(store):
    """Returns threads that create nodes until one isn't saved, each with a pass of its own, and the list that receives their errors."""
    refused = []

    def write(user):
        try:
            while True:
                user.new_node()
        except (saved.NotSaved, saved.Stopped) as error:
            refused.append(error)
    return [threading.Thread(target=write, args=(store.another(),)) for _ in range(4)], refused


class Refused(Files):
    def test_foreign(self):
        text, other = os.path.join(self.folder, "text"), os.path.join(self.folder, "other")
        with open(text, "w") as file:
            file.write("not a database, but long enough to be looked at as one\n" * 20)
        sql(other, "CREATE TABLE mine (a)", "INSERT INTO mine VALUES (1)")
        for path in (text, other):
            with open(path, "rb") as file:
                before = file.read()
            refused = self.refusal(path)
            self.assertIsInstance(refused, saved.Foreign)
            self.assertEqual((refused.path, str(refused)), (path, f"{path}: the file belongs to another program; name another one"))
            with open(path, "rb") as file:
                self.assertEqual(file.read(), before)

    def test_newer(self):
        three(self.path)
        sql(self.path, "PRAGMA user_version = 7")
        newer = self.refusal()
        self.assertEqual((type(newer), newer.path, newer.version, newer.known), (saved.Newer, self.path, 7, 3))

    def test_no_file(self):
        for path in (os.path.join(self.folder, "missing", "file"), self.folder):
            refused = self.refusal(path)
            self.assertEqual((type(refused), refused.path), (saved.SqliteError, path))
            self.assertIn("unable to open", str(refused))
        missing = self.refusal(os.path.join(self.folder, "missing", "file"))
        self.assertTrue(str(missing).endswith("unable to open database file: No such file or directory"), missing)

    def test_read_only(self):
        three(self.path)
        os.chmod(self.path, 0o444)
        os.chmod(self.folder, 0o755)
        own = os.geteuid()
        os.seteuid(own or 65534)  # root may write every file
        try:
            refused = self.refusal()
        finally:
            os.seteuid(own)
        self.assertTrue(str(refused).endswith("unable to open database file: Permission denied"), refused)

    def test_held_for_a_moment(self):
        """A held file is tried again after a pause. Each try closes what it opened."""
        three(self.path)
        holder, pauses = saved.open(self.path, 64), []

        def pause(seconds):
            pauses.append(seconds)
            if len(pauses) == 6:
                holder.close()
        with mock.patch("time.sleep", pause), saved.open(self.path, 64) as store:
            self.assertIsInstance(self.refusal(), saved.Held)
            self.assertEqual(len(pauses), 12)
            self.assertTrue(0 <= min(pauses) <= max(pauses) <= 0.04, pauses)
            store.new_node()
        saved.open(self.path, 64).close()

    def test_names(self):
        """SQLite doesn't treat these names as plain file names."""
        before = os.getcwd()
        os.chdir(self.folder)
        try:
            with saved.open(":memory:", 64) as store:
                store.new_node()
            self.assertEqual(os.listdir(), [":memory:"])
        finally:
            os.chdir(before)

    def test_differs(self):
        made = "UPDATE entry SET batch = CAST(substr(batch, 1, 6) || x'09' || substr(batch, 8) AS BLOB) WHERE number = 3"
        for change, entry, batch, reason in [
            (made, 3, None, "different nodes"), ("DELETE FROM entry WHERE number = 2", 2, None, "missing"),
            ("UPDATE entry SET batch = substr(batch, 1, 9) WHERE number = 4", 4, None, "cut off"),
            ("UPDATE entry SET batch = 'text' WHERE number = 4", 4, None, "the beginning is cut off"),
            ("UPDATE entry SET batch = 5 WHERE number = 1", 1, None, "the beginning is cut off"),
            ("INSERT INTO entry SELECT 5, pass, batch FROM entry WHERE number = 1", 5, None, "there is already an index of this name"),
            ("INSERT INTO state VALUES (0, x'00')", None, 0, "don't begin with BEB"),
            ("UPDATE about SET number = 5 WHERE what = 'next'", None, None, "next node"),
            ("UPDATE about SET number = -1 WHERE what = 'entries'", None, None, "doesn't say"),
            ("UPDATE about SET number = 'x' WHERE what = 'next'", None, None, "doesn't say"),
            ("DELETE FROM about", None, None, "doesn't say"),
        ]:
            with self.subTest(change):
                three(self.path)
                to_format(self.path, 1)
                sql(self.path, change)
                differs = self.refusal()
                self.assertEqual(
                    (type(differs), differs.path, differs.entry, differs.batch), (saved.Differs, self.path, entry, batch))
                self.assertIn(reason, str(differs))
                sql(self.path, "PRAGMA locking_mode = EXCLUSIVE", "BEGIN EXCLUSIVE")
                os.unlink(self.path)

    def test_too_large(self):
        three(self.path)
        small = self.refusal(commits=3)
        self.assertEqual((type(small), small.entry), (saved.TooLarge, 4))
        self.assertIsInstance(small.__cause__, bestore.CommitsSpent)

    def test_too_few_pages(self):
        """A full store opens again with as many pages, but not with much fewer."""
        with saved.open(self.path, 64, every=3600) as store, self.assertRaises(bestore.Full):
            store.make_index("size", bestore.INT64)
            while True:
                node = store.new_node()
                store.apply(bestore.Batch().set(node, "size", node * 7919 % 1000).set(node, "name", f"file number {node}"))
        for _ in range(2):
            small = self.refusal(pages=32)
            self.assertEqual((type(small), type(small.__cause__)), (saved.TooLarge, bestore.Full))
            self.assertTrue(str(small).endswith("the file needs more pages than the store has; open it with more"))
            with saved.open(self.path, 64) as store, store.pin() as version:
                self.assertGreater(len(version.query("size>=0")), 100)

    def test_errors_of_older_pythons(self):
        """Before Python 3.11, an SQLite error has only a message."""
        for message, kind in [
            ("database is locked", saved.Held), ("database or disk is full", saved.DiskFull),
            ("file is not a database", saved.Foreign), ("disk I/O error", saved.SqliteError),
            ("database disk image is malformed", saved.Damaged),
        ]:
            self.assertIs(type(of_sqlite("path", sqlite3.OperationalError(message))), kind)


class Failures(Files):
    @contextmanager
    def broken(self, error, after=0):
        """Makes every commit fail after this many have succeeded."""
        append, left = File.append, [after]

        def break_off(file, rows):
            left[0] -= 1
            if left[0] < 0:
                raise error
            append(file, rows)
        with mock.patch.object(File, "append", break_off):
            yield

    def test_stopped(self):
        with self.assertRaises(saved.NotSaved) as refused, saved.open(self.path, 64) as store:
            other = store.another()
            store.new_node()
            with self.broken(saved.DiskFull(self.path)):
                store.new_node()
        self.assertEqual((refused.exception.path, refused.exception.number), (self.path, 2))
        self.assertIsInstance(refused.exception.__cause__, saved.DiskFull)
        self.assertEqual(str(refused.exception), f"{self.path}: write 2 is not saved: the disk is full")
        with other.pin() as version:
            self.assertEqual(version.nodes(), [1, 2])
        with self.assertRaises(saved.Stopped) as stopped:
            other.new_node()
        self.assertIs(stopped.exception.__cause__, refused.exception.__cause__)
        self.assertEqual(str(stopped.exception), f"{self.path}: saving has failed: the disk is full")
        with saved.open(self.path, 64) as store, store.pin() as version:
            self.assertEqual(version.nodes(), [1])

    def test_pickled(self):
        """An error that comes from another process still says what went wrong, though pickling loses its `__cause__`."""
        errors = []
        with self.assertRaises(saved.NotSaved) as refused, saved.open(self.path, 64) as store:
            other = store.another()
            with self.broken(saved.DiskFull(self.path)):
                store.new_node()
        errors.append(refused.exception)
        with self.assertRaises(saved.Stopped) as stopped:
            other.new_node()
        errors += [stopped.exception, saved.Stopped(self.path), self.refusal(self.folder)]
        for error in errors:
            again = pickle.loads(pickle.dumps(error))
            again.__cause__ = RuntimeError("Traceback of the other process")  # as concurrent.futures sets it
            self.assertEqual((type(again), str(again), again.args), (type(error), str(error), error.args))

    def test_wakes(self):
        """A write that isn't saved wakes the threads that wait for writes, because snapshots show it."""
        found, limit = [], 10
        with self.stopping() as store:
            for write in store.new_node, lambda: store.change(lambda change: change.new()):
                with store.another() as other, other.watch() as watch:
                    waiting = threading.Thread(target=lambda: found.append(watch.wait(limit)))
                    waiting.start()
                    while not store._store._waiting:
                        time.sleep(0.001)
                    begun = time.monotonic()
                    with mock.patch.object(store._saver, "keep", side_effect=saved.NotSaved(self.path, 1, "why")):
                        self.assertRaises(saved.NotSaved, write)
                    waiting.join()
                    self.assertLess(time.monotonic() - begun, limit)
            with self.broken(saved.DiskFull(self.path)):
                self.assertRaises(saved.Stopped, store.flush)
        self.assertEqual(found, [([], [])] * 2)

    def test_each_that_waits(self):
        with self.stopping() as store:
            with self.broken(saved.DiskFull(self.path), 10):
                running, refused = four_writers(store)
                for thread in running:
                    thread.start()
                for thread in running:
                    thread.join()
            made, causes = store.status().entries, {type(error.__cause__) for error in refused}
            self.assertEqual((len(refused), causes), (4, {saved.DiskFull}))
            with self.assertRaises(saved.Stopped):
                store.flush()
            self.assertEqual(store.status().entries, made)
        self.assertEqual(len(sql(self.path, "SELECT number FROM entry")), store._saver._line.saved)

    def test_interrupted(self):
        """If a write is interrupted while it waits, the next write saves it, unless it is already in the file."""
        for after in (False, True):
            append = File.append

            def interrupted(file, rows):
                if after:
                    append(file, rows)
                raise KeyboardInterrupt
            with saved.open(self.path, 64) as store:
                with mock.patch.object(File, "append", interrupted), self.assertRaises(KeyboardInterrupt):
                    store.new_node()
                store.new_node()
        with saved.open(self.path, 64) as store, store.pin() as version:
            self.assertEqual((version.nodes(), store.number_in_file(version.number)), ([1, 2, 3, 4], 4))

    def test_signal(self):
        """A signal handler can't use the file while the call that it interrupted has the file. Whatever the handler raises, that
        write and the handler's are saved by the next commit."""
        append, used = File.append, []
        with saved.open(self.path, 64) as store, store.another() as other:
            def use(*_):
                for call in (other.new_node, store.flush, store.compact):
                    with self.assertRaisesRegex(RuntimeError, "such as by a signal handler"):
                        call()
                    used.append(call)
                raise TimeoutError

            def interrupted(file, rows):
                if not used:
                    signal.raise_signal(signal.SIGUSR1)
                append(file, rows)
            self.addCleanup(signal.signal, signal.SIGUSR1, signal.signal(signal.SIGUSR1, use))
            with mock.patch.object(File, "append", interrupted), self.assertRaises(TimeoutError):
                store.new_node()
            self.assertEqual((len(used), store.new_node()), (3, 3))
        with saved.open(self.path, 64) as store, store.pin() as version:
            self.assertEqual((version.nodes(), store.number_in_file(version.number)), ([1, 2, 3], 3))

    def test_signal_in_the_queue(self):
        """A thread that waits for its turn, or is in one of the queue's calls, can't wait for another turn."""
        line, owner, queued = Line(0), Turn(1), Turn(2)
        with line._mutex, line._changing:
            self.refuse(line, Turn(3))
        taking = threading.Thread(target=line.take, args=(owner,))
        taking.start()
        taking.join()
        queued.prepare()
        queued.thread = threading.get_ident()
        line._writers.append(queued)
        self.refuse(line, Turn(3))
        line.leave(owner)
        self.assertIs(line._owner, queued)
        self.refuse(line, Turn(3))
        line.leave(queued)
        self.assertEqual((line._owner, line._writers), (None, []))

    def refuse(self, line, turn):
        self.assertRaises(RuntimeError, line.take, turn)
        line.leave(turn)

    def test_interrupted_transaction(self):
        """If a transaction's rollback was interrupted, the next write rolls it back."""
        with saved.open(self.path, 64) as store:
            store._saver._file._run("BEGIN")
            store._saver._file._run("INSERT INTO entry VALUES (1, 1, x'00', 0)")
            store.new_node()
        with saved.open(self.path, 64) as store, store.pin() as version:
            self.assertEqual(version.nodes(), [1])

    def test_each_of_one_commit(self):
        """No write counts as saved before a commit of several rows. If it fails, each of its writers gets an error, and none
        hangs."""
        commits = []

        def fail(_, rows):
            commits.append((store._saver._line.saved, len(rows)))
            raise saved.DiskFull(self.path)
        with self.stopping() as store:
            running, refused = four_writers(store)
            with mock.patch.object(File, "append", fail):
                with store._saver._line.turn():
                    for thread in running:
                        thread.start()
                    while len(store._saver._handed_in) < 4:
                        time.sleep(0.001)
                for thread in running:
                    thread.join()
            self.assertEqual({type(error) for error in refused}, {saved.NotSaved})
            found = sorted((error.number, type(error.__cause__)) for error in refused)
            self.assertEqual(found, [(number, saved.DiskFull) for number in range(1, 5)])
        self.assertEqual(commits, [(0, 4)])
        self.assertEqual(sql(self.path, "SELECT count(*) FROM entry"), [(0,)])

    def test_interrupted_before_it_is_handed_in(self):
        """An interrupt after a write, before its row is handed in, leaves no gap: the next commit reads the entry from the journal."""
        with saved.open(self.path, 64) as store:
            store.new_node()
            with mock.patch.object(saved._Saver, "keep", side_effect=KeyboardInterrupt), self.assertRaises(KeyboardInterrupt):
                store.apply(bestore.Batch().new_node().set(1, "k", "é"))
            with store.another() as other:
                other.new_node()
                numbers = store.number, other.number
            self.assertEqual(store._saver._handed_in, {})
        self.assertEqual(
            sql(self.path, "SELECT number, pass FROM entry"), [(1, numbers[0]), (2, numbers[0]), (3, numbers[1])])
        with saved.open(self.path, 64) as store, store.pin() as version:
            self.assertEqual((version.nodes(), version.attributes(1)), ([1, 2, 3], {"k": "é"}))

    def test_interrupted_wait(self):
        """An interrupted writer leaves the queue intact, even if it was given the file meanwhile."""
        for has_file in (False, True):
            line = Line(0)
            owner, gone, last = Turn(1), Turn(2), Turn(3)
            line.take(owner)
            for turn in (gone, last):
                waiting = threading.Thread(target=line.take, args=(turn,), daemon=True)
                waiting.start()
                while turn not in line._writers:
                    time.sleep(0.001)
            line.saved = 1
            for turn in (owner, gone) if has_file else (gone, owner):
                line.leave(turn)
            waiting.join()
            self.assertIs(line._owner, last)
            line.leave(last)
            self.assertEqual((line._owner, line._writers), (None, []))

    def test_compact(self):
        """If a state can't be written, the file is unchanged."""
        with saved.open(self.path, 64) as store:
            store.new_nodes(3)
            with mock.patch.object(local.LocalVersion, "_listing_from", side_effect=saved.DiskFull(self.path)):
                with self.assertRaises(saved.DiskFull):
                    store.compact()
            store.new_node()
        self.assertEqual(sql(self.path, "SELECT count(*) FROM state UNION ALL SELECT number FROM entry"), [(0,), (1,), (2,)])

    def test_full_disk(self):
        options = ["mount", "-t", "tmpfs", "-o", "size=256k", "tmpfs", self.folder]
        if shutil.which("mount") is None or subprocess.run(options, stderr=subprocess.DEVNULL).returncode != 0:
            self.skip("no file system can be mounted")
        self.addCleanup(subprocess.run, ["umount", self.folder])
        store, count = saved.open(self.path, 64), 0
        other, value = store.another(), bytes(255)
        node = store.new_node()
        with self.assertRaises(saved.NotSaved) as refused, store:
            while True:
                store.apply(bestore.Batch().set(node, "count", count + 1).set(node, "value", value))
                count += 1
        self.assertEqual((type(refused.exception.__cause__), count > 0), (saved.DiskFull, True))
        with other.pin() as version:
            self.assertEqual(version.get(node, "count"), count + 1)
        with saved.open(self.path, 64) as store, store.pin() as version:
            kept = version.get(node, "count")
        self.assertIn(kept, (count, count + 1))
        subprocess.run(["mount", "-o", "remount,size=4m", self.folder], check=True)
        with saved.open(self.path, 64) as store, store.pin() as version:
            self.assertEqual(version.get(node, "count"), kept)
            store.new_node()

    @unittest.skipIf(sys.version_info < (3, 11), "an SQLite error has no code")
    def test_file_that_may_not_grow(self):
        """SQLite reports it like a broken disk. The file can be opened, and the next write reports the error."""
        three(self.path)
        self.assertEqual(self.ended(run("write_within", self.path, 4096)), (0, ["[1, 2, 3]", "disk I/O error"]))
        with saved.open(self.path, 64) as store, store.pin() as version:
            self.assertEqual(version.nodes(), [1, 2, 3])
            store.new_node()

    def test_of_writing(self):
        for code, expected in [(778, True), (1034, True), (266, False), (10, False), (None, False)]:
            error = sqlite3.OperationalError("disk I/O error")
            if code is not None:
                error.sqlite_errorcode = code
            refused = of_sqlite("path", error)
            refused.__cause__ = error
            self.assertIs(is_of_writing(refused), expected)
        self.assertIs(is_of_writing(saved.DiskFull("path")), True)


if __name__ == "__main__":
    unittest.main()
