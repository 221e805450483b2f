"""Tests of saved stores in several processes: killed and forked ones, and one that is written in Rust."""

import glob
import os
import random
import resource
import signal
import subprocess
import sys
import threading
import time
import unittest
import warnings
from contextlib import suppress

import bestore
from bestore import saved
from bestore._library import _path
from saved_files import HERE, PATIENCE, Files, run, say, sql, three

WRITERS, ROUNDS = 3, 6  # for the processes that are killed
OPENERS, OPENINGS = 4, 40  # for the processes that open a file at the same moment
SOON = 0.005  # seconds until that moment


def write_for_ever(path, round_number):
    """Writes from several threads, prints each write once its call has returned, and rewrites the state now and then."""
    store = saved.open(path)

    def write(user, writer):
        count = 0
        while True:
            def file(change):
                node, key = change.new(), f"{round_number}-{writer}-{count}"
                change[node].update({"key": key, "node": node})
                return key
            say(user.change(file))
            count += 1
    for writer in range(WRITERS):
        threading.Thread(target=write, args=(store.another(), writer), daemon=True).start()
    while True:
        time.sleep(0.007)
        store.compact()


def hold(path):
    """Writes ten nodes, flushes, and waits to be killed."""
    store = saved.open(path, every=3600)
    store.new_nodes(10)
    store.flush()
    store.new_node()
    say("flushed")
    time.sleep(60)


def open_when_told():
    """Each line gives a moment and a file. Opens the file at that moment, prints whether that succeeded, and closes the file at the
    next line."""
    for line in iter(sys.stdin.readline, ""):
        moment, path = line.rstrip("\n").split(" ", 1)
        store = None
        while time.monotonic() < float(moment):
            pass  # a process that sleeps would wake too late
        with suppress(saved.Held):
            store = saved.open(path, 64)
        say("held" if store is None else "open")
        sys.stdin.readline()
        if store is not None:
            store.close()
        say("closed")


def write_within(path, size):
    """Opens the file, prints its nodes, and writes, while files may have only this many bytes."""
    signal.signal(signal.SIGXFSZ, signal.SIG_IGN)
    resource.setrlimit(resource.RLIMIT_FSIZE, (int(size), resource.getrlimit(resource.RLIMIT_FSIZE)[1]))
    with suppress(saved.NotSaved), saved.open(path, 64) as store:
        with store.pin() as version:
            say(str(version.nodes()))
        try:
            store.new_node()
        except saved.NotSaved as error:
            say(error.reason)
            raise


def write_in_writes(folder):
    """Writes at each place of a write that is saved later, one place after another, and prints how many there were."""
    place, is_reached = -1, True
    while is_reached:
        place += 1
        with saved.open(os.path.join(folder, str(place)), 64, every=3600) as store, store.another() as other:
            is_reached = writes_in(other, store, place)
    say(str(place))


def writes_in(other, store, place):
    """Writes through `store`, and through `other` when that write reaches a place in these files, as a signal handler may. Returns
    whether it did."""
    left, files = [place], {saved.__file__, threading.__file__}

    def trace(frame, *_):
        if frame.f_code.co_filename in files:
            left[0] -= 1
            if left[0] == -1:
                other.new_node()
        return trace
    sys.settrace(trace)
    try:
        store.new_node()
    finally:
        sys.settrace(None)
    return left[0] < 0


def end_without_close(path):
    """Ends with an exception while a store is open."""
    store = saved.open(path, every=3600)
    store.new_nodes(3)
    sys.modules["kept till the end"] = store
    sys.exit(3)


def fork_and_write(path, every):
    """Forks, lets the child exit as Python does, and then writes."""
    warnings.simplefilter("ignore")  # Python 3.12 and later warn about forking beside threads
    store = saved.open(path, 64, every=float(every) or None)
    store.new_node()
    store.flush()
    child = os.fork()
    if child == 0:
        say("the child")
        return
    os.waitpid(child, 0)
    store.new_node()
    store.flush()
    assert os.path.exists(path + "-wal")
    say("the parent")
    store.close()


class Processes(Files):
    def killed(self, round_number):
        """Starts a process that writes, kills it at a random moment, and returns the keys of the writes whose calls had returned."""
        child = run("write_for_ever", self.path, round_number)
        keys = [child.stdout.readline().strip()]
        self.assertIsInstance(self.refusal(), saved.Held)
        time.sleep(random.random() * 0.06)
        child.kill()
        return keys + self.ended(child)[1]

    def keys(self):
        # As many pages as the killed process has: on a busy machine, it makes thousands of writes.
        with saved.open(self.path) as store, store.pin() as version:
            attributes = {node: version.attributes(node) for node in version}
        self.assertTrue(all(it["node"] == node for node, it in attributes.items()))
        return sorted(it["key"] for it in attributes.values())

    def test_killed(self):
        returned = set()
        for round_number in range(ROUNDS):
            returned.update(self.killed(round_number))
            keys = self.keys()
            self.assertEqual(len(keys), len(set(keys)))
            self.assertEqual(returned - set(keys), set())
            self.assertLessEqual(len(keys) - len(returned), WRITERS * (round_number + 1))

    def test_held_and_flushed(self):
        child = run("hold", self.path)
        self.assertEqual(child.stdout.readline(), "flushed\n")
        held = self.refusal()
        self.assertEqual((type(held), str(held)), (saved.Held, f"{self.path}: the file is open in another process or store; close it there first"))
        child.kill()
        self.assertEqual(self.ended(child), (-signal.SIGKILL, []))
        with saved.open(self.path, 64) as store, store.pin() as version:
            self.assertEqual(version.nodes(), list(range(1, 11)))

    def test_writes_of_signal_handlers(self):
        """A signal handler may write at any moment of a write that is saved later."""
        child = run("write_in_writes", self.folder)
        late = threading.Timer(PATIENCE, child.kill)
        late.start()
        code, said = self.ended(child)
        late.cancel()
        self.assertEqual((code, len(said)), (0, 1))
        self.assertGreater(int(said[0]), 0)

    def test_at_the_same_moment(self):
        """One of the processes that open a closed file at the same moment gets it, whether the file is new or not."""
        three(self.path)
        children = [run("open_when_told", stdin=subprocess.PIPE) for _ in range(OPENERS)]

        def tell(line):
            for child in children:
                child.stdin.write(f"{line}\n")
                child.stdin.flush()
            return sorted(child.stdout.readline().strip() for child in children)
        found = []
        for opening in range(OPENINGS):
            path = self.path if opening % 2 else f"{self.path}{opening}"
            found.append(tell(f"{time.monotonic() + SOON} {path}"))
            self.assertEqual(tell("close"), ["closed"] * OPENERS)
        for child in children:
            child.stdin.close()
            self.assertEqual(self.ended(child), (0, []))
        self.assertEqual(found, [["held"] * (OPENERS - 1) + ["open"]] * OPENINGS)

    def test_rust(self):
        """The Rust crate's test program opens a file that Python created, and then Python opens it again."""
        target = os.environ.get("CARGO_TARGET_DIR", os.path.join(HERE, "..", "rust", "target"))
        built = [it for it in glob.glob(os.path.join(target, "debug", "deps", "saved-*")) if os.access(it, os.X_OK)]
        there = {**os.environ, "LD_LIBRARY_PATH": os.path.dirname(_path())}
        built = [it for it in built if b"in_a_child" in subprocess.check_output([it, "--list"], env=there)]
        if not built:
            self.skip("the tests of the crate for Rust aren't built: see rust/test.sh")
        three(self.path)
        with saved.open(self.path, 64) as store:
            store.remove_node(2)
            store.apply(bestore.Batch().set(1, "é", "ü").set(1, "raw", b"\0\xff").set(3, "n", bestore.UInt64(2**64 - 1)))
            store.apply(bestore.Batch().set(1, "late", 5).make_index("late", bestore.INT64).set(3, "late", 6))
            store.compact()  # so that Rust builds the store from the listing that Python wrote
            store.unset(3, "n")
            with store.pin() as version:
                before = {node: version.attributes(node, kinds=True) for node in version}
        child = subprocess.Popen(
            [max(built, key=os.path.getmtime), "--exact", "in_a_child", "--nocapture", "--test-threads=1"],
            env={**there, "BESTORE_TEST_CHILD": f"flush 0 {self.path}"},
            stdout=subprocess.PIPE, universal_newlines=True)
        self.assertIn("flushed\n", iter(child.stdout.readline, ""))
        child.kill()
        self.ended(child)
        with saved.open(self.path, 64) as store, store.pin() as version:
            after = {node: version.attributes(node, kinds=True) for node in version}
            self.assertEqual((version.query("size>0"), version.query("late>0")), ([1, 3], [3]))
        self.assertEqual(sql(self.path, "PRAGMA user_version"), [(3,)])
        self.assertEqual(after, {**before, **dict.fromkeys(range(4, 104), {})})


@unittest.skipUnless(hasattr(os, "fork"), "there is no fork")
class Forks(Files):
    def test_dead(self):
        """The child's handles are dead, and closing them leaves the file to the parent. The child can save a store in its own file."""
        with saved.open(self.path, 64) as store:
            node, other = store.new_node(), store.another()
            with warnings.catch_warnings():
                warnings.simplefilter("ignore")  # Python 3.12 and later warn about forking beside threads
                child = os.fork()
            if child == 0:
                self.in_child(store, other)
            self.assertEqual(os.WEXITSTATUS(os.waitpid(child, 0)[1]), 7)
            self.assertEqual(other.new_node(), node + 1)
        with saved.open(self.path, 64) as store, store.pin() as version:
            self.assertEqual(version.nodes(), [node, node + 1])

    def in_child(self, *stores):
        ended = 1
        try:
            for store in stores:
                for use in (store.new_node, store.flush, store.compact, store.another, store.pin):
                    with self.assertRaises(bestore.Forked):
                        use()
                with store:
                    pass
            self.assertIsInstance(self.refusal(), saved.Held)
            with saved.open(self.path + "2", 64) as own:
                own.new_node()
            ended = 7
        finally:
            os._exit(ended)

    def test_end_of_the_child(self):
        """When Python exits in the child and runs all destructors, the file still belongs to the parent."""
        for every in (0, 3600):
            with self.subTest(every):
                path = f"{self.path}{every}"
                self.assertEqual(self.ended(run("fork_and_write", path, every)), (0, ["the child", "the parent"]))
                with saved.open(path, 64) as store, store.pin() as version:
                    self.assertEqual(version.nodes(), [1, 2])


if __name__ == "__main__":
    unittest.main()
