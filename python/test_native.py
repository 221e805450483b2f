"""Tests of the extension: columns, arguments, and threads that share a handle."""

import copy
import ctypes
import gc
import inspect
import os
import pickle
import signal
import subprocess
import sys
import threading
import unittest

import bestore
import bestore._library  # loaded when a store opens in this process
from busy_passes import used_by_a_thread

try:
    import _testcapi
except ImportError:
    _testcapi = None


def fill(store, first, last):
    """Creates nodes for this range of numbers, each with its number, which is indexed, and a string."""
    for begin in range(first, last + 1, 20):
        batch = bestore.Batch()
        for node in range(begin, min(begin + 20, last + 1)):
            batch.new_node().set(node, "k", node).set(node, "name", f"node {node}")
        store.apply(batch)


def filled(store, nodes):
    """Creates an index and this many nodes."""
    store.make_index("k", bestore.INT64)
    fill(store, 1, nodes)


class Columns(unittest.TestCase):
    def test_values(self):
        values = {"s": "ä", "r": b"\0\xff", "i": bestore.Int32(-1), "l": -2**63, "u": bestore.UInt64(2**64 - 1)}
        with bestore.open(64, 1, 100) as store:
            store.new_nodes(2)
            for name, value in values.items():
                store.set(2, name, value)
            with store.pin() as version:
                for name, value in values.items():
                    self.assertEqual(version.column([1, 2, 3, 2**64, -1], name), [None, value, None, None, None])
                    self.assertEqual(version.column((it for it in [2]), name=name), [value])
                self.assertEqual(version.column([], "s"), [])
                with self.assertRaises(bestore.NameLength):
                    version.column([2], "")
                for nodes, name in [(5, "s"), (["2"], "s"), ([2], b"s"), ([None], "s")]:
                    with self.assertRaises(TypeError):
                        version.column(nodes, name)
            with self.assertRaises(bestore.NotPinned):
                version.column([2], "s")

    def test_long(self):
        with bestore.open(4096, 1) as store:
            filled(store, 3000)
            with store.pin() as version:
                for count in (31, 32, 33, 1024, 1025, 3000):
                    nodes = list(range(count, 0, -1))
                    self.assertEqual(version.column(nodes, "name"), [version.get(node, "name") for node in nodes])
                self.assertEqual(version.column(list(range(1, 3001)) * 3, "k"), list(range(1, 3001)) * 3)

    def test_many_names(self):
        with bestore.open(4096, 1) as store:
            filled(store, 1500)
            with store.pin() as version:
                for count, names in [
                    (0, ["k"]), (3, []), (7, ["k", "name", "none"]), (1, ["k"] * 40), (1500, ["k", "name"]), (2, ["k"] * 5000),
                    (300, ("name", "k", "k")),
                ]:
                    nodes = list(range(1, count + 1))
                    self.assertEqual(version.columns(nodes, names), [version.column(nodes, name) for name in names])
                self.assertEqual(version.columns(iter([1]), names=iter(["k"])), [[1]])
                for names, error in [(["k", 5], TypeError), (5, TypeError), (["k", ""], bestore.NameLength)]:
                    with self.assertRaises(error):
                        version.columns([1], names)
            self.assertEqual(store.change(lambda change: change.columns([1, 2], ["k", "none"])), [[1, 2], [None, None]])

    def test_more_bytes_than_room(self):
        with bestore.open(1024, 1) as store:
            nodes = list(store.new_nodes(64))
            values = {node: chr(ord("a") + node % 26) * (255 - node % 3) for node in nodes}
            for node in nodes[1:]:
                store.set(node, "long", values[node])
                store.set(node, "raw", values[node].encode()[::2])
            with store.pin() as version:
                found = version.columns(nodes, ["raw", "none", "long"])
                self.assertEqual(found[2], [None] + [values[node] for node in nodes[1:]])
                self.assertEqual(found[0], [None] + [values[node].encode()[::2] for node in nodes[1:]])
                self.assertEqual(found[1], [None] * len(nodes))

    def test_equal_strings(self):
        """Equal strings may be one object, and are never mixed up with other values."""
        values = [("a", "b"), ("a", b"a"), ("", ""), ("ab", "a"), ("b", b""), ("x" * 24, "x" * 25), ("x" * 24, "x" * 25), ("ä", b"\0")]
        with bestore.open(256, 1) as store:
            for node in store.new_nodes(200):
                for name, value in zip("sr", values[node % len(values)]):
                    store.set(node, name, value)
                store.set(node, "t", f"{node}")
            with store.pin() as version:
                rows = [[*values[node % len(values)], f"{node}"] for node in range(1, 201)]
                self.assertEqual(version.columns(range(1, 201), "srt"), [list(column) for column in zip(*rows)])
                store.make_index("t", bestore.STRING)
            store.reindex("t")
            with store.pin() as version:
                self.assertEqual(version.rows('t=="*"', "srt"), list(enumerate(rows, 1)))

    def test_in_a_change(self):
        with bestore.open(64, 1, 100) as store:
            store.new_nodes(3)
            store.set(2, "k", 2)
            store.set(3, "k", 3)

            def change(it):
                node = it.new()
                it[node]["k"] = 5
                it.set(1, "k", 1)
                it.unset(2, "k")
                return it.column([1, 2, 3, node, 9], "k")
            self.assertEqual(store.change(change), [1, None, 3, 5, None])

            def remove(it):
                it.remove(1)
                it[3]["k"] = 7
                return it.columns([1, 3, 3], ["k", "none"]), it.rows("k>=1", ["k"])
            store.make_index("k", bestore.INT64)
            store.set(3, "k", 3)
            self.assertEqual(store.change(remove), ([[None, 7, 7], [None] * 3], [(3, [7])]))


class Arguments(unittest.TestCase):
    def test_names(self):
        with bestore.open(64, 1, 100) as store:
            store.apply(bestore.Batch().new_node().set(node=1, name="k", value=5, kind=bestore.INT32))
            with store.pin() as version:
                self.assertEqual(version.get(node=1, name="k"), 5)
                with bestore.prepare("k == 1") as query:
                    for call in (
                        lambda: version.query(text="k == 1"), lambda: version.query_prepared(prepared=query),
                        lambda: version.count(query=query), lambda: version.refresh(prepared=query),
                    ):
                        with self.assertRaises(bestore.NotCovered):
                            call()
                self.assertEqual(str(inspect.signature(version.get)), "(node, name)")
                self.assertEqual(version.typed(1, name="k"), (5, bestore.INT32))
                self.assertIs(type(version.typed(1, "k")), bestore.Typed)
                for wrong in (
                    lambda: version.get(1), lambda: version.get(1, "k", 2), lambda: version.get(1, "k", name="k"),
                    lambda: version.get(1, "k", other=1), lambda: version.get("1", "k"), lambda: version.get(1, 5),
                    lambda: version.query(5), lambda: version.count(5), lambda: version.query_prepared(store),
                    lambda: version.query("k == 1", "k"), lambda: version.query(by="k"), lambda: version.query("k == 1", text="k"),
                    lambda: version.query("k == 1", by="k", other=1), lambda: version.query_prepared(query, None, by="k"),
                    lambda: version.refresh(store), lambda: version.query_prepared("k==1"), lambda: store.apply(5),
                    lambda: bestore.Version(5), lambda: version.__init__(store), lambda: bestore.Batch(5),
                    lambda: bestore.Batch().set(1, "k"), lambda: bestore.Batch().set(1, "k", 1.5),
                ):
                    with self.assertRaises(TypeError):
                        wrong()
                self.assertEqual((version.get(2**64, "k"), version.get(-1, "k"), version.kind(0, "k")), (None, None, None))

    def test_copies_of_a_batch(self):
        batch = bestore.Batch().new_node().set(1, "k", "v").make_index("k", bestore.INT32)
        for made in (copy.copy(batch), copy.deepcopy(batch), pickle.loads(pickle.dumps(batch))):
            made.unset(2, "x")
            self.assertEqual((list(made)[:3], len(batch), len(made)), (list(batch), 3, 4))

    def test_batch_that_is_changed_at_once(self):
        """Two threads can add to a batch while a third writes it, without disturbing each other."""
        with bestore.open(256, 1) as store:
            batch, faults = bestore.Batch(), []

            def add():
                for _ in range(2000):
                    batch.set(1, "k", "x" * 50)

            def write():
                for _ in range(200):
                    try:
                        store.apply(batch)
                    except (bestore.BadCount, bestore.NoNode, bestore.Full):
                        continue
                    except Exception as error:
                        faults.append(error)
            running = [threading.Thread(target=it) for it in (add, add, write)]
            for thread in running:
                thread.start()
            for thread in running:
                thread.join()
            self.assertEqual((faults, len(batch)), ([], 4000))


class Queries(unittest.TestCase):
    def test_asked_once(self):
        """A query runs only once, however many nodes it finds."""
        addresses, rooms = bestore._library.addresses(), []
        kind = ctypes.CFUNCTYPE(
            ctypes.c_uint32, ctypes.c_void_p, ctypes.c_void_p, ctypes.c_void_p, ctypes.c_size_t, ctypes.c_void_p)
        ask = kind(addresses["bes_query_prepared"])

        def counted(user, prepared, nodes, room, count):
            rooms.append(room)
            return ask(user, prepared, nodes, room, count)
        call = kind(counted)
        with bestore.open(4096, 1) as store, bestore.prepare("k > 0") as query:
            filled(store, 1500)
            try:
                bestore._native.use({**addresses, "bes_query_prepared": ctypes.cast(call, ctypes.c_void_p).value})
                for many in (1500, 3500):
                    with store.pin() as version:
                        self.assertEqual(version.query_prepared(query), list(range(1, many + 1)))
                        self.assertEqual(version.query_prepared(query), list(range(1, many + 1)))
                    fill(store, many + 1, 3500)
            finally:
                bestore._native.use(addresses)
        self.assertEqual((len(rooms), [room >= many for room, many in zip(rooms, (1500, 1500, 3500, 3500))]), (4, [True] * 4))


class Guards(unittest.TestCase):
    def test_one_version_in_many_threads(self):
        """Threads read with and without the GIL while the pin ends."""
        with bestore.open(4096, 1) as store, bestore.prepare("k > 0") as query:
            filled(store, 2000)
            version, faults = store.pin(), []
            nodes = list(range(1, 2001))

            def read(number):
                try:
                    while True:
                        node = number % 2000 + 1
                        if version.get(node, "k") != node or version.query_prepared(query) != nodes:
                            faults.append("an answer is wrong")
                        if version.column(nodes, "k") != nodes or version.query(f"k == {node}") != [node]:
                            faults.append("an answer is wrong")
                        page = version.rows(query, ["k"], most=number % 400 + 1, by="k", descending=True)
                        if page != [(it, [it]) for it in range(2000, 1999 - number % 400, -1)]:
                            faults.append("a page is wrong")
                        number += 97
                except bestore.NotPinned:
                    pass
                except Exception as error:
                    faults.append(error)
            running = [threading.Thread(target=read, args=(it,)) for it in range(4)]
            for thread in running:
                thread.start()
            threading.Event().wait(0.2)
            version.unpin()
            for thread in running:
                thread.join(60)
            self.assertEqual((faults, [it for it in running if it.is_alive()]), ([], []))

    def test_page_while_another_thread_waits(self):
        """A page and its rows are read before a thread that waits for the pass can unpin it."""
        with bestore.open(4096, 1) as store, bestore.prepare("k > 0") as query:
            filled(store, 2000)
            for most in (3, 2000):
                for _ in range(20):
                    version = store.pin()
                    unpinning = threading.Thread(target=version.unpin)
                    with used_by_a_thread(store):
                        unpinning.start()
                    try:
                        page = version.rows(query, ["k", "name"], most=most, by="k")
                        self.assertEqual(page, [(node, [node, f"node {node}"]) for node in range(1, most + 1)])
                    except bestore.NotPinned:
                        pass
                    unpinning.join(60)
                    self.assertFalse(version._is_pinned)

    def test_closed_in_another_thread(self):
        for _ in range(20):
            store, faults = bestore.open(64, 1, 100), []
            store.new_node()
            version = store.pin()

            def read():
                while True:
                    try:
                        version.query("k == 1")
                    except bestore.NotCovered:
                        continue
                    except bestore.Closed:
                        return
                    except Exception as error:
                        faults.append(error)
                        return
            running = threading.Thread(target=read)
            running.start()
            store.close()
            running.join(60)
            self.assertEqual(faults, [])
            del version

    def test_interrupted_wait(self):
        """A signal interrupts the wait for a thread that is using the pass."""
        def interrupt(number, frame):
            raise KeyboardInterrupt
        with bestore.open(64, 1, 100) as store:
            with used_by_a_thread(store):
                before = signal.signal(signal.SIGALRM, interrupt)
                try:
                    signal.setitimer(signal.ITIMER_REAL, 0.05)
                    with self.assertRaises(KeyboardInterrupt):
                        store.new_node()
                finally:
                    signal.signal(signal.SIGALRM, before)
            self.assertEqual(store.new_node(), 1)

    def test_unpinned_while_nodes_are_read(self):
        with bestore.open(64, 1, 100) as store:
            store.new_node()
            version = store.pin()

            class Node:
                def __index__(self):
                    version.unpin()
                    return 1
            with self.assertRaises(bestore.NotPinned):
                version.column([1, Node(), 1], "k")

    def test_in_a_cycle(self):
        """A version that is referenced only by a cycle is unpinned when the cycle is collected."""
        with bestore.open(64, 1, 100) as store:
            holder = [store.pin()]
            holder.append(holder)
            del holder
            gc.collect()
            self.assertIsNone(store.status().oldest)
            store.new_node()
        store = bestore.open(64, 1, 100)
        store.version = store.pin()
        del store
        gc.collect()


class Memory(unittest.TestCase):
    def test_refused(self):
        program = """
import bestore, resource
with bestore.open(64, 1, 100) as store:
    store.apply(bestore.Batch().new_node().set(1, "k", 5))
    with store.pin() as version:
        resource.setrlimit(resource.RLIMIT_AS, (2 << 30, resource.RLIM_INFINITY))
        for call in (lambda: version._nodes_from(0, 2**30), lambda: version._nodes_from(0, 2**62)):
            try:
                call()
            except MemoryError:
                print("refused")
        print(version.get(1, "k"))
"""
        environment = dict(os.environ, PYTHONPATH=os.pathsep.join(sys.path))
        said = subprocess.run([sys.executable, "-c", program], env=environment, stdout=subprocess.PIPE, text=True, check=True)
        self.assertEqual(said.stdout.split(), ["refused", "refused", "5"])

    def test_parts_without_room(self):
        """If there is too little memory for a part of an answer, the call fails instead of leaving nodes out."""
        program = """
import bestore, resource
with bestore.open(4096, 1) as store, bestore.prepare("k > 0") as query:
    store.make_index("k", bestore.INT64)
    with store.pin() as version:
        version.query_prepared(query)  # allocates a small buffer
    for first in range(1, 2000, 20):
        batch = bestore.Batch()
        for node in range(first, first + 20):
            batch.new_node().set(node, "k", node)
        store.apply(batch)
    for first in range(2001, 400000, 32):
        batch = bestore.Batch()
        for node in range(first, first + 32):
            batch.new_node().remove_node(node)
        store.apply(batch)
    with store.pin() as version:
        with open("/proc/self/statm") as file:
            used = int(file.read().split()[0]) * resource.getpagesize()
        resource.setrlimit(resource.RLIMIT_AS, (used + 1500000, resource.RLIM_INFINITY))
        for call in (
            lambda: version.query_prepared(query, start=1), lambda: version.query_prepared(query, limit=1500),
            lambda: version.query_prepared(query, by="k", limit=1700), lambda: version.query_prepared(query, by="k"),
            lambda: version.any(query, 1900), lambda: version.any(query, 10**6),
        ):
            try:
                print(len(call()))
            except MemoryError:
                print("refused")
"""
        environment = dict(os.environ, PYTHONPATH=os.pathsep.join(sys.path))
        said = subprocess.run([sys.executable, "-c", program], env=environment, stdout=subprocess.PIPE, text=True, check=True)
        found = said.stdout.split()
        self.assertEqual((found[1], len(found)), ("1500", 6))
        for many, whole in zip(found, ["2000", "1500", "1700", "2000", "1900", "2000"]):
            self.assertIn(many, (whole, "refused"))

    @unittest.skipIf(_testcapi is None, "there is no _testcapi")
    def test_refreshes_without_memory(self):
        """A refresh that runs out of memory loses no change: the next one returns it."""
        with bestore.open(1024, 1) as store:
            filled(store, 400)
            refused = 0
            for request in range(1, 30):
                for changed in False, True:
                    with bestore.prepare("k > 0") as query:
                        def refresh():
                            with store.pin() as version:
                                return version.refresh_changed(query) if changed else version.refresh(query)
                        seen = set(refresh()[0])
                        store.set(300, "k", -1)
                        store.set(301, "k", -1)
                        _testcapi.set_nomemory(request, request + 1)
                        try:
                            came, went = refresh()
                        except MemoryError:
                            came, went = [], []
                            refused += 1
                        finally:
                            _testcapi.remove_mem_hooks()
                        seen = (seen | set(came)) - set(went)
                        store.set(300, "k", 300)
                        store.set(302, "k", -1)
                        came, went = refresh()
                        self.assertEqual((seen | set(came)) - set(went), set(range(1, 401)) - {301, 302})
                        self.assertEqual((seen & set(came), set(went) - seen), (set(), set()))
                        for node in 301, 302:
                            store.set(node, "k", node)
                        self.assertEqual(refresh(), ([301, 302], []))
            self.assertGreater(refused, 4)

    @unittest.skipIf(_testcapi is None, "there is no _testcapi")
    def test_each_request(self):
        """Each request for memory that fails raises MemoryError, and the next call works as before."""
        with bestore.open(1024, 2) as store, store.another() as other, bestore.prepare("k > 0") as query:
            filled(store, 60)
            with store.pin() as version:
                nodes, refused = list(range(1, 61)), 0
                for call in (
                    lambda: version.get(1, "name"), lambda: version.typed(1, "k"), lambda: version.attributes(1, kinds=True),
                    lambda: version.column(nodes, "name"), lambda: version.columns(nodes, ["k", "name"]),
                    lambda: version.query_prepared(query), lambda: version.query("k > 5"),
                    lambda: version.indices(), lambda: version.refresh(query) and None, lambda: other.set(1, "name", "node 1"),
                    lambda: other.apply(bestore.Batch().set(1, "k", 1).set(2, "k", 2))[1], lambda: version.nodes(),
                    lambda: list(version.listing()), lambda: next(other.journal_from(1)),
                    lambda: version.rows(query, ["k", "name"], most=20, by="k"), lambda: version.rows(query, ["none"] * 9, most=2),
                    lambda: version.query_prepared(query, by="k", descending=True, limit=3).cursor,
                    lambda: other.change(lambda change: [change.set(2, "k", 2), change._collected()._parts()]),
                ):
                    expected = call()
                    for request in range(1, 80):
                        try:
                            _testcapi.set_nomemory(request, request + 1)
                            try:
                                found = call()
                            finally:
                                _testcapi.remove_mem_hooks()
                        except (MemoryError, ctypes.ArgumentError):  # ctypes turns a MemoryError into an ArgumentError
                            refused += 1
                        else:
                            self.assertEqual(found, expected)
                    self.assertEqual(call(), expected)
                self.assertGreater(refused, 50)

    def test_nothing_is_left(self):
        """A call frees what it allocates, even after an error."""
        with bestore.open(256, 1) as store, bestore.prepare("k > 0") as query:
            filled(store, 100)

            def use():
                with store.pin() as version:
                    for call in (
                        lambda: version.get(1, "name"), lambda: version.column(range(100), "name"), lambda: version.attributes(1),
                        lambda: version.query_prepared(query), lambda: version.query("k <"), lambda: version.get(1, "\ud800"),
                        lambda: version.get(1.5, "k"), lambda: version[99]["none"], lambda: version.typed(1, "k"),
                        lambda: version.query("none == 1"), lambda: version.indices(), lambda: list(version.listing()),
                        lambda: version.refresh(query), lambda: bestore.Batch().set(1, "k", 2**70), lambda: version.count(7),
                        lambda: version.rows(query, ["k", "name"], by="k").cursor, lambda: version.rows(query, [""], by="k"),
                        lambda: version.rows(query, ["k"], by="name"), lambda: version.rows(query, ["k", 5]),
                    ):
                        try:
                            call()
                        except (bestore.Error, TypeError):
                            pass
            for _ in range(100):
                use()
            gc.collect()
            before = sys.getallocatedblocks()
            for _ in range(600):
                use()
            gc.collect()
            self.assertLess(sys.getallocatedblocks() - before, 600)  # roughly what one leaked object per call would add


if __name__ == "__main__":
    unittest.main()
