"""Tests of a server's stores. BESTORED names the server program; without it, the tests are skipped.

Tests for stores in this process also run against servers, if they apply. They are followed by tests of what only servers have."""

import contextlib
import os
import signal
import threading
import time
import unittest
from concurrent import futures
from unittest import mock

import bestore
import test_batches
import test_bestore
import test_changes
import test_fork
import test_language
import test_native
import test_ordered
from bestore import _connection, connected
from bestore._listings import ATTRIBUTE, NODE, records
from servers import PATIENCE, OverServer, Server, WithServer

_open = bestore.open

# Tests that don't apply to servers, and why.
UNFIT = {
    "test_limits": "the limits are the server's",
    "test_passes_if_nothing_is_said": "the limits are the server's",
    "test_closed_is_given_again": "it meets a pass",
    "test_numbers": "it meets a pass",
    "test_finish": "the server closes its store",
    "test_witness": "it makes witnesses",
    "test_witness_is_of_one_store": "it makes witnesses",
    "test_gone_beside_a_call": "it makes calls of the library",
    "test_lock_of_a_thread_that_is_not_there": "it makes calls of the library",
    "test_store_of_the_child": "nobody would end the child's server",
    "test_waits_for_another_pass": "the server takes snapshots back",
    "test_never_for_itself": "the server takes snapshots back",
    "test_waits_no_longer_than_that": "the server waits",
}


def over_server(cls):
    """Returns a version of a test class that runs against servers."""
    def unfit(reason):
        return lambda self: self.skipTest(reason)
    members = {name: unfit(reason) for name, reason in UNFIT.items() if hasattr(cls, name)}
    name = f"{cls.__module__.removeprefix('test_').title()}{cls.__name__}OverServer"  # two modules may have a class of the same name
    return type(name, (OverServer, cls), {**members, "__module__": __name__})


for _module, _names in [
    (test_bestore, "Values OutOfRange Versions Journals PreparedQueries Passes WrongUse WhatIsMissing Whole WhatIsCarried Threads"),
    (test_changes, "Changes Conditions Kinds Reindexing Writers AtFull"),
    (test_batches, "Operations Entries"),
    (test_language, "Patterns Covered Counts Hints NoTexts"),
    (test_fork, "Forks"),
    (test_native, "Columns"),
    (test_ordered, "Parts Threads"),
]:
    for _name in _names.split():
        _made = over_server(getattr(_module, _name))
        globals()[_made.__name__] = _made
del _made


class Connecting(WithServer):
    options = "--passes", 2, "--pages", 64, "--commits", 5000

    def test_what_the_server_says(self):
        said = self.store.server
        self.assertEqual((said.kept, said.pages, said.passes, said.commits, said.watches), ("no", 64, 2, 5000, 32))
        self.assertEqual(repr(self.store), f"<pass {self.store.number} of the server at {self.server.path}>")
        with self.store.another() as other:
            self.assertEqual((other.server, other.number == self.store.number), (said, False))

    def test_classes(self):
        with self.store.pin() as version:
            self.assertIsInstance(self.store, bestore.Pass)
            self.assertIsInstance(version, bestore.Version)
        self.store.change(lambda change: self.assertIsInstance(change, bestore.Version))
        for name, member in vars(bestore.Pass).items():
            if callable(member) and not name.startswith("_"):
                self.assertTrue(callable(getattr(self.store, name)), name)

    def test_no_pass(self):
        with self.store.another():
            with self.assertRaises(bestore.NoPass):
                self.store.another()
        other = self.store.another()
        version, watch = other.pin(), other.watch()
        del other, version, watch  # the pass is closed once it has no references
        self.server.connect().close()

    def test_no_server(self):
        for path in (self.server.folder, os.path.join(self.server.folder, "none"), "x" * 200, __file__):
            with self.assertRaises(bestore.NoServer) as fault:
                bestore.connect(path)
            self.assertEqual(fault.exception.path, path)
            self.assertIsInstance(fault.exception, ConnectionError)
            self.assertTrue(str(fault.exception).startswith(f"{path}: no server can be reached: "), fault.exception)
        for timeout in (0, -1, float("nan")):
            with self.assertRaises(ValueError):
                bestore.connect(self.server.path, timeout)

    def test_long_times(self):
        self.store.close()
        with self.server.connect(timeout=float("inf")) as store, store.watch() as watch:
            self.assertIsNone(watch.wait(0))
            store.new_node()
            self.assertEqual(watch.wait(1e300), ([], []))

    def test_default_path(self):
        with mock.patch.dict(os.environ, BESTORE_SOCKET=self.server.path), bestore.connect() as store:
            self.assertEqual((store.path, store.server), (self.server.path, self.store.server))

    def test_closed(self):
        version, watch = self.store.pin(), self.store.watch()
        self.store.close()
        self.store.close()
        for call in (self.store.new_node, self.store.pin, self.store.status, self.store.fileno, version.indices, watch.refresh):
            with self.assertRaises(bestore.Closed):
                call()
        version.unpin()
        watch.close()

    def test_closed_by_two_threads(self):
        """Both find the pass open before either closes it."""
        lock, both = self.store._lock, threading.Barrier(2)
        self.store._lock = mock.MagicMock()
        self.store._lock.__enter__.side_effect = lambda: both.wait(PATIENCE) >= 0 and lock.acquire()
        self.store._lock.__exit__.side_effect = lambda *_: lock.release()
        with futures.ThreadPoolExecutor(2) as pool:
            self.assertEqual(list(pool.map(lambda _: self.store.close(), range(2))), [None, None])

    def test_not_through_a_server(self):
        for call, error in [
            (self.store.meet, bestore.Unavailable), (self.store.witness, bestore.Unavailable),
            (lambda: self.store.join(None), bestore.Unavailable), (self.store.flush, bestore.NotKept),
        ]:
            with self.assertRaises(error) as fault:
                call()
            self.assertEqual(fault.exception.path, self.server.path)
        self.assertEqual(str(bestore.Unavailable("p", "meet")), "p: `meet` can't be called through a server; only a store in this process has it")

    def test_copies_of_a_child_keep_no_pass(self):
        """The server notices that a pass is closed even if a forked child has a copy of its socket."""
        child = os.fork()
        if child == 0:
            time.sleep(PATIENCE)
            os._exit(0)
        try:
            other = self.store.another()
            self.store.close()
            self.server.connect().close()
            other.close()
        finally:
            os.kill(child, signal.SIGKILL)
            os.waitpid(child, 0)


class Reading(WithServer):
    def test_several_pages(self):
        """The journal and the listing take several replies of 1 MiB."""
        raw = bestore.Batch()
        for node in self.store.new_nodes(64):
            raw.set(node, "r", bytes(255))
        written = [self.store.apply(raw)[0] for _ in range(50)]
        self.assertEqual([entry.number for entry in self.store.journal_from(2)], written)
        entries = list(self.store.journal_from())
        self.assertEqual((len(entries), list(entries[-1].operations)), (52, list(raw)))
        for name in "abcdefghijklmnopqrstuvwx":
            batch = bestore.Batch()
            for node in range(1, 65):
                batch.set(node, name, bytes(255))
            self.store.apply(batch)
        with self.store.pin() as version:
            listed = [kind for batch in version.listing() for kind, *_ in records(batch)]
            self.assertEqual((listed.count(NODE), listed.count(ATTRIBUTE)), (64, 24 * 64))

    def test_columns(self):
        """Columns are the same as for a store in this process."""
        def columns(store):
            store.apply(bestore.Batch().new_node().new_node().set(1, "a", "x").set(2, "a", 2).set(2, "b", b"\0"))
            nodes, names = [2, 1, 3, 2], ["b", "a", "none"]
            with store.pin() as version:
                found = version.columns(iter(nodes), names=iter(names)), version.column(iter(nodes), "a"), version.columns([], names)
                self.assertEqual(found[0], [version.column(nodes, name) for name in names])
            return found, store.change(lambda change: (change.set(1, "b", 5), change.columns(nodes, names))[1])
        with _open(64, 1, 100) as store:
            self.assertEqual(columns(self.store), columns(store))

    def test_columns_are_one_round_trip(self):
        nodes, names = self.store.new_nodes(2000), [f"name {place}" for place in range(5)]
        for first in range(0, 2000, 10):
            batch = bestore.Batch()
            for node in nodes[first:first + 10]:
                for place, name in enumerate(names):
                    batch.set(node, name, f"value {node}" if place % 2 else node)
            self.store.apply(batch)
        expected = [[f"value {node}" if place % 2 else node for node in nodes] for place in range(5)]
        with self.store.pin() as version, self.asked() as asked:
            self.assertEqual(version.columns(nodes, names), expected)
            self.assertEqual(asked, ["columns"])
            self.assertEqual((version.columns([], names), version.columns(nodes, [])), ([[]] * 5, []))
            self.assertEqual(version.columns([-1, 2**64], names), [[None, None]] * 5)
            self.assertEqual(version.column(nodes, names[1]), expected[1])
            self.assertEqual(asked, ["columns"] * 3)
        with self.asked() as asked:
            self.store.change(lambda change: self.assertEqual(change.columns(nodes, names), expected))
            self.assertEqual(asked, ["pin", "columns", "unpin"])

    @contextlib.contextmanager
    def asked(self):
        """Collects the commands of the requests that are sent during the `with` block."""
        commands, ask = [], _connection.Connection.ask

        def listed(connection, command, *others, **named):
            commands.append(command)
            return ask(connection, command, *others, **named)
        with mock.patch.object(_connection.Connection, "ask", listed):
            yield commands

    def test_columns_of_a_long_name(self):
        with self.store.pin() as version:
            for name in "x" * 64, "x" * (2 << 20):
                self.assertRaises(bestore.NameLength, version.columns, [1], ["size", name])
            self.assertEqual(version.columns([1], ["size"]), [[None]])

    def test_rows(self):
        """Rows are the same as for a store in this process, even if they arrive in several replies."""
        names = ["b", "a", "none"]

        def rows(store):
            store.make_index("a", bestore.STRING)
            for first in range(1, 9601, 16):
                batch = bestore.Batch()
                for node in range(first, first + 16):
                    batch.new_node().set(node, "a", str(node)).set(node, "b", f"{node:0250}")
                store.apply(batch)
            with store.pin() as version, bestore.prepare("a==*7") as prepared:
                with self.assertRaises(ValueError):
                    version.rows("a==*", names, 0, -1)
                for wrong, kind in [("a==", bestore.QuerySyntax), ("b>1", bestore.NotCovered)]:
                    with self.assertRaises(kind):
                        version.rows(wrong, names)
                return [version.rows(prepared, iter(names), 17, 2), version.rows("a==*", names, 0, 30000), version.rows("a==*", names, 9599),
                        version.rows("a==*", [], -5, 1), version.rows("a==*", names, 2**70), version.rows("a==*", names, 5, 0)]
        with _open(4096, 1, 2**32 - 1) as store:
            found = rows(self.store)
            self.assertEqual(found, rows(store))
        self.assertEqual(found[0], [(17, [f"{17:0250}", "17", None]), (27, [f"{27:0250}", "27", None])])
        self.assertEqual([len(it) for it in found], [2, 9600, 2, 1, 0, 0])

    def test_the_journal_is_the_same_text(self):
        batches = [
            bestore.Batch().new_node().set(1, 'a"b\\\n\r\t', 'x"\\\n\r\t\x7fé漢'), bestore.Batch().set(1, "r", b""),
            bestore.Batch().set(1, "r", b"\0\xff").set(1, "m", "a/b", bestore.MIME), bestore.Batch().unset(1, "r"),
            bestore.Batch(bestore.SetAttribute(1, kind.name, number, kind) for kind, number in [
                (bestore.INT32, -5), (bestore.INT64, -(2**63)), (bestore.UINT32, 2**32 - 1), (bestore.UINT64, 2**64 - 1)]),
            bestore.Batch().make_index("n", bestore.STRING), bestore.Batch().remove_index("n").new_node(),
            bestore.Batch().remove_node(1),
        ]
        with Server("--passes", 1) as server, server.connect() as store, _open(64, 1, 100) as local:
            for user in (store, local):
                for batch in batches:
                    user.apply(batch)
            self.assertEqual(store.journal(), local.journal())
            self.assertEqual(list(store.journal_from()), list(local.journal_from()))
            with store.pin() as version, local.pin() as same:
                self.assertEqual(list(version.listing()), list(same.listing()))

    def test_what_is_too_long(self):
        huge = "x" * (1 << 20)
        with self.store.pin() as version:
            for call, error in [
                (lambda: version.query(f"size=={huge}"), bestore.TooLong), (lambda: version.get(1, huge), bestore.NameLength),
                (lambda: version.rows("size>0", [huge]), bestore.NameLength), (lambda: version.query("size>0", by=huge), bestore.NameLength),
                (lambda: self.store.set(1, huge, 1), bestore.NameLength),
                (lambda: self.store.set(1, "size", huge), bestore.DataLength),
                (lambda: self.store.apply(bestore.Batch([bestore.NewNode()] * 100_000)), bestore.BadCount),
            ]:
                with self.assertRaises(error):
                    call()
            self.assertEqual(version.nodes(), [])


class Held(WithServer):
    options = "--hold", 1

    def test_taken_back(self):
        with self.store.pin() as version:
            time.sleep(1.2)
            with self.assertRaises(bestore.Expired) as fault:
                version.indices()
            with self.assertRaises(bestore.Pinned):
                self.store.pin()
        self.assertEqual((fault.exception.path, fault.exception.name), (self.server.path, "Expired"))
        with self.store.pin() as version:
            self.assertEqual(version.indices(), {"size": bestore.INT64})


class Confirmed(WithServer):
    """Reads that wait until what they show is in the server's file."""

    options = ("--keep", "FOLDER/file")

    def test_reads(self):
        with self.server.connect(confirmed=True) as store, store.another() as other:
            node = store.new_node()
            store.set(node, "size", 5)
            for reader in store, other:
                with reader.pin() as version:
                    self.assertEqual(version[node]["size"], 5)

    def test_server_is_asked(self):
        for options, greeting in ({}, {"protocol": 2}), ({"confirmed": True}, {"protocol": 2, "confirmed": True}):
            with mock.patch.object(connected.ConnectedPass, "_ask", side_effect=bestore.Closed) as ask:
                with self.assertRaises(bestore.Closed):
                    self.server.connect(**options)
            self.assertEqual(ask.call_args.args[1], greeting)


class Writing(WithServer):
    def test_file(self):
        with Server("--keep", "FOLDER/file") as server:
            with server.connect() as store:
                self.assertEqual(store.server.kept, "each")
                store.new_nodes(3)
                store.flush()
                store.compact()
            server.kill()
            server.start()
            with server.connect() as store, store.pin() as version:
                self.assertEqual(version.nodes(), [1, 2, 3])

    def test_reach_takes_longer_than_a_reply(self):
        with self.server.connect(timeout=1) as store:
            with self.assertRaises(bestore.NotReached) as fault:
                store.reach(2, 1.2)
            self.assertEqual((fault.exception.expected, fault.exception.found), (2, 1))
            timer = threading.Timer(0.1, self.store.new_node)
            timer.start()
            self.assertEqual(store.reach(2, float("inf")), 2)
            timer.join()

    def test_reach_of_impossible_numbers(self):
        """These are treated as in a store in this process."""
        with _open(64, 1, 100) as local:
            local.new_node()
            for store in (self.store, local):
                self.assertEqual(store.reach(-1, 0), 1)
                for number in (2**64, 2**100):
                    self.assertRaises(bestore.NotReached, store.reach, number, 0)
                self.assertRaises(TypeError, store.reach, [1], 0)

    def test_another_run(self):
        self.server.kill()
        self.server.start()
        self.server.connect().close()
        for call in (self.store.another, self.store.new_node):
            with self.assertRaises(bestore.Disconnected) as fault:
                call()
            self.assertFalse(fault.exception.may_be_done)


if __name__ == "__main__":
    unittest.main()
