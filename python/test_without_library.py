"""Tests of server clients that have neither the extension nor the library."""

import os
import pickle
import subprocess
import sys
import textwrap
import unittest
from unittest import mock

import bestore
from bestore import local
from servers import BESTORED, Server
from test_batches import EACH, Bytes, Operations

ENGINE = ("bestore._native", "bestore._library", "bestore._engine", "bestore._prepared", "bestore._query_texts", "bestore.local",
          "bestore.saved")
"""The modules that need the extension."""

CLIENT = """
    import sys
    import threading
    sys.modules["bestore._native"] = None  # which then can't be imported
    import bestore

    path, engine = sys.argv[1], sys.argv[2:]


    def send(change):
        letter = change.new()
        change[letter]["MAIL:from"], change[letter]["size"] = "ann", bestore.Int64(7)
        return letter


    with bestore.connect(path) as store, store.another() as other:
        store.make_index("MAIL:from", bestore.STRING)
        store.apply(bestore.Batch().make_index("size", bestore.INT64).make_index("a \\"b", bestore.STRING))
        with store.watch("size>=5") as watch:
            letter = store.change(send)
            assert watch.wait(30) == ([letter], [])
            other.set(letter, "size", 3)
            assert watch.wait(30) == ([], [letter])
            writer = threading.Thread(target=lambda: other.set(letter, "size", 9))
            writer.start()
            assert watch.wait(30) == ([letter], [])
            writer.join()
        with store.pin() as version:
            assert version.query("MAIL:from==ann && size>5") == [letter] and version.count("size==9") == 1
            assert version[letter]["size"] == 9 and version.columns([letter], ["MAIL:from"]) == [["ann"]]
            assert version.query("size>=0", by="size", limit=1)[:] == [letter] and version.pairs("size") == 1
            assert version.pairs("a \\"b") == 0 and version.explain("size>5")
            with store.prepare("size>=5 && !(MAIL:from==bob)") as query:
                assert query.names == ["size", "MAIL:from"] and version.query_prepared(query) == [letter]
                assert version.query_prepared(query, by="size", limit=1)[:] == [letter]
                assert version.refresh(query) == ([letter], []) and version.refresh(query) == ([], [])
            for call in (version.query_prepared, version.refresh):
                try:
                    call(query)
                except bestore.Closed:
                    pass
                else:
                    raise AssertionError("a closed query")
            try:
                store.prepare("size>5 ||")
            except bestore.QuerySyntax as error:
                assert (error.offset, error.query) == (9, "size>5 ||"), error
            else:
                raise AssertionError("no query")
            hint, = version.hints("!(size<=1.5) || MAIL:from>1.5")
            assert (hint.name, hint.value, hint.kind, hint.offset, hint.is_number) == ("size", "1.5", bestore.INT64, 2, False)
            assert next(version.listing())[:4] == b"BEV\1"
            again = bestore.Batch([bestore.NewNode(), bestore.SetAttribute(1, "a", "b")])
            assert bestore.Batch.from_bytes(again.to_bytes()) == again
            try:
                version.query("when>5")
            except bestore.NotCovered as error:
                assert (error.missing, error.offset, error.indices[-1]) == ("when", 0, "size"), error
            else:
                raise AssertionError("a query that no index covers")
        entries = list(store.journal_from())
        assert entries[0].operations == (bestore.MakeIndex("MAIL:from", bestore.STRING),)
        try:
            store.apply(bestore.Batch().remove_node(99))
        except bestore.NoNode as error:
            assert error.nodes == (99,)
    for call in (bestore.open, bestore.Builder, lambda: bestore.prepare("size>5")):
        try:
            call()
        except ImportError as error:
            assert "compiled part" in str(error) or "_native" in str(error), error
        else:
            raise AssertionError("the engine was there")
    print("done")
"""


class Clients(unittest.TestCase):
    @unittest.skipUnless(BESTORED, "BESTORED names no bestored")
    def test_connects_writes_asks_and_follows(self):
        with Server() as server:
            server.connect().close()
            said = subprocess.run(
                [sys.executable, "-W", "error", "-c", textwrap.dedent(CLIENT), server.path, *ENGINE], capture_output=True, text=True,
                env={**os.environ, "BESTORE_LIBRARY": os.path.join(server.folder, "none")}, timeout=120)
        self.assertEqual((said.stdout, said.stderr), ("done\n", ""))

    def test_nothing_of_the_extension_is_imported(self):
        program = "import sys, bestore.connected; from bestore import NotSaved, Stopped; print(*(it for it in sys.argv[1:] if it in sys.modules))"
        said = subprocess.run([sys.executable, "-c", program, *ENGINE], capture_output=True, text=True, timeout=120)
        self.assertEqual((said.stdout, said.stderr), ("\n", ""))


class PlainBatch(bestore.Batch):
    """A batch class that isn't the extension's."""


class Plain:
    """Creates batches without the extension."""

    def setUp(self):
        super().setUp()
        patched = mock.patch.object(bestore.Batch, "_made", None)
        patched.start()
        self.addCleanup(patched.stop)


class PlainOperations(Plain, Operations):
    pass


class PlainBytes(Plain, Bytes):
    pass


class Batches(unittest.TestCase):
    """Both sorts of batch behave the same."""

    def setUp(self):
        local.open(64, 1, 100).close()  # after this, batches are the extension's
        self.native, self.plain = bestore.Batch(EACH), PlainBatch(EACH)

    def test_alike(self):
        self.assertIsNot(type(self.native), type(self.plain))
        self.assertIsInstance(self.native, bestore.Batch)
        self.assertIsInstance(self.plain, bestore.Batch)
        for read in (list, len, repr, bestore.Batch.to_bytes, lambda it: it._parts(), lambda it: it._raw, lambda it: it._bytes):
            self.assertEqual(read(self.plain), read(self.native))
        for batch in (self.native, self.plain):
            self.assertEqual(list(pickle.loads(pickle.dumps(batch))), EACH)

    def test_refused_alike(self):
        for call in (
            lambda batch: batch.set(-1, "a", 5), lambda batch: batch.set(2**64, "a", 5), lambda batch: batch.set("1", "a", 5),
            lambda batch: batch.set(1, 5, 5), lambda batch: batch.set(1, "\ud800", 5), lambda batch: batch.set(1, "a", None),
            lambda batch: batch.set(1, "a", 2**63), lambda batch: batch.set(1, "a", 5, 99), lambda batch: batch.set(1, "a", True),
            lambda batch: batch.remove_node(2**64), lambda batch: batch.remove_node(1.5), lambda batch: batch.unset(1, b"a"),
            lambda batch: batch.make_index("a", 2**32), lambda batch: batch.make_index("a", -1),
            lambda batch: batch.make_index("a", "b"), lambda batch: batch.remove_index(None), lambda batch: batch.set(1, "a"),
            lambda batch: batch.new_node(1),
        ):
            faults = []
            for batch in (self.native, self.plain):
                with self.assertRaises((bestore.Refusal, TypeError)) as fault:
                    call(batch)
                faults.append(fault.exception)
            native, plain = faults
            self.assertEqual(type(plain), type(native))
            if isinstance(native, bestore.Refusal):
                self.assertEqual((str(plain), vars(plain)), (str(native), vars(native)))
        self.assertEqual(list(self.plain), EACH)

    def test_a_batch_of_before_is_written_after(self):
        with bestore.open(64, 1, 100) as store:
            batch = PlainBatch().new_node().set(1, "a", "x").make_index("a", bestore.STRING)
            self.assertEqual(store.apply(batch), (1, [1, 0, 0]))
            self.assertEqual(store.apply_if(1, PlainBatch().set(1, "a", "y")), (2, [0]))
            with store.pin() as version:
                self.assertEqual(version.query("a==y"), [1])


if __name__ == "__main__":
    unittest.main()
