"""Tests of the module. First build the library in ../c, then run `python3 -m unittest` in this folder."""

import gc
import os
import pickle
import queue
import subprocess
import sys
import threading
import unittest

import bestore
import bestore._library  # loaded when a store opens in this process


class Values(unittest.TestCase):
    def test_each_kind(self):
        values = [
            (bestore.STRING, "hé"), (bestore.MIME, "text/plain"), (bestore.RAW, b"\0\xff"), (bestore.INT32, -(2**31)),
            (bestore.INT64, -(2**63)), (bestore.UINT32, 2**32 - 1), (bestore.UINT64, 2**64 - 1),
        ]
        with bestore.open(64, 1, 100) as store:
            node = store.new_node()
            for kind, value in values:
                store.set(node, "k", value, kind)
                with store.pin() as version:
                    self.assertEqual(version.get(node, "k"), value)
                    self.assertIsNone(version.get(node + 1, "k"))

    def test_lists(self):
        with bestore.open(64, 1, 100) as store:
            store.make_index("size", bestore.INT32)
            store.make_index("name", bestore.STRING)
            node = store.new_node()
            store.apply(bestore.Batch().set(node, "size", -1, bestore.INT32).set(node, "name", "ann"))
            with store.pin() as version:
                self.assertEqual(version.attributes(node), {"name": "ann", "size": -1})
                self.assertEqual(version.indices(), {"name": bestore.STRING, "size": bestore.INT32})
                self.assertEqual(version.explain("size<0"), '"size"<"0" score 3')
                self.assertEqual(version.ways("size<0 || size==7"),
                                 '"size"  7 .. 7  about 0 keys, 0 walked\n"size"  .. <0  about 1 key, 1 walked\n')
                self.assertEqual(version.query_items(bestore.Name("size"), -1, bestore.Operator.EQ), [node])
                self.assertEqual(version.query_items(bestore.Name("name"), "n", bestore.Operator.CONTAINS), [node])
                with self.assertRaises(bestore.NoNode):
                    version.attributes(node + 1)
                with self.assertRaises(bestore.BadItems) as fault:
                    version.query_items(bestore.Name("size"))
                self.assertEqual((fault.exception.number, fault.exception.item), (22, 1))
                with self.assertRaises(bestore.NameLength) as fault:
                    version.query_items(bestore.Name("size"), 1, bestore.Name(""))
                self.assertEqual(fault.exception.item, 2)

    def test_repr_of_what_cant_be_read(self):
        """A debugger and a traceback show objects at any time, so this doesn't raise."""
        with bestore.open(64, 1, 100) as store:
            with store.pin() as version:
                self.assertTrue(repr(version[7]).startswith("<attributes of node 7, which can't be read: "), repr(version[7]))
            self.assertIn("which can't be read: no snapshot is pinned", repr(version[7]))

    def test_as_dicts(self):
        with bestore.open(64, 1, 100) as store:
            store.apply(bestore.Batch().new_node().new_node().set(1, "MAIL:from", "ann").set(1, "size", 5))
            with store.pin() as version:
                attributes = version[1]
                self.assertEqual((attributes["MAIL:from"], attributes["size"]), ("ann", 5))
                self.assertEqual(dict(attributes), version.attributes(1))
                self.assertEqual((list(attributes), len(attributes)), (["MAIL:from", "size"], 2))
                self.assertEqual(repr(attributes), "<attributes of node 1: {'MAIL:from': 'ann', 'size': 5}>")
                self.assertTrue("size" in attributes and "name" not in attributes)
                self.assertEqual((attributes.get("name", "none"), dict(version[2])), ("none", {}))
                self.assertEqual([node in version for node in range(4)], [False, True, True, False])
                with self.assertRaises(KeyError):
                    attributes["name"]
                with self.assertRaises(KeyError):
                    len(version[3])
                self.assertEqual((list(version), version.nodes(2), version.nodes(0, 1)), ([1, 2], [2], [1]))

    def test_wrong_values(self):
        with bestore.open(64, 1, 100) as store:
            for kind, value, number in [(bestore.INT32, 2**31, 73), (bestore.STRING, "a\0b", 20), (1, "a", 72)]:
                with self.assertRaises(bestore.Refusal) as fault:
                    store.set(1, "k", value, kind)
                self.assertEqual(fault.exception.number, number)
            for kind, value in [(bestore.STRING, 1), (bestore.INT64, "a"), (bestore.MIME, b"a"), (None, 1.5), (None, None)]:
                with self.assertRaises(TypeError):
                    store.set(1, "k", value, kind)


class OutOfRange(unittest.TestCase):
    """A number that doesn't fit in 64 bits isn't a node's number. If they were truncated, some of these numbers would become node 1."""

    numbers = (-1, 1 - 2**64, 2**64, 2**64 + 1)

    def test_writes(self):
        with bestore.open(64, 1, 100) as store:
            store.apply(bestore.Batch().new_node().set(1, "k", 5))
            for node in self.numbers:
                for write in (store.remove_node, lambda it: store.set(it, "k", 6), lambda it: store.unset(it, "k")):
                    with self.assertRaises(bestore.NoNode):
                        write(node)
            for kind in (-1, 2**32 + bestore.STRING):
                with self.assertRaises(bestore.NoKind):
                    store.make_index("k", kind)
            with store.pin() as version:
                self.assertEqual((version.number, version.attributes(1)), (1, {"k": 5}))

    def test_reads(self):
        with bestore.open(64, 1, 100) as store:
            store.apply(bestore.Batch().new_node().set(1, "k", 5))
            with store.pin() as version:
                for node in self.numbers:
                    for read in (version.attributes, lambda it: version[it]["k"], lambda it: len(version[it])):
                        with self.assertRaises(KeyError):
                            read(node)
                    self.assertEqual((version.get(node, "k"), node in version), (None, False))
                self.assertEqual([version.nodes(first) for first in self.numbers], [[1], [1], [], []])
                self.assertEqual((version.nodes(0, 2**70), version.nodes(most=0)), ([1], []))
                with self.assertRaises(ValueError):
                    version.nodes(0, -1)

    def test_limits(self):
        for limits in [(2**64 + 64, 1, 1), (64, -1, 1), (64, 1, 2**64), (64, 0, 1), (7, 1, 1)]:
            with self.assertRaises(bestore.BadLimits):
                bestore.open(*limits)
        with bestore.open(64, 1, 100) as store:
            self.assertEqual(store.apply(bestore.Batch().new_node(), tries=2**32), (1, [1]))

    def test_passes_if_nothing_is_said(self):
        with bestore.open(64) as store:
            others = [store.another() for _ in range(62)]
            self.assertEqual(len({other.number for other in others}), 62)
            self.assertRaises(bestore.NoPass, store.another)

    def test_passes_from_any_pass(self):
        """Each pass, in any thread, can create the passes that were never used, and those that were closed."""
        passes = [bestore.open(64, 6)]

        def add():
            passes.append(passes[-1].another())
        for _ in range(2):
            add()
            adding = threading.Thread(target=add)
            adding.start()
            adding.join()
        self.assertEqual(len({user.number for user in passes}), 5)
        passes.pop(0).close()
        add()
        add()
        self.assertEqual({user.number for user in passes}, set(range(6)))
        self.assertRaises(bestore.NoPass, passes[0].another)
        passes.pop(0).close()
        add()
        for user in passes:
            user.close()
            self.assertRaises(bestore.Closed, user.another)

    def test_dropped_opener(self):
        others = [bestore.open(64, 3).another()]
        others += [others[0].another() for _ in range(2)]
        self.assertRaises(bestore.NoPass, others[0].another)


class Versions(unittest.TestCase):
    def test_pin_stays(self):
        with bestore.open(64, 2, 100) as store, store.another() as other:
            store.make_index("k", bestore.STRING)
            number, made = store.apply(bestore.Batch().new_node().set(1, "k", "v"))
            self.assertEqual((number, made), (2, [1, 0]))
            with other.pin() as version:
                store.set(1, "k", "w")
                self.assertEqual((version.number, version.query('k == "v"'), version.query('k == "w"')), (2, [1], []))
            with other.pin() as version:
                self.assertEqual((version.number, version.query('k == "v"'), version.query('k == "w"')), (3, [], [1]))

    def test_given_up(self):
        with bestore.open(64, 1, 100) as store:
            first = store.pin()
            first.unpin()
            first.unpin()
            store.new_node()
            with store.pin() as second:
                self.assertEqual((first.number, second.number), (0, 1))
                with self.assertRaises(bestore.NotPinned):
                    first.attributes(1)
                first.unpin()
                self.assertEqual(second.attributes(1), {})

    def test_gone(self):
        """A version without references is unpinned. A refused pin doesn't end the version that was pinned before."""
        with bestore.open(64, 1, 100) as store:
            self.assertEqual(store.pin().nodes(), [])
            gc.collect()
            with store.pin() as version:
                with self.assertRaises(bestore.Pinned):
                    store.pin()
                self.assertEqual(version.nodes(), [])
            left = store.pin()
            store.close()
            del left

    def test_more_than_the_first_room(self):
        with bestore.open(1024, 1, 1000) as store:
            store.make_index("k", bestore.INT64)
            for first in range(1, 301, 30):
                batch = bestore.Batch()
                for node in range(first, first + 30):
                    batch.new_node().set(node, "k", node)
                store.apply(batch)
            with store.pin() as version:
                self.assertEqual(version.query("k > 0"), list(range(1, 301)))


class Journals(unittest.TestCase):
    def test_lines(self):
        with bestore.open(1024, 2, 2000) as store, store.another() as other:
            self.assertEqual(store.journal(), "")
            store.apply(bestore.Batch().new_node().set(1, "k", "v"))
            other.remove_node(1)
            self.assertEqual(store.journal(), '1 by 1 new; set 1 "k" CSTR "v" -> node 1; ok\n2 by 0 drop 1 -> ok\n')
            for _ in range(998):
                other.new_node()
            raw = bestore.Batch().set(2, "r", bytes(255))
            for _ in range(200):
                store.apply(raw)
            lines = store.journal().splitlines()
            self.assertEqual((len(lines), lines[1]), (1200, "2 by 0 drop 1 -> ok"))


    def test_finish(self):
        with bestore.open(64, 2, 100) as store:
            with store.another() as other:
                store.new_node()
                self.assertRaises(bestore.InUse, store.finish)
                self.assertRaises(bestore.InUse, other.finish)
                other.new_node()
            self.assertEqual(store.finish(), "1 by 1 new -> node 1\n2 by 0 new -> node 2\n")
            self.assertRaises(bestore.Closed, store.finish)
        with bestore.open(1024, 1, 2000) as store:
            raw = bestore.Batch().new_node().set(1, "r", bytes(255))
            for _ in range(200):
                store.apply(raw)
            journal = store.journal()
            self.assertEqual(store.finish(), journal)


class PreparedQueries(unittest.TestCase):
    def test_asked_again(self):
        with bestore.open(64, 1, 100) as store, bestore.prepare("size < 5") as small:
            store.make_index("size", bestore.INT64)
            store.apply(bestore.Batch().new_node().set(1, "size", 1).new_node().set(2, "size", 2))
            with store.pin() as version:
                self.assertEqual(version.query_prepared(small), [1, 2])
                self.assertEqual(version.refresh(small), ([1, 2], []))
                self.assertEqual(version.refresh(small), ([], []))
            store.apply(bestore.Batch().set(1, "size", 9).new_node().set(3, "size", 3))
            with store.pin() as version:
                self.assertEqual(version.query_prepared(small), [2, 3])
                self.assertEqual(version.refresh(small), ([3], [1]))
            with bestore.prepare_items(bestore.Name("size"), 9, bestore.Operator.EQ) as large, store.pin() as version:
                self.assertEqual(version.query_prepared(large), [1])

    def test_wrong_use(self):
        for text, number in [("size <", 12), ('name=="[a"', 13)]:
            with self.assertRaises(bestore.Refusal) as fault:
                bestore.prepare(text)
            self.assertEqual(fault.exception.number, number)
        with self.assertRaises(bestore.BadItems) as fault:
            bestore.prepare_items(bestore.Name("size"), 1, bestore.Operator.AND)
        self.assertEqual((fault.exception.number, fault.exception.item), (22, 2))
        with bestore.open(64, 1, 100) as store, store.pin() as version:
            small = bestore.prepare("size < 5")
            for number, call in [(17, version.query_prepared), (17, version.refresh)]:
                with self.assertRaises(bestore.Refusal) as fault:
                    call(small)
                self.assertEqual(fault.exception.number, number)
            small.close()
            small.close()
            with self.assertRaises(bestore.Refusal) as fault:
                version.refresh(small)
            self.assertEqual(fault.exception.number, 64)


class Passes(unittest.TestCase):
    def test_closed_is_given_again(self):
        with bestore.open(64, 3, 100) as store, store.another() as other:
            store.another().close()
            store.make_index("k", bestore.STRING)
            self.assertEqual((store.meet(), other.meet()), (1, 1))
            with other.another() as third:
                third.new_node()
                self.assertTrue(store.journal().endswith("2 by 0 new -> node 1\n"), store.journal())


    def test_witness(self):
        told, heard = queue.Queue(), []

        def write(user):
            for _ in range(100):
                user.new_node()
                told.put((user.committed, user.witness()))
            told.put(None)

        with bestore.open(512, 2, 1000) as store, store.another() as other:
            thread = threading.Thread(target=write, args=[other])
            thread.start()
            for number, witness in iter(told.get, None):
                with witness:
                    self.assertGreaterEqual(store.join(witness), number)
                with store.pin() as version:
                    heard.append(version.number - number)
                store.new_node()
                heard.append(store.committed - number - 1)
            thread.join()
            self.assertEqual((len(heard), min(heard) >= 0), (200, True))

    def test_witness_is_of_one_store(self):
        with bestore.open(64, 2, 100) as store, bestore.open(64, 1, 100) as next_store:
            with store.another() as other:
                other.new_node()
                witness = other.witness()
            self.assertEqual((store.join(witness), store.join(witness)), (1, 1))
            self.assertRaises(bestore.OtherStore, next_store.join, witness)
            self.assertRaises(TypeError, store.join, store)
        self.assertRaises(bestore.Closed, store.witness)
        self.assertRaises(bestore.Closed, store.join, witness)
        witness.close()
        witness.close()
        with bestore.open(64, 1, 100) as store, store.witness() as witness:
            witness.close()
            self.assertRaises(bestore.Closed, store.join, witness)


class WrongUse(unittest.TestCase):
    def test_numbers(self):
        store = bestore.open(64, 1, 100)
        version = store.pin()
        for number, call in [
            (67, store.pin), (68, store.another), (68, store.meet), (69, lambda: store.apply(bestore.Batch())),
            (12, lambda: version.query("k <")), (17, lambda: version.query("k == 1")), (18, lambda: version.get(1, "")),
        ]:
            with self.assertRaises(bestore.Refusal) as fault:
                call()
            self.assertEqual(fault.exception.number, number)
        for call in (version.query, version.explain, version.ways, bestore.prepare):
            with self.assertRaises(bestore.QuerySyntax) as syntax:
                call("k <")
            self.assertEqual((syntax.exception.query, syntax.exception.offset), ("k <", 3))
            self.assertEqual(str(syntax.exception), "this query isn't valid here; it needs comparisons such as size>=5, joined by && or ||\n  k <\n     ^")
            with self.assertRaises(bestore.BadPattern) as pattern:
                call("größe == [é")
            self.assertEqual((pattern.exception.offset, pattern.exception.column), (11, 9))
            self.assertEqual(str(pattern.exception), "this pattern isn't valid here; a set such as [a-d] must be closed by ], must not be empty, and its ranges must ascend\n  größe == [é\n           ^")
        version.unpin()
        with self.assertRaises(bestore.Refusal) as fault:
            version.query("k == 1")
        self.assertEqual(fault.exception.number, 66)
        store.close()
        with self.assertRaises(bestore.Refusal) as fault:
            store.new_node()
        self.assertEqual(fault.exception.number, 64)


class WhatIsMissing(unittest.TestCase):
    """Errors name the missing node or attribute, and the kinds involved."""

    def refused(self, error, said, call):
        with self.assertRaises(error) as fault:
            call()
        self.assertEqual(str(fault.exception), said)
        return fault.exception

    def test_reads(self):
        with bestore.open(64, 1, 100) as store:
            store.apply(bestore.Batch().new_node().set(1, "a", 5))
            with store.pin() as version:
                fault = self.refused(bestore.NoNode, "there is no node 9", lambda: version.attributes(9))
                self.assertEqual(fault.node, 9)
                self.refused(bestore.NoNode, f"there is no node {2**70}", lambda: version.attributes(2**70))
                self.refused(bestore.NoNode, "there is no node 9", lambda: list(version[9]))
                fault = self.refused(bestore.NoAttribute, 'node 1 has no attribute "size"', lambda: version[1]["size"])
                self.assertEqual((fault.node, fault.name), (1, "size"))
                self.refused(KeyError, 'node 9 has no attribute "size"', lambda: version[9]["size"])

            def delete(change):
                del change[1]["size"]
            self.refused(bestore.NoAttribute, 'node 1 has no attribute "size"', lambda: store.change(delete))
            self.refused(bestore.NoNode, "there is no node 9", lambda: store.change(lambda change: change.attributes(9)))

    def test_writes(self):
        with bestore.open(64, 1, 100) as store:
            store.apply(bestore.Batch().new_node().set(1, "a", 5))
            for write in (lambda: store.set(9, "a", 5), lambda: store.remove_node(9), lambda: store.unset(9, "a"),
                          lambda: store.change(lambda change: change.set(9, "a", 5))):
                self.assertEqual(self.refused(bestore.NoNode, "there is no node 9", write).node, 9)
            fault = self.refused(bestore.NoAttribute, 'node 1 has no attribute "b"', lambda: store.unset(1, "b"))
            self.assertEqual((fault.node, fault.name), (1, "b"))
            batch = bestore.Batch().set(1, "a", 6).unset(1, "a").set(9, "b", 7).set(9, "c", 7)
            fault = self.refused(bestore.NoNode, "one of the nodes 1, 9 isn't there", lambda: store.apply(batch))
            self.assertEqual((fault.node, pickle.loads(pickle.dumps(fault)).nodes), (None, (1, 9)))
            batch = bestore.Batch().new_node().unset(1, "a").unset(1, "b")
            self.refused(bestore.NoAttribute, "the node has no attribute of this name", lambda: store.apply(batch))

    def test_values(self):
        kinds = "STRING, INT32, INT64, MIME, RAW, UINT32, UINT64"
        with bestore.open(64, 1, 100) as store:
            store.new_node()
            for value, kind, said in [
                (True, None, "True isn't an attribute's value: write int(True), which is 1, or a string"),
                (False, bestore.INT32, "False isn't an attribute's value: write int(False), which is 0, or a string"),
                (1.5, None, "1.5 isn't an attribute's value, which is a str, bytes or an int"),
                (None, bestore.STRING, "None isn't an attribute's value, which is a str, bytes or an int"),
                ("5", bestore.INT32, "'5' can't be of the kind INT32: a str is STRING or MIME"),
                (b"5", bestore.STRING, "b'5' can't be of the kind STRING: bytes are RAW"),
                (5, bestore.MIME, "5 can't be of the kind MIME: an int is INT64, INT32, UINT32 or UINT64"),
            ]:
                for write in (lambda: store.set(1, "a", value, kind), lambda: bestore.Batch().set(1, "a", value, kind),
                              lambda: store.change(lambda change: change.set(1, "a", value, kind))):
                    self.refused(TypeError, said, write)
            said = f"no kind has this type code; the kinds are {kinds}"
            self.refused(bestore.NoKind, said, lambda: store.set(1, "a", "5", 7))
            self.refused(bestore.NoKind, said.replace(";", " (operation 0, counted from 0);"), lambda: store.make_index("a", 7))
            self.refused(TypeError, "'1' isn't a node: a node is an int", lambda: store.set("1", "a", 5))
            with store.pin() as version:
                for read in (lambda: version.attributes("1"), lambda: version.get("1", "a"), lambda: version.column(["1"], "a"),
                             lambda: version["1"]["a"]):
                    self.refused(TypeError, "'1' isn't a node: a node is an int", read)
                self.assertEqual(version.attributes(1), {})

    def test_queries(self):
        """What is neither a text nor prepared isn't taken for items, nor asked for its attributes."""
        with bestore.open(64, 1, 100) as store:
            store.make_index("a", bestore.STRING)
            with store.pin() as version:
                for query in b"a==x", ["a", "x"], 5, None:
                    for ask in (version.query, version.count, version.explain, version.ways, version.hints, bestore.prepare, store.prepare,
                                lambda query: version.any(query, 1), lambda query: version.query(query, by="a"),
                                lambda query: version.query(query, limit=1), lambda query: version.rows(query, ["a"])):
                        self.refused(TypeError, f"{query!r} isn't a query's text, which is a str", lambda: ask(query))
                    self.refused(TypeError, f"{query!r} isn't a prepared query", lambda: version.refresh(query))
            for text in b"x", 5:
                for call in bestore.escape, bestore.any_case, store.remove_index:
                    self.refused(TypeError, f"{text!r} isn't a str", lambda: call(text))
            self.refused(TypeError, "b'a' isn't a query's text, which is a str", lambda: store.watch(b"a"))


class Whole(unittest.TestCase):
    def test_nodes(self):
        with bestore.open(1024, 1, 1000) as store:
            for _ in range(50):
                batch = bestore.Batch()
                for _ in range(64):
                    batch.new_node()
                store.apply(batch)
            store.remove_node(1024)
            with store.pin() as version:
                nodes = [node for node in range(1, 3201) if node != 1024]
                self.assertEqual(list(version), nodes)
                self.assertEqual(version.nodes(1020, 5), [1020, 1021, 1022, 1023, 1025])
                self.assertEqual((version.nodes(3200), version.nodes(3201), version.nodes(2**64 - 1)), ([3200], [], []))
                self.assertEqual((version.nodes(1, 4000), version.nodes(5, 2048)), (nodes, nodes[4:2052]))
                self.assertEqual((version.nodes(0, 0), sum(1 for _ in zip(version, range(3)))), ([], 3))
            with self.assertRaises(bestore.NotPinned):
                version.nodes()

    def test_status(self):
        with bestore.open(64, 2, 1000) as store, store.another() as other:
            first = store.status()
            self.assertEqual((first.pages, first.retired, first.entries, first.commits, first.oldest), (64, 0, 0, 1000, None))
            with other.pin():
                for _ in range(5):
                    store.new_node()
                held = store.status()
                self.assertEqual((held.entries, held.oldest), (5, bestore.Held(0, 0)))
                self.assertGreater(held.retired, 0)
            self.assertEqual((other.status().retired, other.status().oldest), (0, None))


class WhatIsCarried(unittest.TestCase):
    def test_operations(self):
        with bestore.open(64, 1, 100) as store:
            for kind, batch in [
                (bestore.NameLength, bestore.Batch().new_node().new_node().unset(1, "")),
                (bestore.HasNul, bestore.Batch().new_node().new_node().set(1, "k", "\0")),
                (bestore.DataLength, bestore.Batch().new_node().new_node().set(1, "k", bytes(256))),
                (bestore.NoKind, bestore.Batch().new_node().new_node().make_index("k", 1)),
            ]:
                with self.assertRaises(kind) as fault:
                    store.apply(batch)
                self.assertEqual(fault.exception.operation, 2)
            with self.assertRaises(bestore.NoNode) as none:
                store.apply(bestore.Batch().new_node().unset(2, "k"))
            self.assertIsNone(none.exception.operation)

    def test_full(self):
        with bestore.open(8, 1, 1000) as store:
            store.new_node()
            with store.pin(), self.assertRaises(bestore.Full) as full:
                for _ in range(100):
                    store.new_node()
            self.assertEqual(full.exception.least, 1)

    def test_busy(self):
        """`Busy` names the pass that is writing, which here is always the other one, pass 1."""
        with bestore.open(64, 2) as store, store.another() as other:
            node, holders = store.new_node(), set()

            def write():
                for number in range(3000):
                    try:
                        other.apply(bestore.Batch().set(node, "k", number), tries=1)
                    except bestore.Busy as busy:
                        holders.add(busy.pass_number)
            running = threading.Thread(target=write)
            running.start()
            while running.is_alive():
                store.set(node, "k", 0)
            running.join()
            self.assertEqual(holders - {1}, set())


class Library(unittest.TestCase):
    def test_missing(self):
        environment = dict(os.environ, BESTORE_LIBRARY="/nowhere/libbestore.so.0", PYTHONPATH=os.pathsep.join(sys.path))
        said = subprocess.run([sys.executable, "-c", "import bestore; bestore.open()"], env=environment, stderr=subprocess.PIPE, check=False)
        self.assertIn(b"ImportError: bestore can't load its library: /nowhere/libbestore.so.0", said.stderr)
        self.assertIn(b"run `make -C c`", said.stderr)

    def test_version(self):
        self.assertEqual(bestore._library.dotted(bestore._library.calls.bes_version()), bestore.__version__)
        self.assertEqual(bestore._library.dotted(12003045), "12.3.45")


class Threads(unittest.TestCase):
    def test_two_writers(self):
        with bestore.open(1024, 2, 1000) as store, store.another() as other:
            def write(user):
                for _ in range(100):
                    user.new_node()
            running = threading.Thread(target=write, args=(other,))
            running.start()
            write(store)
            running.join()
            with store.pin() as version:
                self.assertEqual(version.number, 200)

    def test_one_pass(self):
        """Concurrent calls on a pass, or on a prepared query, wait for each other. A later pin doesn't make an ended version
        readable."""
        with bestore.open(4096, 1) as store, bestore.prepare("k >= 0") as query:
            store.apply(bestore.Batch().make_index("k", bestore.INT64).new_node().set(1, "k", 0))
            faults = []

            def use(number):
                for _ in range(100):
                    store.set(1, "k", number)
                    try:
                        with store.pin() as version:
                            if version.query_prepared(query) != [1] or version.refresh(query)[1]:
                                faults.append("an answer is wrong")
                        version.get(1, "k")
                    except (bestore.Pinned, bestore.NotPinned):
                        continue
                    faults.append("a version that was given up is read")
            running = [threading.Thread(target=use, args=(it,)) for it in range(4)]
            for thread in running:
                thread.start()
            for thread in running:
                thread.join()
            with store.pin() as version:
                self.assertEqual((faults, version.number), ([], 401))

    def test_gone_beside_a_call(self):
        """Dropping a version doesn't wait for a thread that is using its pass. That thread then ends the pin."""
        with bestore.open(64, 1, 10) as store:
            version = store.pin()
            begun, gone, waits = threading.Event(), threading.Event(), []

            def call(handle):
                begun.set()
                waits.append(not gone.wait(10))
                return 0
            running = threading.Thread(target=store._call, args=(call,))
            running.start()
            begun.wait()
            del version
            gone.set()
            running.join()
            self.assertEqual((waits, store.status().oldest), ([False], None))

    def test_one_try(self):
        with bestore.open(64, 1, 10) as store:
            self.assertEqual(store.apply(bestore.Batch().new_node(), tries=1), (1, [1]))
            self.assertEqual(store.apply(bestore.Batch().new_node(), tries=0), (2, [2]))


if __name__ == "__main__":
    unittest.main()
