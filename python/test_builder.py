"""Tests of builders and of listings, from which stores are built."""

import os
import random
import threading
import unittest

import bestore
from bestore._listings import BEGINNING, batches, records
from test_batches import bytes_of, table
from test_batches_alike import changed
from test_large import resident

TABLE = os.path.join(os.path.dirname(os.path.abspath(__file__)), "..", "tests", "listings.txt")
KINDS = [bestore.STRING, bestore.INT32, bestore.INT64, bestore.UINT32, bestore.UINT64, bestore.MIME, bestore.RAW]
RECORDS = ["index", "node", "attribute", "held"]


def copied(version, pages=64, passes=1):
    """Returns a store that begins with what the version contains."""
    with bestore.Builder(pages, passes) as builder:
        for batch in version.listing():
            builder.batch(batch)
        return builder.finish(version.next_node)


def contents(version):
    return b"".join(version.listing()), version.next_node


def refusal(data):
    """Returns where a builder and Python find a batch's first wrong byte, or None. Without a store's order, only Python reads all."""
    try:
        list(records(data))
        expected = None
    except bestore.BadBytes as error:
        expected = error.offset
    with bestore.Builder(64) as builder:
        try:
            builder.batch(data)
        except bestore.BadBytes as error:
            return expected, error.offset
        except bestore.Refusal:
            return expected, expected
    return expected, None


def value_of(chance, kind):
    if kind in (bestore.STRING, bestore.MIME):
        return chance.choice(["", "é", "text", "x" * 255])
    return chance.choice([b"", b"\0\xff", bytes(255)]) if kind == bestore.RAW else chance.randrange(9)


class Builders(unittest.TestCase):
    def test_values(self):
        with bestore.Builder(64) as builder:
            builder.index("a", bestore.INT64)
            builder.index("t", bestore.STRING)
            builder.node(3)
            builder.attribute("a", 5)
            builder.attribute("i", bestore.Int32(-5))
            builder.attribute("r", b"\0\xff")
            builder.attribute("t", "é")
            builder.node(2**62)
            builder.attribute("a", 6, held=False)
            builder.attribute("t", "x", bestore.MIME)
            store = builder.finish(2**62 + 7)
        with store:
            with store.pin() as version:
                self.assertEqual((version.number, list(version), version.next_node), (0, [3, 2**62], 2**62 + 7))
                self.assertEqual(version.attributes(3, kinds=True), {
                    "a": (5, bestore.INT64), "i": (-5, bestore.INT32), "r": (b"\0\xff", bestore.RAW), "t": ("é", bestore.STRING)})
                self.assertEqual(version.attributes(2**62), {"a": 6, "t": "x"})
                self.assertEqual((version.query("a>0"), version.query('t=="*"')), ([3], [3]))
            self.assertEqual((store.journal(), store.new_node(), store.reindex("a")), ("", 2**62 + 7, 1))
            with store.another() as other, other.pin() as version:
                self.assertEqual(version.query("a>0"), [3, 2**62])

    def test_refused(self):
        """A call that is refused leaves the builder as it was."""
        with bestore.Builder(64) as builder:
            builder.index("b", bestore.INT64)
            for error, call in [
                (bestore.IndexExists, lambda: builder.index("a", bestore.INT64)),
                (bestore.NotIndexable, lambda: builder.index("c", bestore.RAW)),
                (bestore.NoKind, lambda: builder.index("c", 5)), (bestore.NameLength, lambda: builder.index("", bestore.INT64)),
                (TypeError, lambda: builder.index(5, bestore.INT64)), (bestore.NoNode, lambda: builder.attribute("a", 5)),
                (bestore.NoNode, lambda: builder.node(0)), (bestore.NoNode, lambda: builder.node(2**63)),
                (bestore.NoNode, lambda: builder.node(2**64)), (TypeError, lambda: builder.node("1")),
            ]:
                self.assertRaises(error, call)
            builder.node(5)
            builder.attribute("b", 5)
            for error, call in [
                (bestore.NoNode, lambda: builder.index("c", bestore.INT64)), (bestore.NoNode, lambda: builder.node(5)),
                (bestore.NoAttribute, lambda: builder.attribute("b", 6)), (bestore.NoAttribute, lambda: builder.attribute("a", 6)),
                (bestore.NoIndex, lambda: builder.attribute("c", 6, held=True)), (bestore.HasNul, lambda: builder.attribute("c", "\0")),
                (bestore.NotUTF8, lambda: builder.attribute("\ud800", 6)), (bestore.DataLength, lambda: builder.attribute("c", "x" * 256)),
                (TypeError, lambda: builder.attribute("c", 1.5)), (TypeError, lambda: builder.batch("c")),
            ]:
                self.assertRaises(error, call)
            builder.node(6)
            self.assertRaises(bestore.NotIndexable, builder.attribute, "b", "text", held=True)
            builder.attribute("b", "text")
            with builder.finish(7) as store, store.pin() as version:
                self.assertEqual((version.attributes(5), version.attributes(6), version.query("b>0")), ({"b": 5}, {"b": "text"}, [5]))

    def test_limits(self):
        for limits in (7, 1, 1), (64, 0, 1), (64, 65, 1), (64, 1, 0), (2**64, 1, 1), (-1, 1, 1):
            self.assertRaises(bestore.BadLimits, bestore.Builder, *limits)
        for most, error, add in (32, bestore.TooManyIndices, "index"), (64, bestore.TooManyAttributes, "attribute"):
            with bestore.Builder(64) as builder:
                if add == "attribute":
                    builder.node(1)
                for number in range(most):
                    getattr(builder, add)(f"{number:02}", bestore.INT64)
                self.assertRaises(error, getattr(builder, add), "xx", bestore.INT64)

    def test_ends(self):
        builder = bestore.Builder(64)
        builder.node(5)
        for following in (5, 0, -1, 2**63 + 1, 2**64):
            with bestore.Builder(64) as other:
                other.node(5)
                self.assertRaises(bestore.NoNode, other.finish, following)
                self.assertRaises(bestore.Closed, other.node, 6)
        builder.finish(2**63).close()
        for call in (lambda: builder.node(6), lambda: builder.finish(7), lambda: builder.batch(BEGINNING + b"\2" + bytes(8))):
            self.assertRaises(bestore.Closed, call)
        builder.close()
        with self.assertRaisesRegex(TypeError, "a builder can't be copied"):
            builder.__reduce_ex__(2)

    def test_full(self):
        """From then on, each call raises the same error. What fits is built with as few pages as it needs."""
        builder, node = bestore.Builder(16), 0
        with self.assertRaises(bestore.Full):
            while True:
                node += 1
                builder.node(node)
                builder.attribute("name", "x" * 255)
        for call in (lambda: builder.node(node + 1), lambda: builder.attribute("o", 5), lambda: builder.finish(node + 1)):
            self.assertRaises(bestore.Full, call)
        self.assertGreater(node, 80)

    @unittest.skipUnless(hasattr(os, "fork"), "there is no fork")
    def test_fork(self):
        with bestore.Builder(64) as builder:
            builder.node(1)
            child = os.fork()
            if child == 0:
                try:
                    for call in (lambda: builder.node(2), lambda: builder.finish(9), lambda: builder.batch(BEGINNING)):
                        self.assertRaises(bestore.Forked, call)
                    builder.close()
                    os._exit(7)
                finally:
                    os._exit(1)
            self.assertEqual(os.WEXITSTATUS(os.waitpid(child, 0)[1]), 7)
            builder.node(2)
            with builder.finish(3) as store, store.pin() as version:
                self.assertEqual(list(version), [1, 2])


class Listings(unittest.TestCase):
    def test_copies(self):
        """A listing includes the next node number, attributes of each kind, and which attributes are missing from their index."""
        with bestore.open(64, 1, 100) as store:
            store.apply(bestore.Batch().new_node().new_node().new_node().remove_node(2))
            store.apply(bestore.Batch().set(1, "k", "before").set(1, "r", b"\0\xff"))
            store.apply(bestore.Batch().make_index("k", bestore.STRING).make_index("n", bestore.INT32))
            store.apply(bestore.Batch().set(3, "k", "after").set(3, "n", -5, bestore.INT32).set(3, "m", "a/b", bestore.MIME))
            with store.pin() as version, copied(version) as other:
                with other.pin() as again:
                    self.assertEqual(contents(again), contents(version))
                    self.assertEqual((list(again), again.indices()), ([1, 3], {"k": bestore.STRING, "n": bestore.INT32}))
                    for query in ('k == "*"', "n < 0"):
                        self.assertEqual((version.query(query), again.query(query)), ([3], [3]))
                self.assertEqual(other.new_node(), 4)

    def test_batches(self):
        """A batch is cut at the first record with which it has 64 KiB. A node's attributes may go on in the next one."""
        with bestore.open(1024, 1, 10000) as store:
            with store.pin() as version:
                self.assertEqual(list(version.listing()), [])
            for node in store.new_nodes(9):
                batch = bestore.Batch()
                for number in range(64 if node != 5 else 0):
                    batch.set(node, f"name {number}", bytes(255))
                store.apply(batch) if len(batch) else None
            with store.pin() as version:
                found = list(version.listing())
                first, second = version.listing(), version.listing()
                self.assertEqual((next(first), next(second), next(first)), (found[0], found[0], found[1]))
            self.assertRaises(bestore.NotPinned, next, second)
        self.assertEqual([len(batch) // 65536 for batch in found], [1, 1, 0])
        self.assertEqual(list(batches(record for batch in found for record in records(batch))), found)
        for batch in found[:2]:
            kind, _, name, value = list(records(batch))[-1]
            self.assertLess(len(batch) - 65536, 1 + 1 + len(name) + len(value))

    def test_random(self):
        """A copy has the same contents, and the same writes to both have the same outcomes."""
        for seed in range(20):
            chance = random.Random(seed)
            with self.subTest(seed=seed), bestore.open(512, 1) as store:
                self.write(chance, 60, store)
                with store.pin() as version, copied(version, 512) as other:
                    self.same(store, other, version)
                    version.unpin()
                    self.write(chance, 60, store, other)
                    with store.pin() as version:
                        self.same(store, other, version)

    def write(self, chance, count, store, *others):
        for _ in range(count):
            with store.pin() as version:
                nodes = [*version, version.next_node]
                indices = list(version.indices())
            node, name, kind = chance.choice(nodes), chance.choice("abcdefg"), chance.choice(KINDS)
            batch = chance.choice([
                bestore.Batch().new_node(), bestore.Batch().set(node, name, value_of(chance, kind), kind),
                bestore.Batch().unset(node, name), bestore.Batch().new_node().set(nodes[-1], name, 5), bestore.Batch().remove_node(node),
                bestore.Batch().make_index(name, kind), bestore.Batch().remove_index(chance.choice(indices or ["a"]))])
            outcomes = []
            for user in (store, *others):
                try:
                    outcomes.append(user.apply(batch)[1])
                except bestore.Refusal as error:
                    outcomes.append(error.number)
            self.assertEqual(outcomes, outcomes[:1] * len(outcomes))

    def same(self, store, other, version):
        with other.pin() as again:
            self.assertEqual(contents(again), contents(version))
            self.assertEqual((list(again), again.indices()), (list(version), version.indices()))
            for name in version.indices():
                for query in (f'{name}=="*"', f"{name}>=0", f"{name}!=3"):
                    self.assertEqual(again.query(query), version.query(query))

    def test_while_others_write(self):
        """The old store's pin can still be read. A query that was first refreshed there finds no change in the new store."""
        with bestore.open(4096, 3, 100000) as store, store.another() as first, store.another() as second:
            store.apply(bestore.Batch().make_index("n", bestore.INT64).new_node().new_node().set(1, "n", 1).set(2, "n", 2))

            def write(user, node):
                for number in range(200):
                    user.apply(bestore.Batch().set(node, "n", number).new_node())
            running = [threading.Thread(target=write, args=it) for it in ((first, 1), (second, 2))]
            for thread in running:
                thread.start()
            for _ in range(3):
                with store.pin() as version, copied(version, 4096) as other, other.pin() as again:
                    self.assertEqual(contents(again), contents(version))
                    self.assertEqual(again.query("n >= 0"), version.query("n >= 0"))
            for thread in running:
                thread.join()
            with bestore.prepare("n >= 0") as live, store.pin() as version, copied(version, 4096) as other:
                self.assertEqual(version.refresh(live), ([1, 2], []))
                with other.pin() as again:
                    self.assertEqual((again.refresh(live), len(list(again))), (([], []), 402))
                other.remove_node(1)
                with other.pin() as again:
                    self.assertEqual((again.refresh(live), version.query("n >= 0")), (([], [1]), [1, 2]))


class Bytes(unittest.TestCase):
    def test_table(self):
        """Checks the encoding byte by byte, as the other languages' tests do."""
        rows = table("=", TABLE)
        listed = [next(records(BEGINNING + data)) for data, _ in rows]
        for (data, words), (kind, node, name, value) in zip(rows, listed):
            self.assertEqual(RECORDS[kind - 1], words[0])
            if words[0] == "node":
                self.assertEqual(node, int(words[1]))
                continue
            code = int.from_bytes(words[2].encode(), "big").to_bytes(4, "little")
            number = (int(words[3]) % 2**64).to_bytes(8, "little") if len(words) > 3 else b""
            text = bytes_of(words[4]) if len(words) > 3 else b""
            self.assertEqual(name, bytes_of(words[1]))
            self.assertIn(value, (code, code + number, code + bytes([len(text)]) + text))
        self.assertEqual(list(batches(listed)), [BEGINNING + b"".join(data for data, _ in rows)])
        self.assertGreater(len(rows), 15)

    def test_invalid(self):
        rows = table("!", TABLE)
        for data, (offset, *_) in rows:
            with self.subTest(data.hex(" ")):
                self.assertEqual(refusal(data), (int(offset), int(offset)))
        self.assertGreater(len(rows), 25)
        with bestore.Builder(64) as builder, self.assertRaises(ValueError) as raised:
            builder.batch(b"BEV\1\2")
        self.assertEqual(str(raised.exception), "the bytes aren't those of a batch: a part is cut off at byte 5")

    def test_changed_bytes(self):
        """The extension's decoder and Python's refuse the same bytes, at the same place."""
        with bestore.open(64, 1) as store:
            store.apply(bestore.Batch().make_index("é", bestore.STRING).make_index("n", bestore.UINT32).new_node().new_node())
            store.apply(bestore.Batch().set(1, "n", 5, bestore.UINT32).set(1, "é", "ü").set(2, "m", "a/b", bestore.MIME).set(2, "r", b"\0"))
            with store.pin() as version:
                batch, = version.listing()
        chance, found = random.Random(7), 0
        for _ in range(4000):
            data = changed(chance, batch)
            expected, refused = refusal(data)
            self.assertEqual(refused, expected, data.hex(" "))
            found += refused is not None
        self.assertGreater(found, 1000)

    def test_long_value(self):
        """A batch that is cut off at any place isn't read beyond its end."""
        batch = next(batches([(2, 1, b"", b""), (3, 0, b"n" * 63, b"RTSC" + b"\xff" + b"x" * 255)]))
        for end in range(len(batch)):
            expected, refused = refusal(batch[:end])
            self.assertEqual(refused, expected)


class Memory(unittest.TestCase):
    def test_nothing_is_left(self):
        """Builders and listings free what they allocate."""
        with bestore.open(64, 1) as store:
            store.apply(bestore.Batch().new_node().set(1, "a", "x" * 255))

            def use():
                with store.pin() as version, bestore.Builder(8) as builder:
                    for data in (b"BEV", b"BEV\1\2", b"BEV\1\3\1a", *version.listing()):
                        try:
                            builder.batch(data)
                        except bestore.BadBytes:
                            pass
                    builder.finish(2).close()
            for _ in range(50):
                use()
            before = resident()
            for _ in range(500):
                use()
            self.assertLess(resident() - before, 4 << 20)


if __name__ == "__main__":
    unittest.main()
