"""Tests of reading batches back, as operations and as bytes, and of reading journal entries."""

import os
import pathlib
import random
import threading
import unittest

import bestore

EACH = [
    bestore.NewNode(), bestore.RemoveNode(2**64 - 1), bestore.SetAttribute(1, "hé", "é", bestore.STRING),
    bestore.SetAttribute(1, "k", "a/b", bestore.MIME), bestore.SetAttribute(1, "k", b"\0\xff", bestore.RAW),
    bestore.SetAttribute(1, "k", -(2**31), bestore.INT32), bestore.SetAttribute(1, "k", -(2**63), bestore.INT64),
    bestore.SetAttribute(1, "k", 2**32 - 1, bestore.UINT32), bestore.SetAttribute(1, "k", 2**64 - 1, bestore.UINT64),
    bestore.UnsetAttribute(1, "k"), bestore.MakeIndex("k", bestore.UINT64), bestore.RemoveIndex("k"),
]

TABLE = os.path.join(os.path.dirname(os.path.abspath(__file__)), "..", "tests", "batches.txt")


def table(mark, path=TABLE):
    """Returns the bytes and words from the lines with this mark, in the table that every language's encoder is tested against."""
    with open(path, encoding="utf-8") as file:
        rows = [line.split(f" {mark} ") for line in file if not line.startswith("#")]
    return [(bytes_of(row[0]), row[1].split()) for row in rows if len(row) == 2]


def bytes_of(words):
    """Decodes words such as `00ff`, `61*63` and `-`."""
    parts = [word.partition("*") for word in words.replace("-", "").split()]
    return b"".join(bytes.fromhex(digits) * int(times or 1) for digits, _, times in parts)


def add_words(batch, words):
    """Adds the operation described by these words."""
    kind, node, name, code, number, value = words
    code = int.from_bytes(code.replace("-", "").encode(), "big")
    batch._add_encoded(int(kind), int(node), bytes_of(name), code, int(number) % 2**64, bytes_of(value))


def random_operation(chance):
    node, name = chance.randrange(2**64), chance.choice(["a", "MAIL:from", "hé" * 20, "x" * 63])
    value, kind = chance.choice([
        ("é" * 127, bestore.STRING), ("", bestore.MIME), (bytes(255), bestore.RAW), (-5, bestore.INT32),
        (-(2**63), bestore.INT64), (5, bestore.UINT32), (2**64 - 1, bestore.UINT64)])
    return chance.choice([
        bestore.NewNode(node), bestore.RemoveNode(node), bestore.SetAttribute(node, name, value, kind),
        bestore.UnsetAttribute(node, name), bestore.MakeIndex(name, kind), bestore.RemoveIndex(name)])


class Operations(unittest.TestCase):
    def test_read_back(self):
        batch = bestore.Batch(EACH)
        self.assertEqual((list(batch), len(batch), repr(batch)), (EACH, len(EACH), f"<batch of {len(EACH)} operations>"))
        chained = bestore.Batch().new_node().set(1, "a", bestore.Int32(5)).set(1, "b", "x").make_index("a", bestore.INT32)
        self.assertEqual(list(chained), [
            bestore.NewNode(), bestore.SetAttribute(1, "a", 5, bestore.INT32), bestore.SetAttribute(1, "b", "x", bestore.STRING),
            bestore.MakeIndex("a", bestore.INT32)])
        self.assertEqual(list(bestore.Batch([bestore.SetAttribute(1, "a", 5)])), [bestore.SetAttribute(1, "a", 5, bestore.INT64)])
        self.assertNotEqual(bestore.NewNode(5), bestore.RemoveNode(5))

    def test_equal(self):
        """Batches with the same operations are equal, whichever class stores them."""
        class Plain(bestore.Batch):
            """Not stored by the extension."""
        bestore.open(64).close()
        self.assertIsNot(type(bestore.Batch()).__mro__[1], bestore.Batch)
        for kind in bestore.Batch, Plain:
            self.assertEqual(kind(EACH), bestore.Batch(EACH))
            self.assertEqual(kind(), bestore.Batch())
            for place in range(len(EACH)):
                self.assertNotEqual(kind(EACH), bestore.Batch(EACH[:place] + EACH[place + 1:]))
            self.assertNotEqual(kind([bestore.NewNode(5)]), bestore.Batch([bestore.RemoveNode(5)]))
            self.assertNotEqual(kind().new_node(), [bestore.NewNode()])
            self.assertRaises(TypeError, hash, kind())

    def test_what_isnt_an_operation(self):
        """Something else with a name doesn't remove the index of this name."""
        for other in pathlib.PurePath("size"), bestore.INT64, "size", 5:
            with self.assertRaisesRegex(TypeError, "isn't an operation"):
                bestore.Batch([other])
        for other in 5, "BEB", None:
            self.assertRaises(TypeError, bestore.Batch.from_bytes, other)
        for operation in EACH:
            self.assertEqual(eval(repr(operation), vars(bestore), {"bestore": bestore}), operation)

    def test_surrogates(self):
        for operation in (
            bestore.SetAttribute(1, "\udcff", 5), bestore.SetAttribute(1, "a", "\udcff"),
            bestore.MakeIndex("\ud800", bestore.INT32),
        ):
            with self.assertRaises(bestore.NotUTF8):
                bestore.Batch().add(operation)
        with bestore.open(64, 1, 100) as store, store.pin() as version, self.assertRaises(bestore.NotUTF8):
            version.get(1, "\udcff")


class Bytes(unittest.TestCase):
    def is_written(self, batch, operations):
        data = b"BEB\1" + bytes([len(batch)]) + operations
        self.assertEqual(batch.to_bytes(), data)
        again = bestore.Batch.from_bytes(data)
        self.assertEqual((list(again), again.to_bytes()), (list(batch), data))

    def test_table(self):
        """Checks the encoding byte by byte, as the other languages' tests do."""
        whole, together = bestore.Batch(), b""
        for operation, words in table("="):
            one = bestore.Batch()
            add_words(one, words)
            add_words(whole, words)
            self.is_written(one, operation)
            together += operation
        self.assertGreater(len(whole), 30)
        self.is_written(whole, together)

    def test_refused(self):
        reasons = {
            "beginning": "don't begin with BEB", "version": "a version other than 1", "count": "a batch has 1 to 64 operations",
            "operation": "no operation has the number", "name": "a name has 1 to 63 bytes, and this one",
            "kind": "no kind has the type code", "number": "doesn't fit its kind", "utf8": "isn't valid UTF-8", "nul": "has a zero byte",
            "end": "more bytes", "cut": "is cut off",
        }
        rows = table("!")
        self.assertGreater(len(rows), 12)
        for data, (offset, part) in rows:
            with self.assertRaises(bestore.BadBytes) as fault:
                bestore.Batch.from_bytes(data)
            self.assertEqual(fault.exception.offset, int(offset))
            self.assertIn(reasons[part], str(fault.exception))

    def test_random(self):
        chance = random.Random(1)
        for _ in range(300):
            operations = [random_operation(chance) for _ in range(chance.randrange(1, 65))]
            data = bestore.Batch(operations).to_bytes()
            again = bestore.Batch.from_bytes(data)
            self.assertEqual((list(again), again.to_bytes()), (operations, data))

    def test_broken(self):
        whole = bestore.Batch([bestore.SetAttribute(1, "ab", 5, bestore.INT32)]).to_bytes()
        for data, offset, reason in [
            (b"", 0, "the beginning is cut off"), (whole[:3], 3, "the beginning is cut off"), (whole[:4], 4, "is cut off"),
            (whole[:9], 6, "a node is cut off"), (whole[:16], 14, "a name is cut off"), (whole[:-1], 21, "a number is cut off"),
        ]:
            with self.assertRaises(bestore.BadBytes) as fault:
                bestore.Batch.from_bytes(data)
            self.assertEqual(fault.exception.offset, offset)
            self.assertIn(reason, str(fault.exception))
        for end in range(len(whole)):
            with self.assertRaises(bestore.BadBytes):
                bestore.Batch.from_bytes(whole[:end])

    def test_anything(self):
        """Randomly changed bytes either are a valid batch, which encodes to the same bytes, or raise `BadBytes`."""
        chance, read = random.Random(2), 0
        for _ in range(3000):
            data = bytearray(bestore.Batch([random_operation(chance) for _ in range(3)]).to_bytes())
            for _ in range(chance.randrange(3)):
                data[chance.randrange(len(data))] = chance.randrange(256)
            try:
                batch = bestore.Batch.from_bytes(bytes(data))
                self.assertEqual(batch.to_bytes(), bytes(data))
                list(batch)
                read += 1
            except bestore.Error:
                pass
        self.assertGreater(read, 500)

    def test_no_bytes(self):
        for batch, error in [
            (bestore.Batch(), bestore.BadCount), (bestore.Batch([bestore.NewNode()] * 65), bestore.BadCount),
            (bestore.Batch().new_node().unset(1, "x" * 64), bestore.NameLength),
            (bestore.Batch().new_node().unset(1, ""), bestore.NameLength),
            (bestore.Batch().new_node().set(1, "", 5), bestore.NameLength),
            (bestore.Batch().new_node().make_index("", bestore.INT64), bestore.NameLength),
            (bestore.Batch().new_node().set(1, "x", bytes(256)), bestore.DataLength),
            (bestore.Batch().new_node().make_index("x", 1), bestore.NoKind),
        ]:
            with self.assertRaises(error) as fault:
                batch.to_bytes()
            self.assertIn(fault.exception.operation, (None, 1))

    def test_what_is_no_text(self):
        """Bytes with text that isn't valid UTF-8 aren't a batch, and a zero byte can't be written."""
        data = bestore.Batch([bestore.SetAttribute(1, "ab", "xy", bestore.STRING)]).to_bytes()
        for broken in (data.replace(b"ab", b"\xff\xfe"), data.replace(b"xy", b"x\xfe"), data.replace(b"xy", b"x\0")):
            self.assertRaises(bestore.BadBytes, bestore.Batch.from_bytes, broken)
        for batch in (bestore.Batch().new_node().set(1, "x", "\0"), bestore.Batch().new_node().unset(1, "x\0")):
            with self.assertRaises(bestore.HasNul) as fault:
                batch.to_bytes()
            self.assertEqual(fault.exception.operation, 1)
        raw = bestore.Batch().set(1, "x", b"\0\xff")
        self.assertEqual(list(bestore.Batch.from_bytes(raw.to_bytes())), list(raw))


class Entries(unittest.TestCase):
    def test_entries(self):
        with bestore.open(64, 2, 100) as store, store.another() as other:
            self.assertEqual(list(store.journal_from()), [])
            store.apply(bestore.Batch().new_node().set(1, "k", "v").new_node())
            other.apply(bestore.Batch().remove_node(2).make_index("k", bestore.INT32).set(1, "k", -5, bestore.INT32))
            first = bestore.Entry(1, store.number, (
                bestore.NewNode(1), bestore.SetAttribute(1, "k", "v", bestore.STRING), bestore.NewNode(2)))
            second = bestore.Entry(2, other.number, (
                bestore.RemoveNode(2), bestore.MakeIndex("k", bestore.INT32), bestore.SetAttribute(1, "k", -5, bestore.INT32)))
            self.assertEqual((store.number, other.number), (1, 0))
            self.assertEqual((list(store.journal_from()), list(other.journal_from(1))), ([first, second], [second]))
            for after in (2, 3, 2**64 - 1, 2**64):
                self.assertEqual(list(store.journal_from(after)), [])
            self.assertEqual(list(store.journal_from(1 - 2**64)), [first, second])

    def test_makes_the_store_again(self):
        chance = random.Random(3)
        with bestore.open(1024, 1, 1000) as store, bestore.open(1024, 1, 1000) as other:
            store.new_nodes(20)
            for _ in range(100):
                batch = bestore.Batch()
                for _ in range(chance.randrange(1, 65)):
                    batch.set(chance.randrange(1, 21), chance.choice("abc"), chance.choice(["x" * 255, 5, b"\0"]))
                store.apply(batch)
            for entry in store.journal_from():
                number, made = other.apply(bestore.Batch(entry.operations))
                self.assertEqual(number, entry.number)
                self.assertEqual(made, [it.node if isinstance(it, bestore.NewNode) else 0 for it in entry.operations])
            self.assertEqual(other.journal(), store.journal())

    def test_follows_writers(self):
        with bestore.open(1024, 3, 10000) as store:
            passes = [store.another() for _ in range(2)]

            def write(user):
                for _ in range(100):
                    user.new_node()
            running = [threading.Thread(target=write, args=(user,)) for user in passes]
            for thread in running:
                thread.start()
            seen = []
            while len(seen) < 200:
                seen += store.journal_from(len(seen))
            for thread in running:
                thread.join()
            self.assertEqual([entry.number for entry in seen], list(range(1, 201)))
            self.assertEqual([entry.operations for entry in seen], [(bestore.NewNode(node),) for node in range(1, 201)])
            self.assertEqual({entry.pass_number for entry in seen}, {user.number for user in passes})


if __name__ == "__main__":
    unittest.main()
