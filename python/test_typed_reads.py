"""Tests of reads of attributes whose type the program knows: in this process, and with a server, which BESTORED names."""

import unittest

import bestore
from servers import WithServer

class Reads:
    def test_types(self):
        self.store.new_node()
        for name, value, kind in [("name", "ann", None), ("type", "text/plain", bestore.MIME), ("key", b"\0", None),
                                  ("size", 5, None), ("small", 5, bestore.INT32)]:
            self.store.set(1, name, value, kind)
        with self.store.pin() as version:
            self.check(version)
        self.store.change(self.check)

    def check(self, version):
        self.assertEqual((version.text(1, "name"), version.text(1, "type")), ("ann", "text/plain"))
        self.assertEqual((version.int(1, "size"), version.int(1, "small"), version.raw(1, "key")), (5, 5, b"\0"))
        self.assertEqual((version.int(1, "size", 7), version.int(1, "none", 7), version.text(9, "name", "")), (5, 7, ""))
        with self.assertRaises(bestore.NoAttribute) as missing:
            version.int(1, "none")
        self.assertEqual((missing.exception.node, missing.exception.name), (1, "none"))
        self.assertRaises(KeyError, version.text, 9, "name")
        for read, name, wanted, call in [(version.int, "name", "int", "text"), (version.text, "size", "str", "int"),
                                         (version.int, "key", "int", "raw"), (version.raw, "type", "bytes", "text")]:
            with self.assertRaises(TypeError) as wrong:
                read(1, name)
            self.assertEqual(str(wrong.exception), f"{name!r} of node 1 isn't of the type {wanted}: read it with `{call}`")

    def test_collected(self):
        def change(change):
            node = change.new()
            change.set(node, "small", bestore.Int32(5))
            self.assertEqual(change.int(node, "small"), 5)
            self.assertRaises(TypeError, change.raw, node, "small")
            del change[node]["small"]
            return change.int(node, "small", 0)
        self.assertEqual(self.store.change(change), 0)


class InProcess(Reads, unittest.TestCase):
    def setUp(self):
        self.store = bestore.open(64)
        self.addCleanup(self.store.close)


class OfServer(Reads, WithServer):
    pass


if __name__ == "__main__":
    unittest.main()
