"""Tests of pages in an index's order from a server's store. BESTORED names the server program; without it, the tests are
skipped. If a test of random pages fails, it prints its seed. `SEED=NUMBER` repeats that run."""

import os
import random
import unittest
from unittest import mock

import bestore
from bestore import _connected_queries, pages
from bestore.errors import BadCursor, NoRoom
from bestore.language import all_in
from servers import BESTORED, Server

KINDS = {"text": bestore.STRING, "int32": bestore.INT32, "int64": bestore.INT64, "uint32": bestore.UINT32, "uint64": bestore.UINT64}
QUERIES = ['text=="*"', 'text=="[ab]*"', "int32>=0", "int64<2 || uint32==1", "uint64>=0 && text!=a", "int64==1", "uint32>5"]


def plain_page(version, query, order, after, limit):
    """Returns the page after a cursor, cut out of the sorted answer: its nodes, and whether more follow."""
    kind = KINDS[order.by]
    held = set(version.query(all_in(order.by, kind)))
    nodes = [node for node in version.query(query) if node in held]
    keys = sorted((pages.encode_key(kind, version.get(node, order.by), node) for node in nodes), reverse=order.descending)
    if after is not None and after.key:
        keys = [key for key in keys if (key < after.key if order.descending else key > after.key)]
    return [pages.decode_key(kind, key)[1] for key in keys[:limit]], len(keys) > limit


def value_of(chance, kind):
    """Returns a value of this kind. There are few to choose from, so many nodes share a value."""
    if kind == bestore.STRING:
        return chance.choice(["", "a", "ab", "b", "ö", "é" * 127])
    low, high = bestore.values.RANGES[kind][0], bestore.values.RANGES[kind][-1]
    return chance.choice([0, 1, 2, 3, low, high])


class OfServer(unittest.TestCase):
    """Each test has a server with an index of each kind."""

    options = ()

    def setUp(self):
        if not BESTORED:
            self.skipTest("BESTORED names no bestored")
        self.server = Server("--pages", 2048, *self.options)
        self.addCleanup(self.server.close)
        self.store = self.server.connect()
        self.addCleanup(lambda: self.store.close())
        for name, kind in KINDS.items():
            self.store.make_index(name, kind)

    def make(self, **attributes):
        """Creates a node with these attributes."""
        def made(change):
            node = change.new()
            for name, value in attributes.items():
                change.set(node, name, value, KINDS.get(name))
            return node
        return self.store.change(made)


class OfFour(OfServer):
    """The store has four nodes."""

    def setUp(self):
        super().setUp()
        self.a, self.b, self.c = (self.make(text=text, int64=number) for text, number in [("b", 1), ("a", 2), ("c", 1)])
        self.d = self.make(text="d")


class Pages(OfFour):
    def test_both_directions(self):
        with self.store.pin() as version:
            up = version.query('text=="*"', by="int64", limit=2)
            self.assertEqual((up, up.more, up.cursor.value, up.cursor.node), ([self.a, self.c], True, 1, self.c))
            rest = version.query('text=="*"', by="int64", after=str(up.cursor))
            self.assertEqual((rest, rest.more), ([self.b], False))
            self.assertEqual(version.query('text=="*"', by="int64", after=rest.cursor), [])
            down = version.rows('text=="*"', ["text", "none"], by="int64", descending=True)
            self.assertEqual(down, [(self.b, ["a", None]), (self.c, ["c", None]), (self.a, ["b", None])])
            self.assertEqual(version.query('text=="*"', by="text"), [self.b, self.a, self.c, self.d])

    def test_prepared(self):
        with self.store.pin() as version, bestore.prepare('text=="*"') as prepared:
            first = version.query_prepared(prepared, by="int64", limit=1)
            self.assertEqual(version.query('(text=="*")', by="int64", after=first.cursor), [self.c, self.b])
            self.assertEqual(version.rows(prepared, [], by="int64", most=1, after=first.cursor), [(self.c, [])])

    def test_first_and_any(self):
        with self.store.pin() as version:
            self.assertEqual(version.query('text=="*"', limit=2), [self.a, self.b])
            self.assertEqual(version.query('text=="*"', limit=2, start=self.b), [self.b, self.c])
            self.assertEqual(version.query('text=="*"', start=self.c), [self.c, self.d])
            self.assertEqual(version.query('text=="*"', start=2**64), [])
            found = version.any('text=="*"', 2)
            self.assertEqual((len(set(found)), set(found) <= {self.a, self.b, self.c, self.d}), (2, True))
            self.assertEqual(sorted(version.any('text=="*"', 60_000)), [self.a, self.b, self.c, self.d])

    def test_many_replies(self):
        with mock.patch.object(_connected_queries, "_MOST_OF_A_PAGE", 2), self.store.pin() as version:
            self.assertEqual(version.query('text=="*"', by="text", limit=3), [self.b, self.a, self.c])
            everything = version.query('text=="*"', by="text", descending=True)
            self.assertEqual((everything, everything.more), ([self.d, self.c, self.a, self.b], False))
            rows = version.rows('text=="*"', ["int64"], by="text")
            self.assertEqual(rows, [(self.b, [2]), (self.a, [1]), (self.c, [1]), (self.d, [None])])
            self.assertEqual(version.query('text=="*"', limit=3), [self.a, self.b, self.c])

    def test_many_names(self):
        with self.store.pin() as version:
            (_, values), *_ = version.rows('text=="*"', [f"n{place}" for place in range(70)] + ["text"], by="text")
            self.assertEqual((len(values), values[-1]), (71, "a"))

    def test_between_pages(self):
        with self.store.pin() as version:
            first = version.query('text=="*"', by="text", limit=2)
            self.store.set(self.b, "text", "z")
            self.store.set(self.c, "text", "a")
            self.assertEqual(version.query('text=="*"', by="text", after=first.cursor), [self.c, self.d])
        with self.store.another() as other, other.pin() as version:
            self.assertEqual(version.query('text=="*"', by="text", after=str(first.cursor)), [self.d, self.b])


class WrongPages(OfFour):
    def wrong(self, error, **asked):
        with self.store.pin() as version, self.assertRaises(error) as caught:
            version.query('text=="*"', **asked)
        return caught.exception

    def test_no_index(self):
        error = self.wrong(bestore.NoIndex, by="kind")
        self.assertEqual((error.name, error.indices), ("kind", tuple(sorted(KINDS))))
        self.assertIn('there is no index "kind"; indices: "int32"', str(error))

    def test_limits(self):
        for limit in (0, -1):
            self.assertEqual(self.wrong(NoRoom, by="text", limit=limit).limit, limit)

    def test_cursors(self):
        with self.store.pin() as version:
            cursor = version.query('text=="*"', by="int64", limit=1).cursor
        for asked, reason in [
                ({"by": "int64", "descending": True}, 'but this page is in the order by "int64" descending'),
                ({"by": "text"}, 'but this page is in the order by "text" ascending'),
                ({"by": "int64", "after": str(cursor)[:-1]}, "isn't a cursor: it is cut off or changed"),
                ({"by": "int64", "after": ""}, "isn't a cursor: it is cut off or changed")]:
            error = self.wrong(BadCursor, **{"after": cursor, **asked})
            self.assertIn(reason, str(error))
        with self.store.pin() as version, self.assertRaisesRegex(BadCursor, "to another query"):
            version.query('text=="a*"', by="int64", after=cursor)

    def test_index_of_another_kind(self):
        with self.store.pin() as version:
            cursor = version.query('text=="*"', by="int64", limit=1).cursor
        self.store.remove_index("int64")
        self.store.make_index("int64", bestore.UINT32)
        self.assertIn("begin without a cursor", str(self.wrong(BadCursor, by="int64", after=cursor)))

    def test_query(self):
        with self.store.pin() as version:
            for text, error, offset in [("text==", bestore.QuerySyntax, 6), ("kind==a", bestore.NotCovered, 0)]:
                with self.assertRaises(error) as caught:
                    version.query(text, by="text", limit=1)
                self.assertEqual((caught.exception.query, caught.exception.offset), (text, offset))


class RandomPages(OfServer):
    options = "--keep", "FOLDER/kept"

    def setUp(self):
        super().setUp()
        self.chance = random.Random()
        seed = int(os.environ.get("SEED", self.chance.randrange(2**32)))
        self.chance.seed(seed)
        self.said = f"SEED={seed}"
        self.nodes = []

    def write(self):
        """Creates, changes or removes a node at random."""
        chance = self.chance
        some = {name: value_of(chance, kind) for name, kind in KINDS.items() if chance.randrange(6)}
        if chance.randrange(3) or len(self.nodes) < 9:
            self.nodes.append(self.make(**some))
            return
        node = chance.choice(self.nodes)
        if chance.randrange(2):
            self.store.change(lambda change: [change.set(node, name, value, KINDS[name]) for name, value in some.items()])
        else:
            self.nodes.remove(node)
            self.store.remove_node(node)

    def restart(self):
        self.store.close()
        self.server.kill()
        self.server.start()
        self.store = self.server.connect()

    def compare(self):
        """Compares every page of a query with the sorted answer, with writes in between."""
        chance = self.chance
        order = pages.Order(chance.choice(list(KINDS)), bool(chance.randrange(2)))
        query, limit, after = chance.choice(QUERIES), chance.randrange(1, 30), None
        for _ in range(6):
            with self.store.pin() as version:
                page = version.query(query, by=order.by, descending=order.descending, limit=limit, after=after)
                said = f"{self.said} {query} by {order} after {after}"
                self.assertEqual((list(page), page.more), plain_page(version, query, order, pages.cursor_of(after), limit), said)
                rows = version.rows(query, ["text"], most=limit, by=order.by, descending=order.descending, after=after)
                self.assertEqual([node for node, _ in rows], page, said)
            if not page.more:
                break
            after = str(page.cursor)
            for _ in range(chance.randrange(4)):
                self.write()
            if chance.randrange(20) == 0:
                self.restart()

    def test_cursors_of_no_page(self):
        """A cursor may name a position that no node has, or that no node can have."""
        for _ in range(60):
            self.write()
        for _ in range(150):
            order = pages.Order(self.chance.choice(list(KINDS)), bool(self.chance.randrange(2)))
            kind, query = KINDS[order.by], self.chance.choice(QUERIES)
            with bestore.prepare(query) as prepared:
                check = prepared._check
            node = self.chance.choice([0, 1, 10**14 - 1, 10**14, 3 * 10**14 + 1, 2**53, 2**64 - 1, *self.nodes])
            cursor = pages.Cursor(order, check, kind, value_of(self.chance, kind), node)
            with self.store.pin() as version:
                page = version.query(query, by=order.by, descending=order.descending, limit=20, after=cursor)
                self.assertEqual((list(page), page.more), plain_page(version, query, order, cursor, 20), f"{self.said} {query} {cursor!r}")
                other = bestore.UINT32 if kind != bestore.UINT32 else bestore.INT64
                with self.assertRaisesRegex(BadCursor, "begin without a cursor"):
                    version.query(query, by=order.by, descending=order.descending, after=pages.Cursor(order, check, other, 7, node))

    def test_beside_the_plain_way(self):
        for _ in range(120):
            self.write()
        for _ in range(40):
            self.compare()


if __name__ == "__main__":
    unittest.main()
