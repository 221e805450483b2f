"""Pages in an index's order agree with the whole answer, sorted and cut, with writes in between."""

import pickle
import random
import threading
import unittest
from dataclasses import replace

import bestore
from bestore.pages import Cursor, Order, Page, check_of

KINDS = {"text": bestore.STRING, "i32": bestore.INT32, "i64": bestore.INT64, "u32": bestore.UINT32, "u64": bestore.UINT64}
VALUES = {
    "text": ["", "a", "ab", "b", "ä", "x" * 255],
    "i32": [-2**31, -1, 0, 1, 2**31 - 1],
    "i64": [-2**63, -2, 0, 1, 2**63 - 1],
    "u32": [0, 1, 2, 2**31, 2**32 - 1],
    "u64": [0, 1, 2, 2**63, 2**64 - 1],
}
QUERIES = ["i64>=-3", 'text=="*a*"', "u32<2", 'text>"a" && i64<2', "text!=ab && !(i32==0)", "other==1 || u64>1", "i64==7777"]


def opened():
    """Opens a store with an index of each kind and a node that is older than the indices."""
    store = bestore.open()
    store.apply(bestore.Batch().new_node().set(1, "i64", 5))
    for name, kind in KINDS.items():
        store.make_index(name, kind)
    store.make_index("other", bestore.INT64)
    return store


def write(store, chance, count):
    """Makes a few writes that create and remove nodes and change values."""
    for _ in range(count):
        with store.pin() as version:
            nodes, fresh = list(version), version.next_node
        node = chance.choice(nodes + [fresh])
        batch = bestore.Batch()
        if node == fresh:
            batch.new_node()
        for name, kind in KINDS.items():
            if chance.randrange(3) > 0:
                batch.set(node, name, chance.choice(VALUES[name]), kind)
        if chance.randrange(12) == 0:
            batch.set(node, "text", 5)  # not the index's kind, so the node isn't in the index
        batch.set(node, "other", chance.randrange(3))
        if chance.randrange(12) == 0:
            batch.remove_node(node)
        store.apply(batch)


def keyed(name, value):
    """Returns a sort key that orders values as the index does."""
    return value.encode() if name == "text" else value


def plain(version, query, order):
    """Returns the whole answer in this order, as pairs of key and node."""
    everything = f'{order.by}=="*"' if order.by == "text" else f"{order.by}>={min(VALUES[order.by])}"
    indexed = set(version.query(everything))
    found = [(keyed(order.by, version.get(node, order.by)), node) for node in version.query(query) if node in indexed]
    return sorted(found, reverse=order.descending)


def cut(found, order, after, limit):
    """Returns the page after a cursor, and whether more nodes follow."""
    if after is not None and after.node is not None:
        at = keyed(order.by, after.value), after.node
        found = [it for it in found if (it < at if order.descending else it > at)]
    return [node for _, node in found[:limit]], len(found) > limit


class Random(unittest.TestCase):
    def test_a_store(self):
        """Compares each page of all queries and orders with the whole answer in its version, with writes in between."""
        seed = 5
        chance = random.Random(seed)
        with opened() as store:
            write(store, chance, 120)
            for query in QUERIES:
                for name in KINDS:
                    for descending in (False, True):
                        with self.subTest(query=query, by=name, descending=descending, seed=seed):
                            self.pages(store, chance, query, Order(name, descending))

    def pages(self, store, chance, query, order):
        after, more = None, True
        while more:
            limit = chance.choice([1, 3, 20, 100])
            with store.pin() as version, bestore.prepare(query) as prepared:
                expected = cut(plain(version, query, order), order, after, limit)
                asked = {"by": order.by, "descending": order.descending, "limit": limit, "after": after}
                page = version.query(query, **asked)
                self.assertIsInstance(page, Page)
                self.assertEqual((list(page), page.more), expected)
                again = version.query_prepared(prepared, **asked)
                self.assertEqual((again, again.cursor), (page, page.cursor))
                self.rows(version, query, page, asked)
            write(store, chance, 2)
            after, more = Cursor.parse(str(page.cursor)), page.more

    def rows(self, version, query, page, asked):
        names, most = ["u64", "text", "none"], asked.pop("limit")
        rows = version.rows(query, names, most=most, **asked)
        self.assertEqual(rows, [(node, [version.get(node, name) for name in names]) for node in page])
        self.assertEqual((rows.more, rows.cursor), (page.more, page.cursor))


class Parts(unittest.TestCase):
    def setUp(self):
        self.store = bestore.open()
        self.addCleanup(self.store.close)
        self.store.make_index("size", bestore.INT64)
        for size in (5, 3, 4, 3, 9):
            node = self.store.new_node()
            self.store.set(node, "size", size)
        self.store.new_node()

    def test_an_order(self):
        with self.store.pin() as version:
            page = version.query("size>=3", by="size", limit=3)
            self.assertEqual((page, page.more), ([2, 4, 3], True))
            self.assertEqual((page.cursor.value, page.cursor.node, page.cursor.kind), (4, 3, bestore.INT64))
            rest = version.query("size>=3", by="size", limit=3, after=page.cursor)
            self.assertEqual((rest, rest.more), ([1, 5], False))
            self.assertEqual(version.query("size>=3", by="size", after=str(page.cursor)), [1, 5])
            self.assertEqual(version.query("size>=3", by="size", descending=True), [5, 1, 3, 4, 2])
            empty = version.query("size>=3", by="size", limit=3, after=rest.cursor)
            self.assertEqual((empty, empty.more, empty.cursor), ([], False, rest.cursor))
            nothing = version.query("size>9", by="size", limit=3)
            self.assertEqual((nothing, nothing.cursor.node), ([], None))
            self.assertEqual(version.query("size>9", by="size", after=str(nothing.cursor)), [])

    def test_the_first(self):
        with self.store.pin() as version, bestore.prepare("size<9") as prepared:
            self.assertEqual(version.query("size<9", limit=2), [1, 2])
            self.assertEqual(version.query("size<9", limit=2, start=3), [3, 4])
            self.assertEqual(version.query("size<9", start=3), [3, 4])
            self.assertEqual(version.query("size<9", limit=2**80, start=-1), [1, 2, 3, 4])
            self.assertEqual(version.query("size<9", start=2**80), [])
            self.assertEqual(version.query_prepared(prepared, limit=1, start=2), [2])
            self.assertEqual(version.query(text="size<9", limit=1), [1])
            self.assertEqual(version.rows("size<9", ["size"], first=2, most=2), [(2, [3]), (3, [4])])

    def test_any(self):
        with self.store.pin() as version, bestore.prepare("size<9") as prepared:
            for limit in (1, 3, 4, 100):
                for query in ("size<9", prepared):
                    found = version.any(query, limit)
                    self.assertEqual(len(set(found)), min(limit, 4))
                    self.assertLessEqual(set(found), {1, 2, 3, 4})

    def test_rows(self):
        with self.store.pin() as version, bestore.prepare("size<9") as prepared:
            for query in ("size<9", prepared):
                page = version.rows(query, ["none", "size"], most=2, by="size", descending=True)
                self.assertEqual((type(page), page, page.more), (Page, [(1, [None, 5]), (3, [None, 4])], True))
                rest = version.rows(query, ("size",), most=2**80, by="size", descending=True, after=page.cursor)
                self.assertEqual((rest, rest.more, rest.cursor.node), ([(4, [3]), (2, [3])], False, 2))
                self.assertEqual(version.rows(query, [], by="size", descending=True, after=str(page.cursor)), [(4, []), (2, [])])
                empty = version.rows(query, ["size"], by="size", descending=True, after=rest.cursor)
                self.assertEqual((empty, empty.more, empty.cursor), ([], False, rest.cursor))
                self.assertEqual(version.rows(query, ["size"], most=1), [(1, [5])])
                self.assertEqual(version.rows(query, ["size"], first=4, most=2**80), [(4, [3])])
                self.assertEqual((version.rows(query, ["size"], most=0), version.rows(query, ["size"], first=2**64)), ([], []))
        self.assertEqual((page.cursor.value, page.of([7]).cursor), (4, page.cursor))  # the query is closed

    def test_refused_rows(self):
        with self.store.pin() as version, bestore.prepare("size>0") as prepared, bestore.prepare("when>0") as other:
            cursor = version.rows(prepared, [], most=1, by="size").cursor
            for by in ({"by": "size"}, {}):
                self.assertRaises(bestore.NameLength, version.rows, prepared, ["size", ""], **by)
                self.assertRaises(bestore.NameLength, version.rows, prepared, [str(it) for it in range(20)] + [""], **by)
                self.assertRaises(bestore.NotUTF8, version.rows, prepared, ["\ud800"], **by)
                self.assertRaises(TypeError, version.rows, prepared, ["size", b"size"], **by)
                self.assertRaises(TypeError, version.rows, prepared, 5, **by)
                for query in (other, "when>0"):
                    with self.assertRaises(bestore.NotCovered) as covered:
                        version.rows(query, ["size"], **by)
                    self.assertEqual((covered.exception.missing, covered.exception.offset), ("when", 0))
            self.assertRaises(bestore.NameLength, version.rows, prepared, [""], most=0)
            self.assertRaises(bestore.NameLength, version.rows, prepared, ["size"], by="n" * 64)
            self.assertRaises(TypeError, version.rows, prepared, ["size"], by=5)
            with self.assertRaises(bestore.NoIndex) as raised:
                version.rows(prepared, ["size"], by="when")
            self.assertEqual((raised.exception.name, raised.exception.indices), ("when", ("size",)))
            self.assertRaises(bestore.BadCursor, version.rows, prepared, ["size"], by="size", descending=True, after=cursor)
            text = Cursor(cursor.order, cursor.check, bestore.STRING, "x" * 255, 2)
            with self.assertRaises(bestore.BadCursor) as raised:
                version.rows(prepared, ["size"], by="size", after=text)
            self.assertEqual(str(raised.exception), 'the index "size" has kind INT64, and had kind STRING when the cursor was made: '
                                                    "begin without a cursor")
        for call in (lambda: version.rows(prepared, [""], by="size"), lambda: version.query_prepared(prepared, by="size")):
            self.assertRaises(bestore.NotPinned, call)
            with self.store.pin() as version:
                self.assertRaises(bestore.Closed, call)

    def test_a_change(self):
        def claim(change):
            page = change.query("size>=3", by="size", limit=1)
            rows = change.rows("size>=3", ["size"], by="size", most=1)
            change[page[0]]["size"] = 0
            return page[0], rows, change.query("size>=3", by="size", limit=1), change.any("size==9", 1), change.rows(
                "size>=3", ["size"], by="size", most=1)

        for job in (2, 4, 3):
            size = self.store.pin().get(job, "size")
            claimed = job, [(job, [size])], [job], [5], [(job, [0])]  # queries in a change read only the snapshot
            self.assertEqual(self.store.change(claim), claimed)

    def test_an_empty_store(self):
        with bestore.open() as store:
            store.make_index("size", bestore.INT64)
            with store.pin() as version:
                self.assertEqual(version.query("size>0", by="size", limit=1), [])
                self.assertEqual(version.query("size>0", limit=1), [])
                self.assertEqual(version.any("size>0", 1), [])

    def test_a_name_without_an_index(self):
        with self.store.pin() as version:
            with self.assertRaises(bestore.NoIndex) as raised:
                version.query("size>0", by="when")
            self.assertEqual((raised.exception.name, raised.exception.indices), ("when", ("size",)))
            self.assertEqual(str(raised.exception), 'there is no index "when"; indices: "size"')
            with self.assertRaises(bestore.NoIndex) as raised:
                version.pairs("when")
            self.assertEqual(raised.exception.name, "when")
            self.assertRaises(bestore.NameLength, version.query, "size>0", by="n" * 64)
            self.assertRaises(bestore.NotUTF8, version.query, "size>0", by="\ud800")
            with self.assertRaises(bestore.NotCovered) as covered:
                version.query("when>0", by="size")
            self.assertEqual((covered.exception.missing, covered.exception.offset), ("when", 0))

    def test_what_is_no_page(self):
        with self.store.pin() as version:
            for limit in (0, -1):
                for ask in (lambda **given: version.query("size>0", **given), lambda **given: version.query("size>0", by="size", **given)):
                    with self.assertRaises(bestore.NoRoom) as raised:
                        ask(limit=limit)
                    self.assertEqual(str(raised.exception), f"a page has at least one node, and {limit} were asked for; ask for one or more")
                self.assertRaises(bestore.NoRoom, version.any, "size>0", limit)
            self.assertRaises(bestore.NoRoom, version.rows, "size>0", [], by="size", most=0)
            self.assertRaises(ValueError, version.query, "size>0", limit=0)
            self.assertRaises(TypeError, version.query, "size>0", descending=True)
            self.assertRaises(TypeError, version.query, "size>0", by="size", start=3)
            self.assertRaises(TypeError, version.query, "size>0", by="size", after=3)
            self.assertRaises(TypeError, version.query, "size>0", limit="3")
            self.assertRaises(TypeError, version.query, "size>0", order="size")
            self.assertRaises(TypeError, version.rows, "size>0", [], first=3, by="size")
            self.assertRaises(bestore.QuerySyntax, version.query, "size>", by="size")
        self.assertRaises(bestore.NotPinned, version.query, "size>0", by="size")
        self.assertRaises(bestore.NotPinned, version.any, "size>0", 1)

    def test_a_cursor_of_another_answer(self):
        self.store.make_index("when", bestore.INT64)
        with self.store.pin() as version:
            cursor = version.query("size>0", by="size", limit=1).cursor
            refusals = {
                'the cursor belongs to the order by "size" ascending, but this page is in the order by "when" ascending: '
                "keep the order, or begin without a cursor": ("size>0", {"by": "when"}),
                'the cursor belongs to the order by "size" ascending, but this page is in the order by "size" descending: '
                "keep the order, or begin without a cursor": ("size>0", {"by": "size", "descending": True}),
                "the cursor belongs to another query: ask the query that it came from, or begin without a cursor":
                    ("size>1", {"by": "size"}),
            }
            for said, (query, asked) in refusals.items():
                with self.assertRaises(bestore.BadCursor) as raised:
                    version.query(query, after=cursor, **asked)
                self.assertEqual((str(raised.exception), raised.exception.number), (said, 78))
            self.assertEqual(version.query('"size" > "0"', by="size", after=cursor), [4, 3, 1, 5])

    def test_a_cursor_of_another_kind(self):
        with self.store.pin() as version:
            cursor = version.query("size!=7", by="size", limit=1).cursor
        self.store.remove_index("size")
        self.store.make_index("size", bestore.STRING)
        with self.store.pin() as version, self.assertRaises(bestore.BadCursor) as raised:
            version.query("size!=7", by="size", after=cursor)
        self.assertEqual(str(raised.exception), 'the index "size" has kind STRING, and had kind INT64 when the cursor was '
                                                "made: begin without a cursor")


class Cursors(unittest.TestCase):
    def test_a_text_is_as_the_format_says(self):  # the Rust tests check the same text
        cursor = Cursor(Order("MAIL:when", True), check_of('"MAIL:to"=="ann"'), bestore.INT64, 1_700_000_000, 17)
        self.assertEqual(str(cursor), "AQEDCU1BSUw6d2hlbrFkq6-AAAAAZVPxAAAAAAAAAAARURq1_A")
        self.assertEqual(Cursor.parse(str(cursor)), cursor)

    def test_every_value_comes_back(self):
        for name, kind in KINDS.items():
            for value in VALUES[name]:
                cursor = Cursor(Order("n" * 63), 7, kind, value, 2**64 - 1)
                self.assertEqual(Cursor.parse(str(cursor)), cursor)
                known = Cursor.of_key(cursor.order, 7, kind, cursor.key)
                self.assertEqual((known, known.key, hash(known)), (cursor, cursor.key, hash(cursor)))
                self.assertEqual(pickle.loads(pickle.dumps(known)), cursor)
                self.assertEqual(replace(known, node=5).key, cursor.key[:-8] + (5).to_bytes(8, "big"))
        beginning = Cursor(Order("n"), 7)
        self.assertEqual(Cursor.parse(str(beginning)), beginning)

    def test_a_text_that_is_cut_or_changed(self):
        chance = random.Random(8)
        text = str(Cursor(Order("size"), 7, bestore.STRING, "größe", 17))
        for length in range(len(text)):
            self.assertRaises(bestore.BadCursor, Cursor.parse, text[:length])
        for place in range(len(text)):
            changed = text[:place] + chance.choice([it for it in "A7_-+é=\0" if it != text[place]]) + text[place + 1:]
            self.assertRaises(bestore.BadCursor, Cursor.parse, changed)
        for other in (text + "A", "A" * 10**6, "é", "=" * 8):
            with self.assertRaises(bestore.BadCursor) as raised:
                Cursor.parse(other)
            self.assertLess(len(str(raised.exception)), 100)


class Threads(unittest.TestCase):
    def test_pages_beside_writes(self):
        """Each page of a version shows that version while other passes write."""
        chance, ends = random.Random(9), threading.Event()
        with opened() as store, store.another() as other:
            write(store, chance, 60)

            def write_on():
                while not ends.is_set():
                    write(other, random.Random(10), 5)

            writer = threading.Thread(target=write_on)
            writer.start()
            try:
                for _ in range(30):
                    with store.pin() as version, bestore.prepare("u64>=0") as prepared:
                        page = version.query_prepared(prepared, by="text", limit=20)
                        self.assertEqual((list(page), page.more), cut(plain(version, "u64>=0", Order("text")), Order("text"), None, 20))
            finally:
                ends.set()
                writer.join()


if __name__ == "__main__":
    unittest.main()
