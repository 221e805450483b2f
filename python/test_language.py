"""Tests of query texts: inserting names and values, finding a text's comparisons, and hints."""

import random
import unittest

import bestore
from bestore.language import comparisons

OPERATORS = ["==", "!=", "<", "<=", ">", ">=", "="]
SPECIAL = "*?[]^-\\\"' =!<>&|()\n\tné漢a"


def store_of(values, kind=bestore.STRING):
    """Opens a store with an index on `k`, in which node n has the nth of these values."""
    store = bestore.open(256, 1, 1000)
    store.make_index("k", kind)
    for node, value in zip(store.new_nodes(len(values)), values):
        store.set(node, "k", value, kind)
    return store


def quoted(chance, text):
    """Quotes a string, or leaves it as a plain word if that means the same."""
    quote = chance.choice("\"'")
    return quote + "".join("\\" + it if it in (quote, "\\") or chance.random() < 0.1 else it for it in text) + quote


def random_text(chance, least=0):
    return "".join(chance.choice(SPECIAL) for _ in range(chance.randrange(least, 6)))


def random_query(chance, depth=3):
    """Returns a random query's text, and its comparisons as pairs of name and operator."""
    if depth > 0 and chance.random() < 0.5:
        left, some = random_query(chance, depth - 1)
        right, more = random_query(chance, depth - 1)
        return f"({left}){chance.choice(['&&', ' || '])}({right})", some + more
    name, operator = random_text(chance, 1), chance.choice(OPERATORS)
    value = bestore.escape(random_text(chance)) if operator in ("==", "!=", "=") else random_text(chance)
    written = f'"{value}"' if operator in ("==", "!=", "=") else quoted(chance, value)
    space = chance.choice(["", " ", "\n"])
    return f"{quoted(chance, name)}{space}{operator}{space}{written}", [(name, "==" if operator == "=" else operator)]


class Patterns(unittest.TestCase):
    def test_escape(self):
        self.assertEqual(bestore.escape("[draft].txt"), "\\[draft].txt")
        chance = random.Random(1)
        texts = ["[draft].txt", "a*b?", "\"'\\", "", "[[]]", *(random_text(chance) for _ in range(60))]
        with store_of(texts) as store, store.pin() as version:
            for text in texts:
                same = [node for node, it in enumerate(texts, 1) if it == text]
                for query in (f'k=="{bestore.escape(text)}"', f"k=='{bestore.escape(text)}'"):
                    self.assertEqual(version.query(query), same, text)
                self.assertEqual(version.query(f'k>="{bestore.escape(text)}" && k<="{bestore.escape(text)}"'), same)
                self.assertEqual(version.query_items(bestore.Name("k"), bestore.escape(text), bestore.Operator.EQ), same)
                if text:
                    containing = [node for node, it in enumerate(texts, 1) if text in it]
                    self.assertEqual(version.query_items(bestore.Name("k"), text, bestore.Operator.CONTAINS), containing)

    def test_any_case(self):
        self.assertEqual([bestore.any_case(it) for it in ("dR. x*", "é1", "漢", "")], ["[dD][rR].\\ [xX]\\*", "[éÉ]1", "漢", ""])
        texts = ["Draft", "dRAFT", "draft", "drafts", "ÉTÉ", "été", "Straße", "STRASSE", "[a]", "[A]", "Günther"]
        with store_of(texts) as store, store.pin() as version:
            for text, nodes in [("DrAfT", [1, 2, 3]), ("Été", [5, 6]), ("straße", [7]), ("[a]", [9, 10]), ("GÜNTHER", [11])]:
                self.assertEqual(version.query(f'k=="{bestore.any_case(text)}"'), nodes)
            self.assertEqual(version.query(f'k=="{bestore.any_case("draft")}*"'), [1, 2, 3, 4])


class Texts(unittest.TestCase):
    def test_comparisons(self):
        self.assertEqual(comparisons('a=1||!(b<2&&c=\'x*\')'), [
            ("a", "==", "1", 0), ("b", "<", "2", 7), ("c", "==", "x*", 12)])
        self.assertEqual(comparisons("größe == [ä] &&\n\\(x != \"a\\\"b\""), [
            ("größe", "==", "[ä]", 0), ("(x", "!=", 'a\\"b', 19)])

    def test_against_the_parser(self):
        """The comparisons found in a text are the ones that the library parses, with the same names and operators, from left to right."""
        chance = random.Random(2)
        for _ in range(1000):
            text, expected = random_query(chance)
            with bestore.prepare(text) as prepared:
                for found in (comparisons(text), prepared.comparisons):
                    self.assertEqual([(it.name, it.operator) for it in found], expected, text)
                self.assertEqual(prepared.names, list(dict.fromkeys(name for name, _ in expected)))
                for asked in comparisons(text):
                    self.assertIn(text.encode()[asked.offset:asked.offset + 1], (b'"', b"'"))

    def test_canonical(self):
        for text, canonical in [
            ("a=1||!(b<2&&c='x*')", '"a"=="1" || ("b">="2" || "c"!="x*")'), ("a==[^a-a\\-\\]]\\]?", '"a"=="[^a\\-\\]]]?"'),
            ('"q\\"" > \\\\', '"q\\"">"\\\\"'),
        ]:
            with bestore.prepare(text) as prepared:
                self.assertEqual((prepared.text, prepared.source), (canonical, text))
        with bestore.prepare(" || ".join(f"{name}==1" for name in "abcdefghij" * 20)) as prepared:
            self.assertEqual((len(prepared.text), prepared.names), (200 * 8 + 199 * 4, list("abcdefghij")))
        with bestore.prepare_items(bestore.Name("size"), 9, bestore.Operator.EQ) as prepared:
            self.assertEqual((prepared.text, prepared.source, prepared.names), ('"size"=="9"', None, ["size"]))
        prepared.close()
        with self.assertRaises(bestore.Closed):
            prepared.names

    def test_long_canonical(self):
        """The canonical text may be too long to be a query. The names are then read from the source text, or from the items."""
        items = [bestore.Name("name0"), "12345678", bestore.Operator.LT]
        for number in range(1, 200):
            items += [bestore.Name(f"name{number % 3}"), "12345678", bestore.Operator.LT, bestore.Operator.OR]
        for prepared in (bestore.prepare("||".join(["abcdefgh<1234"] * 196)), bestore.prepare_items(*items)):
            with prepared:
                self.assertGreater(len(prepared.text), 4096)
                self.assertEqual(prepared.names, ["abcdefgh"] if prepared.source else ["name0", "name1", "name2"])
                with self.assertRaises(bestore.TooLong):
                    prepared.comparisons
            with self.assertRaises(bestore.Closed):
                prepared.names


class Covered(unittest.TestCase):
    def not_covered(self, ask, query):
        """Returns the position and the name of the comparison that isn't covered, and the query's text."""
        with self.assertRaises(bestore.NotCovered) as fault:
            ask(query)
        return fault.exception.offset, fault.exception.missing, fault.exception.query

    def test_place_of_what_is_missing(self):
        with store_of(["a"]) as store, store.pin() as version:
            for text, offset, missing in [
                ("größe==5", 0, "größe"), ('k==1 || ( "größe" ==5)', 10, "größe"), ("a==1 && b==2", 0, "a"),
                ("k==a || !(z<5)", 10, "z"),
            ]:
                for ask in (version.query, version.explain, version.count):
                    self.assertEqual(self.not_covered(ask, text), (offset, missing, text))
                with bestore.prepare(text) as prepared:
                    for ask in (version.query_prepared, version.refresh, version.count):
                        self.assertEqual(self.not_covered(ask, prepared), (offset, missing, text))
            with self.assertRaises(bestore.QueryError) as fault:
                version.query("k==a || größe==5")
            self.assertEqual(str(fault.exception), 'no index can answer the query: "größe" has none; names with an index: "k"\n'
                             "  k==a || größe==5\n          ^")
            small = bestore.Name("z"), 5, bestore.Operator.LT
            with self.assertRaises(bestore.NotCovered) as fault:
                version.query_items(bestore.Name("k"), "a", bestore.Operator.EQ, *small, bestore.Operator.OR)
            self.assertEqual((fault.exception.item, fault.exception.missing), (3, "z"))
            with bestore.prepare_items(*small) as prepared:
                self.assertEqual(self.not_covered(version.query_prepared, prepared), (0, "z", '"z"<"5"'))
        with bestore.open(64, 1, 10) as store, store.pin() as version, self.assertRaises(bestore.NotCovered) as fault:
            version.query("a==1")
        self.assertEqual(fault.exception.summary, 'no index can answer the query: "a" has none; there are no indices')


class Counts(unittest.TestCase):
    def test_count(self):
        store = store_of(list(range(300)), bestore.INT64)
        with store, store.pin() as version, bestore.prepare("k<5 || k>=100") as prepared:
            self.assertEqual((version.count("k>=0"), version.count("k<0"), version.count(prepared)), (300, 0, 205))
            for wrong in ("k<", "a==1"):
                with self.assertRaises(bestore.QueryError):
                    version.count(wrong)

    def test_pairs(self):
        for kind, values in [
            (bestore.STRING, ["", "a", "漢"]),
            (bestore.INT32, [-(2**31), 0, 2**31 - 1]), (bestore.INT64, [-(2**63), 0, 2**63 - 1]),
            (bestore.UINT32, [0, 1, 2**32 - 1]), (bestore.UINT64, [0, 1, 2**64 - 1]),
        ]:
            with store_of(values, kind) as store:
                store.make_index("other", kind)
                with store.pin() as version:
                    self.assertEqual((version.pairs("k"), version.pairs("other")), (3, 0))
                    with self.assertRaises(bestore.NoIndex):
                        version.pairs("none")

    def test_room(self):
        """A query has room for the maximum number of nodes, and so does the next query."""
        with bestore.open(4096, 1, 1000) as store:
            store.make_index("k", bestore.INT64)
            for _ in range(160):
                def make(change):
                    for _ in range(32):
                        node = change.new()
                        change.set(node, "k", node)
                store.change(make)
            with store.pin() as version:
                for query, nodes in [("k<9", 8), ("k<=4096", 4096), ("k>0", 5120), ("k>0", 5120), ("k<9", 8)]:
                    self.assertEqual((version.query(query), version.count(query)), (list(range(1, nodes + 1)), nodes))


class Hints(unittest.TestCase):
    def test_what_is_never_true(self):
        with bestore.open(64, 1, 100) as store:
            kinds = {"size": bestore.INT64, "small": bestore.INT32, "n": bestore.UINT32, "name": bestore.STRING}
            store.apply(bestore.Batch(bestore.MakeIndex(name, kind) for name, kind in kinds.items()))
            with store.pin() as version:
                for text, hinted in [
                    ("size>1.5", ["size"]), ("name==x && size<2024-01-01", ["size"]), ("size==5*", ["size"]),
                    ("size!=abc", ["size"]), ("size>5 || other==x", []), ("size==\\5", []), ('size=="[5]"', ["size"]),
                    ('size==""', ["size"]), ("size>-0", []),
                    ("!(size>=1.5) && name==1.5", ["size"]), ("small==2147483648", ["small"]), ("small<2147483648", []),
                    ("!(small<2147483648)", ["small"]), ("small>2147483647 || small>=2147483647", ["small"]),
                    ("n<0 || n<=0", ["n"]), ("n>=-1 && n!=-1", []), ("n==-1 || size>18446744073709551616", ["n", "size"]),
                    ("größe<x || size==x", ["size"]),
                ]:
                    hints = version.hints(text)
                    self.assertEqual([hint.name for hint in hints], hinted, text)
                    for hint in hints:
                        self.assertTrue(text.encode()[hint.offset:].decode().startswith(hint.name))
                    with bestore.prepare(text) as prepared:
                        self.assertEqual(version.hints(prepared), hints)
                first, second = version.hints("size>1.5 || n==-1")
                self.assertEqual(str(first), 'never true: "size" is INT64, and "1.5" isn\'t a whole number')
                self.assertEqual(str(second), 'never true: "n" is UINT32, and "-1" is out of the range of UINT32')
                self.assertEqual(first[:4], ("size", "1.5", bestore.INT64, 0))
                with bestore.prepare_items(bestore.Name("size"), "x", bestore.Operator.EQ) as prepared:
                    self.assertEqual([hint.name for hint in version.hints(prepared)], ["size"])
                with self.assertRaises(bestore.QuerySyntax):
                    version.hints("size>")

    def test_is_never_true(self):
        """A comparison with a hint finds nothing. A comparison without one finds at least one of these numbers."""
        chance = random.Random(4)
        for kind in (bestore.INT32, bestore.INT64, bestore.UINT32, bestore.UINT64):
            bits = 32 if kind in (bestore.INT32, bestore.UINT32) else 64
            low = 0 if kind in (bestore.UINT32, bestore.UINT64) else -(2**(bits - 1))
            high = low + 2**bits - 1
            numbers = [low, low + 1, 0, high - 1, high]
            values = [*numbers, low - 1, high + 1, "x", "1.5", "5*", "", "-", 2**64, -(2**63) - 1]
            with store_of(numbers, kind) as store, store.pin() as version:
                for _ in range(200):
                    value = chance.choice(values)
                    query = f'{chance.choice(["", "!"])}(k{chance.choice(OPERATORS)}"{value}")'
                    found = version.query(query)
                    self.assertEqual(found == [], version.hints(query) != [], query)


class NoTexts(unittest.TestCase):
    def test_surrogates(self):
        with store_of(["a"]) as store, store.pin() as version:
            for ask in (version.query, version.explain, version.count, version.hints, bestore.prepare):
                with self.assertRaises(bestore.QueryError) as fault:
                    ask("é==\udcff")
                self.assertEqual((fault.exception.number, fault.exception.offset, fault.exception.column), (70, 4, 3))
                self.assertIsInstance(fault.exception, bestore.NotUTF8)
                self.assertEqual(str(fault.exception), "the query has half of a surrogate pair here, which isn't valid UTF-8\n  é== \n     ^")
            with self.assertRaises(bestore.NotUTF8):
                version.query_items(bestore.Name("k"), "\udcff", bestore.Operator.EQ)


if __name__ == "__main__":
    unittest.main()
