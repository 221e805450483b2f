"""Tests of errors' fields and messages."""

import os
import pickle
import pydoc
import re
import unittest

import bestore
from bestore import errors, saved

SYNTAX = "this query isn't valid here; it needs comparisons such as size>=5, joined by && or ||"
PATTERN = "this pattern isn't valid here; a set such as [a-d] must be closed by ], must not be empty, and its ranges must ascend"
ROOT = os.path.join(os.path.dirname(os.path.abspath(__file__)), "..")


def text_of(*path):
    """Reads one of the C library's files."""
    with open(os.path.join(ROOT, *path), encoding="utf-8") as file:
        return file.read()


class Numbers(unittest.TestCase):
    def test_each_error_of_the_header(self):
        header = text_of("include", "bestore_types.h")
        enumerated = header[header.index("BES_OK = 0"):]
        names = dict(re.findall(r"BES_(\w+) = (\d+)", enumerated[:enumerated.index("}")]))
        self.assertEqual({name: int(number) for name, number in names.items()}, {it.name: it.value for it in bestore.ErrorNumber})
        self.assertEqual(sorted(errors.Refusal._classes), sorted(number for number in bestore.ErrorNumber if number != 0))
        rows = re.findall(r'\{ BES_(\w+), BES_CLASS_(\w+), "\w+",\s+((?:"[^"]+"\s*)+)\}', text_of("c", "library", "errors.c"))
        self.assertEqual([name for name, _, _ in rows], [it.name for it in bestore.ErrorNumber])
        for name, named_class, quoted in rows[1:]:
            error = errors.refusal(bestore.ErrorNumber[name])
            said = f"{error.meaning}; {error.advice}" if error.advice else error.meaning
            self.assertEqual(("".join(re.findall('"([^"]+)"', quoted)), named_class), (said, error.error_class.name))

    def test_version_of_the_header(self):
        self.assertEqual(re.findall(r'#define BES_VERSION "(.+)"', text_of("include", "bestore.h")), [bestore.__version__])


class Errors(unittest.TestCase):
    def test_what_is_carried(self):
        self.assertEqual(errors.refusal(1, 3).pass_number, 3)
        self.assertEqual(errors.refusal(11, 7).least, 7)
        self.assertEqual(errors.refusal(76, 7).found, 7)
        self.assertEqual(errors.refusal(22, 2, listed="item").item, 2)
        self.assertIsNone(errors.refusal(1).pass_number)
        fault = errors.refusal(13, 4, listed="item")
        self.assertEqual((fault.item, fault.offset, str(fault)), (4, None, PATTERN.replace("here", "here (item 4, counted from 0)")))
        fault = errors.refusal(18, 5, listed="operation")
        self.assertEqual((fault.item, fault.operation), (None, 5))
        self.assertEqual(str(fault), "a name is empty or has more than 63 bytes (operation 5, counted from 0)")
        self.assertIsNone(errors.refusal(69, 0, listed="operation").operation)
        self.assertIsNone(errors.refusal(14, 0, "a==1").offset)
        self.assertEqual((errors.refusal(99).number, str(errors.refusal(99))), (99, "the library has an error that this package doesn't know"))

    def test_classes(self):
        for number, error_class in [(1, "RETRY"), (2, "MINE"), (11, "FULL"), (64, "GONE"), (76, "RETRY"), (99, "MINE")]:
            self.assertEqual(errors.refusal(number).error_class, bestore.ErrorClass[error_class])
        self.assertEqual(bestore.Forked().error_class, bestore.ErrorClass.GONE)
        self.assertEqual(bestore.TooManyAttempts(5).error_class, bestore.ErrorClass.RETRY)
        self.assertEqual(saved.DiskFull("path").error_class, bestore.ErrorClass.FULL)
        self.assertEqual(bestore.NoServer("path", "why").error_class, bestore.ErrorClass.GONE)
        self.assertEqual(errors.wrong_kind("a", "INT32", "INT64").error_class, bestore.ErrorClass.MINE)

    def test_caught_by_what_they_are(self):
        for kind, number in [(KeyError, 2), (KeyError, 3), (MemoryError, 10), (ValueError, 19), (bestore.Full, 11)]:
            with self.assertRaises(kind):
                raise errors.refusal(number)
        of_queries = {it.__name__ for it in errors.Refusal._classes.values() if issubclass(it, bestore.QueryError)}
        self.assertEqual(of_queries, {
            "QuerySyntax", "BadPattern", "TooLong", "TooDeep", "TooMany", "NotCovered", "BadItems", "NoItem"})
        raised = [it for it in vars(errors).values() if isinstance(it, type) and issubclass(it, Exception)]
        self.assertTrue(all(issubclass(it, bestore.Error) for it in raised))
        for name in (it.__name__ for it in raised if not it.__name__.startswith("_")):
            self.assertIs(getattr(bestore, name), getattr(errors, name))

    def test_pickled(self):
        fault = pickle.loads(pickle.dumps(errors.refusal(12, 6, "size <")))
        self.assertEqual((type(fault), fault.offset, fault.query), (bestore.QuerySyntax, 6, "size <"))
        self.assertEqual(pickle.loads(pickle.dumps(errors.refusal(70, 3, listed="operation"))).operation, 3)
        fault = bestore.NotCovered(query="a==1")
        fault.offset, fault.missing, fault.indices = 0, "a", ("b",)
        self.assertEqual(str(pickle.loads(pickle.dumps(fault))), str(fault))
        for fault in (
            bestore.TooManyAttempts(3), errors.wrong_kind("a", "INT64", "INT32"), bestore.BadBytes(3, "more bytes"),
            bestore.Forked(),
        ):
            self.assertEqual(str(pickle.loads(pickle.dumps(fault))), str(fault))

    def test_subclass_of_a_program(self):
        class Mine(bestore.Busy):
            pass
        self.assertIs(type(errors.refusal(Mine.number)), bestore.Busy)


class Help(unittest.TestCase):
    def test_package(self):
        """It describes the calls, and leaves each error to the error's own help: all of them would take twice as long to read."""
        text = pydoc.plain(pydoc.render_doc(bestore))
        self.assertLess(text.count("\n"), 7000)
        for described in "class Pass(", "class Version(", "class Batch(", "\n    open(", "\n    connect(":
            self.assertIn(described, text)
        public = [it for it in vars(bestore).values() if isinstance(it, type) and issubclass(it, bestore.Error)]
        self.assertGreater(len(public), 70)
        self.assertLessEqual({it for it in errors.Refusal._classes.values()}, set(public))


class Carets(unittest.TestCase):
    def test_under_the_character(self):
        for text, offset, shown in [
            ("size <", 6, "  size <\n        ^"), ("näme == [a", 9, "  näme == [a\n          ^"), ("", 0, "  \n  ^"),
            ("a==1\n||\tb", 6, "  a==1 || b\n        ^"), ("漢字==[a", 8, "  漢字==[a\n        ^"),
            ("e\u0301==[", 5, "  e\u0301==[\n     ^"),
        ]:
            fault = errors.refusal(12, offset, text)
            self.assertEqual((fault.offset, str(fault)), (offset, f"{SYNTAX}\n{shown}"))
        self.assertEqual([errors.refusal(12, offset, "é é").column for offset in (0, 2, 3, 5, None)], [0, 1, 2, 3, None])
        self.assertEqual((errors.refusal(12, None, "size <").shown(), str(errors.refusal(12, None, "size <"))), (
            None, SYNTAX))

    def test_of_a_wide_query(self):
        """The excerpt is never wider than requested, and the caret points to the same character."""
        text = "".join(chr(0x4e00 + place) if place % 7 == 0 else chr(ord("a") + place % 26) for place in range(300)) + "!"
        for column in (0, 1, 20, 150, 299, 300, 301):
            for width in (4, 10, 40, 333, 1000):
                shown, caret = errors.pointed(text, column, width).split("\n")
                self.assertLessEqual(errors.columns_of(shown), max(width, 4))
                front = len(caret) - 1
                place = next(it for it in range(len(shown) + 1) if errors.columns_of(shown[:it]) == front)
                self.assertEqual(shown[place:place + 1], text[column:column + 1])
        self.assertEqual(errors.refusal(12, 16, "size < 5 && a ==").shown(10), "… && a ==\n         ^")


if __name__ == "__main__":
    unittest.main()
