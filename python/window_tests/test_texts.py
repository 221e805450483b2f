"""Tests of typed text: dates, queries and their errors, the Find row, and values."""

from __future__ import annotations

import os
import tempfile
import time
import unittest
from datetime import datetime
from typing import Iterator, List
from unittest import mock

import bestore
from bestore_queries import columns, dates, find, mime_types, typed_query
from bestore_queries.find import Relation

from common import write

NOW = datetime(2026, 11, 27, 16, 30, 5)  # a Friday
INDICES = {"name": bestore.STRING, "size": bestore.INT64, "last_modified": bestore.INT64}


class LocalTime(unittest.TestCase):
    """Dates in a time zone with daylight saving time."""

    def setUp(self) -> None:
        before = os.environ.get("TZ")
        self.addCleanup(self.set_zone, before)
        self.set_zone("Europe/Berlin")

    def set_zone(self, zone: "str | None") -> None:
        os.environ.pop("TZ", None)
        if zone is not None:
            os.environ["TZ"] = zone
        time.tzset()


class Dates(LocalTime):
    def lines(self) -> Iterator[List[str]]:
        """Yields the lines of tests/dates.txt, each split into its parts."""
        path = os.path.join(os.path.dirname(os.path.abspath(__file__)), "..", "..", "tests", "dates.txt")
        with open(path, encoding="utf-8") as file:
            for line in file:
                if line.strip() and not line.startswith("#"):
                    yield line.rstrip("\n").split(" | ")

    def test_table(self) -> None:
        lines = list(self.lines())
        self.assertGreater(len(lines), 40)
        for text, *meaning in lines:
            if len(meaning) == 2:
                span = dates.span_of(text, NOW)
                shown = [str(datetime.fromtimestamp(seconds)) for seconds in span]
                self.assertEqual(shown, meaning, text)
            else:
                with self.assertRaisesRegex(dates.NotADate, meaning[0], msg=text):
                    dates.span_of(text, NOW)

    def test_day_of_another_length(self) -> None:
        span = dates.span_of("2026-10-25", NOW)
        self.assertEqual(span.end - span.begin, 25 * 3600)


class Typed(LocalTime):
    def test_dates(self) -> None:
        for typed, sent in [
            ("last_modified>=%yesterday%", "last_modified>=1795647600"),
            ("last_modified > 2024-01-01", "last_modified>=1704150000"),
            ("last_modified<=2024", "last_modified<1735686000"), ("last_modified<'31 Jan 2024'", "last_modified<1706655600"),
            ("a==1 && last_modified==2024-01-01 || b==2",
             "a==1 && (last_modified>=1704063600 && last_modified<1704150000) || b==2"),
            ("!(last_modified!=today)", "!((last_modified<1795734000 || last_modified>=1795820400))"),
            ("x>%2024%", "x>=1735686000"), ("last_modified>1700000000", "last_modified>1700000000"),
            ("last_modified==17*", "last_modified==17*"), ("name==%today", "name==%today"), ("name==50%", "name==50%"),
            ("100%==a%b", "100%==a%b"), ('name=="%x%"', 'name=="%x%"'), ("", ""), ("size>1", "size>1"),
        ]:
            self.assertEqual(typed_query.read(typed, NOW).sent, sent)

    def test_meaning(self) -> None:
        query = typed_query.read("last_modified>=%yesterday% && created<2024", NOW)
        self.assertEqual(query.dates_in_words(), "last_modified from 26 Nov 2026, 00:00 on; created before 01 Jan 2024, 00:00")

    def test_fault_in_a_date(self) -> None:
        with self.assertRaises(typed_query.TypedFault) as raised:
            typed_query.read("name==x && last_modified>2024-13-01", NOW)
        self.assertEqual(raised.exception.fault, ("“2024-13-01” isn't a date: a year has 12 months", 25))

    def fault(self, typed: str) -> typed_query.Fault:
        query = typed_query.read(typed, NOW)
        with bestore.open(64, 2) as store:
            for name, kind in INDICES.items():
                store.make_index(name, kind)
            with store.pin() as version, self.assertRaises(bestore.Error) as raised:
                version.query(query.sent)
        return typed_query.fault_of(raised.exception, query, INDICES)

    def test_faults(self) -> None:
        value, name, operator, join = ("a value is missing here", "the name of an attribute is missing here",
                                       "an operator is missing here: == != < <= > >=", "&& or || is missing here")
        for typed, message, column in [
            ("size<", value, 5), ("", name, 0), ("size==1 && ", name, 11), ("size", operator, 4), ("size==1 name==2", join, 8),
            ("(size==1", "a ) is missing here", 8), ("size==1)", "this ) closes nothing", 7), ("size==1 & name==2", join, 8),
            ('name=="x', "the quotation mark isn't closed", 8), ("size>last_modified>", join, 18),
            ('name=="é[a"', "the [ isn't closed, or its set is empty, or a range in it descends; \\[ is a literal [", 8),
            ("last_modified>today && größe==1 ||", name, 34), ("last_modified==today && size<", value, 29),
            ("größe==1", "“größe” has no index. Indexed names: last_modified, name, size", 0),
            ("last_modified==yesterday || größe==1", "“größe” has no index. Indexed names: last_modified, name, size",
             28),
            ("size==1 ||" * 256 + "size==1", "more than 256 comparisons", None),
            ("(" * 65, "( and ! are nested more than 64 levels deep", None),
            ("size==1" + " " * 5000, "the query is too long: the limit is 4,096 bytes", None),
            ("name==\udcff", "half of a character can't be part of a query", 6),
        ]:
            self.assertEqual(self.fault(typed), (message, column), typed)

    def test_words(self) -> None:
        """No error mentions anything internal."""
        for typed in ("size<", "größe==1", 'name=="[a"', "((", "size==1 ||" * 300):
            self.assertNotRegex(self.fault(typed).message, "score|version|grammar|serves|pattern is malformed")

    def test_lines(self) -> None:
        fault = typed_query.Fault("a value is missing", 300)
        lines = typed_query.lines_of(fault, "size==1 && " * 30, 60)
        self.assertEqual(lines[0], "A value is missing")
        self.assertTrue(all(len(it) <= 60 for it in lines))
        self.assertEqual((lines[1][0], lines[1][len(lines[2]) - 1]), ("…", ("size==1 && " * 30)[300]))
        self.assertEqual(typed_query.lines_of(typed_query.Fault("no place"), "x", 60), ["No place"])
        self.assertEqual(typed_query.shortened("日本語日本語", 6), "日本…")

    def test_hints(self) -> None:
        hint = bestore.Hint("size", "1.5", bestore.INT64, 0, False)
        self.assertEqual(typed_query.hint_of(hint), "Nothing has size “1.5”: it isn't a whole number.")


class Find(unittest.TestCase):
    def test_finds(self) -> None:
        """The row's query runs and finds what the row says."""
        names = ["Report.txt", "old REPORT", "a*b", 'say "hi"', "straße", "[draft]"]
        with bestore.open(64, 2) as store:
            for name, kind in INDICES.items():
                store.make_index(name, kind)
            for place, name in enumerate(names):
                node = store.new_node()
                store.set(node, "name", name)
                store.set(node, "size", place)
            with store.pin() as version:
                for attribute, relation, text, found in [
                    ("name", Relation.CONTAINS, "report", [1, 2]), ("name", Relation.BEGINS, "REP", [1]),
                    ("name", Relation.ENDS, "port", [2]),
                    ("name", Relation.IS, "A*B", [3]), ("name", Relation.CONTAINS, '"hi', [4]),
                    ("name", Relation.CONTAINS, "STRAßE", [5]),
                    ("name", Relation.IS, "[draft]", [6]), ("name", Relation.ISNT, "a*b", [1, 2, 4, 5, 6]),
                    ("name", Relation.CONTAINS, "", [1, 2, 3, 4, 5, 6]), ("size", Relation.GREATER, "3", [5, 6]),
                    ("size", Relation.LESS, "1", [1]), ("size", Relation.IS, "2", [3]), ("size", Relation.GREATER, "x", []),
                    ("last_modified", Relation.SINCE, "yesterday", []), ("last_modified", Relation.ON, "2024-01-01", []),
                ]:
                    query = typed_query.read(find.query_of(attribute, relation, text)).sent
                    self.assertEqual(version.query(query), found, query)

    def test_names(self) -> None:
        self.assertEqual(find.query_of("my name", Relation.IS, "x"), '"my name"=="[xX]"')
        for relation in (Relation.CONTAINS, Relation.LESS):  # the store refuses these queries, and the window shows why
            self.assertIn("a\udcff", find.query_of("name", relation, "a\udcff"))
        self.assertEqual(find.query_of("MAIL:from", Relation.CONTAINS, ""), 'MAIL:from=="*"')

    def test_everything(self) -> None:
        self.assertEqual(find.everything(INDICES), 'name=="*"')
        self.assertEqual(find.everything({"n": bestore.INT32}), "n>=-2147483648")
        self.assertIsNone(find.everything({}))
        self.assertEqual(find.attributes_of({"a": bestore.STRING, **INDICES}), ["name", "size", "last_modified", "a"])


class Values(LocalTime):
    def test_shown(self) -> None:
        self.assertEqual([columns.size_in_words(it) for it in (0, 1, 1023, 1024, 5 << 20, 3 << 41)],
                         ["0 bytes", "1 byte", "1023 bytes", "1.0 KB", "5.0 MB", "6.0 TB"])
        self.assertEqual(columns.time_in_words(1700000000), "14 Nov 2023, 23:13")
        self.assertEqual([columns.time_in_words(2**62), columns.text_of(b"ab"), columns.text_of("a\tb\x1b")],
                         [str(2**62), "2 bytes of data", "a␣b\ufffd"])

    def test_typed(self) -> None:
        for kind, text, value in [(bestore.INT64, " -5 ", -5), (bestore.STRING, "é", "é"), (bestore.RAW, "ff00", b"\xff\0"),
                                  (bestore.UINT32, "7", 7)]:
            self.assertEqual(columns.typed_value("x", text, kind), value)
        self.assertEqual(columns.typed_value("MAIL:when", "2024-01-01", bestore.INT64), 1704063600)
        for kind, text, reason in [
            (bestore.INT64, "1.5", "isn't a whole number"), (bestore.UINT32, "-1", "out of range"),
            (bestore.INT32, "2147483648", "out of range"),
            (bestore.RAW, "f", "hexadecimal"), (bestore.STRING, "a\0", "zero byte"), (bestore.STRING, "é" * 128, "256 bytes"),
            (bestore.STRING, "\udcff", "half of a character"),
        ]:
            with self.assertRaisesRegex(columns.NotAValue, reason):
                columns.typed_value("x", text, kind)
        with self.assertRaisesRegex(columns.NotAValue, "isn't a date"):
            columns.typed_value("MAIL:when", "soon", bestore.INT64)

    def test_edited(self) -> None:
        for name, value in [("x", 5), ("x", "é"), ("last_modified", 1700000000), ("x", b"\xff")]:
            kind = {int: bestore.INT64, str: bestore.STRING, bytes: bestore.RAW}[type(value)]
            self.assertEqual(columns.typed_value(name, columns.edited_text(name, value), kind), value)

    def test_edited_times(self) -> None:
        """A time that can't be written as a date is edited as a number."""
        for seconds, text in [
            (1700000000, "2023-11-14 23:13:20"), (-40000000000, "0702-06-15 01:46:48"), (253402297200, "253402297200"),
            (10**18, str(10**18)), (-2**63, str(-2**63)), (2**63 - 1, str(2**63 - 1)),
        ]:
            self.assertEqual(columns.edited_text("MAIL:when", seconds), text)
            self.assertEqual(columns.typed_value("MAIL:when", text, bestore.INT64), seconds)

    def test_columns(self) -> None:
        self.assertEqual([it.attribute for it in columns.default_columns(INDICES)], ["name", "size", "last_modified", "folder"])
        self.assertEqual([it.attribute for it in columns.default_columns({"a": bestore.STRING})], ["a"])
        self.assertEqual([it.attribute for it in columns.default_columns({})], ["name"])
        titles = [columns.column_of(it, bestore.INT64).title for it in ("META:year", "MAIL:when", "audio:date")]
        self.assertEqual(titles, ["Year", "When", "Date"])


class MimeTypes(unittest.TestCase):
    """Types in a database that the test writes."""

    def setUp(self) -> None:
        place = tempfile.TemporaryDirectory()
        self.addCleanup(place.cleanup)
        self.folder = os.path.join(place.name, "mime")
        for name in ("image", "text"):
            os.makedirs(os.path.join(self.folder, name))
        head = '<mime-type xmlns="http://www.freedesktop.org/standards/shared-mime-info" type="x"><comment xml:lang="de">Bild</comment>'
        write(os.path.join(self.folder, "image", "png.xml"), f"{head}<comment>PNG image</comment></mime-type>")
        write(os.path.join(self.folder, "text", "plain.xml"), f"{head}<comment>plain\n text</comment></mime-type>")
        write(os.path.join(self.folder, "text", "none.xml"), f"{head}</mime-type>")
        write(os.path.join(self.folder, "text", "broken.xml"), head)
        write(os.path.join(self.folder, "aliases"), "image/x-png image/png\n\nimage/up ../aliases\n")
        write(os.path.join(place.name, "secret.xml"), f"{head}<comment>secret</comment></mime-type>")
        patched = mock.patch.dict(os.environ, {"XDG_DATA_DIRS": f"/none:{place.name}", "XDG_DATA_HOME": "/none"})
        patched.start()
        self.addCleanup(patched.stop)
        self.forget()
        self.addCleanup(self.forget)

    def forget(self) -> None:
        mime_types.words_of.cache_clear()
        mime_types._aliases.cache_clear()

    def test_words(self) -> None:
        for name, words in [
                ("image/png", "PNG image"), ("Image/PNG", "PNG image"), ("image/x-png", "PNG image"), ("text/plain", "Plain text"),
                ("text/none", "text/none"), ("text/broken", "text/broken"), ("text/unknown", "text/unknown"), ("image/up", "image/up"),
                ("../secret", "../secret"), ("image/../../secret", "image/../../secret"), ("", ""), ("a\nb", "a␣b"), (7, "7"),
                (mime_types.MAIL_TYPE, "Email"), (mime_types.FOLDER_TYPE, "Folder"), (mime_types.FOLDER_TYPE.lower(), "Folder")]:
            self.assertEqual(columns.type_in_words(name), words)
        self.assertEqual(columns.column_of("BEOS:TYPE").shown({"BEOS:TYPE": "image/png"}), "PNG image")
        self.assertEqual(columns.edited_text("BEOS:TYPE", "image/png"), "image/png")

    def test_no_database(self) -> None:
        with mock.patch.dict(os.environ, {"XDG_DATA_DIRS": "/none:relative"}):
            self.forget()
            self.assertEqual(columns.type_in_words("image/png"), "image/png")


if __name__ == "__main__":
    unittest.main()
