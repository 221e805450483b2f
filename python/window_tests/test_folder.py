"""Tests of importing a folder, of mail, of locating files, and of opening them."""

from __future__ import annotations

import os
import stat
import tempfile
import unittest
from typing import Dict
from unittest import mock

import bestore
from bestore.local import LocalPass
from bestore_queries.folder import INDICES, FolderReader, type_of
from bestore_queries.mail import cut, mail_attributes
from bestore_queries.opening import CannotOpen, Opening
from bestore_queries.places import Places, path_of
from bestore_queries.sources import FolderSource

from common import file_of, wait_for, write

MAIL = "From: Ann =?utf-8?q?M=C3=BCller?= <ann@example.org>\nTo: bob@example.org\nSubject: Seeds\nDate: {}\n\nHello.\n"


class InFolder(unittest.TestCase):
    """A folder, and a store with a reader for that folder."""

    pages = 1024

    def setUp(self) -> None:
        place = tempfile.TemporaryDirectory()
        self.addCleanup(place.cleanup)
        self.folder = os.path.join(place.name, "folder")
        os.mkdir(self.folder)
        self.store = bestore.open(self.pages, 4)
        self.addCleanup(self.store.close)
        for name, kind in INDICES.items():
            self.store.make_index(name, kind)
        self.reader = FolderReader(self.store.another(), self.folder, 0.02)
        self.addCleanup(self.reader.end)

    def path(self, *names: str) -> str:
        return os.path.join(self.folder, *names)

    def files(self) -> Dict[str, int]:
        """Returns the files' nodes by name."""
        with self.store.pin() as version:
            return {str(version[node]["name"]): node for node in version if "name" in version[node]}

    def becomes(self, *names: str) -> None:
        self.assertTrue(wait_for(lambda: sorted(self.files()) == sorted(names)), self.files())


class Files(InFolder):
    def test_come_change_and_go(self) -> None:
        os.mkdir(self.path("sub"))
        write(self.path("sub", "five.txt"), "12345")
        write(self.path("nine.c"), "123456789")
        os.symlink("nine.c", self.path("link"))
        os.mkfifo(self.path("fifo"))
        self.reader.start()
        self.becomes("five.txt", "nine.c")
        node = self.files()["nine.c"]
        self.store.set(node, "rating", 5)
        write(self.path("nine.c"), "1")
        self.assertTrue(wait_for(lambda: self.attributes(node)["size"] == 1))
        self.assertEqual(self.attributes(node)["rating"], 5)  # a changed file keeps its node
        self.assertEqual(self.attributes(node)["folder"], self.folder)
        os.unlink(self.path("sub", "five.txt"))
        write(self.path("new.txt"), "")
        self.becomes("nine.c", "new.txt")
        self.assertEqual((len(self.reader), self.reader.left_out, self.reader.fault), (2, 0, None))

    def attributes(self, node: int) -> Dict[str, bestore.Value]:
        with self.store.pin() as version:
            return version.attributes(node)

    def test_beside_another_writer(self) -> None:
        """Another pass keeps creating nodes. Each file still gets only its own attributes."""
        for number in range(100):
            write(self.path(f"{number}.txt"), "x" * number)
        other, others = self.store.another(), 0
        self.addCleanup(other.close)
        self.reader.start()
        while self.reader.rounds == 0 and others < 3000:
            other.new_node()
            others += 1
        self.assertTrue(wait_for(lambda: self.reader.rounds > 0))
        with self.store.pin() as version:
            files = [version.attributes(node) for node in version]
        names = [f"{int(attributes['size'])}.txt" for attributes in files if attributes]
        self.assertEqual(sorted(names), sorted(str(attributes["name"]) for attributes in files if attributes))
        self.assertEqual((len(names), len(files)), (100, 100 + others))

    def test_folder_that_went(self) -> None:
        """The window reports it, the nodes stay, and the folder is followed again once it is back."""
        write(self.path("a"), "")
        self.reader.start()
        self.becomes("a")
        os.rename(self.folder, self.folder + "-gone")
        self.assertTrue(wait_for(lambda: self.reader.is_gone))
        self.assertEqual(list(self.files()), ["a"])
        os.rename(self.folder + "-gone", self.folder)
        write(self.path("b"), "")
        self.becomes("a", "b")
        self.assertFalse(self.reader.is_gone)

    def test_names(self) -> None:
        """Names that aren't valid UTF-8 are changed. Names with more bytes than a value can have are truncated."""
        name = "ü" * 127 + ".x"  # 256 bytes can't be a file's name; 255 can
        for it in (b"bad\xff", name[1:].encode(), b"a\nb"):
            with open(os.path.join(os.fsencode(self.folder), it), "wb"):
                pass
        self.reader.start()
        self.becomes("bad?", name[1:], "a\nb")

    def test_nothing_may_be_read(self) -> None:
        os.mkdir(self.path("closed"), 0)
        write(self.path("a"), "")
        self.reader.start()
        self.becomes("a")


class Sources(unittest.TestCase):
    def setUp(self) -> None:
        place = tempfile.TemporaryDirectory()
        self.addCleanup(place.cleanup)
        write(os.path.join(place.name, "a"), "")
        self.source = FolderSource(place.name, 256, 0.02)
        self.addCleanup(self.source.close)

    def test_attempt_that_fails(self) -> None:
        """If the store or its reader can't be created completely, the next attempt begins again."""
        for name, error in ("make_index", bestore.NoMemory()), ("another", bestore.NoPass()):
            with mock.patch.object(LocalPass, name, side_effect=error), self.assertRaises(type(error)):
                self.source.open()
        with mock.patch.object(FolderReader, "start", side_effect=RuntimeError("can't start new thread")):
            self.assertRaises(RuntimeError, self.source.open)
        self.assertIsNone(self.source.reader)
        with self.source.open().user as user:
            self.assertTrue(wait_for(lambda: self.source.condition.text == "following the folder"), self.source.condition)
            with user.pin() as version:
                self.assertEqual(version.column(version, "name"), ["a"])

    def test_reader_that_ends(self) -> None:
        """The window shows why a folder is no longer followed, whatever the error was."""
        with mock.patch.object(FolderReader, "_read_folder", side_effect=MemoryError):
            self.source.open().close()
            self.assertTrue(wait_for(lambda: self.source.condition.is_fault))
        self.assertEqual(self.source.condition.text, "The folder is no longer followed: MemoryError")


class Full(InFolder):
    pages = 128

    def test_store(self) -> None:
        """The reader counts the files that don't fit, keeps those in the store, and uses room that becomes available."""
        for number in range(500):
            write(self.path(f"{number:03}"), "")
        self.reader.start()
        self.assertTrue(wait_for(lambda: self.reader.rounds > 0))
        self.assertTrue(wait_for(lambda: len(self.reader) + self.reader.left_out == 500))  # not during the next round
        self.assertTrue(wait_for(lambda: len(self.files()) == len(self.reader)))
        self.assertGreater(self.reader.left_out, 100)
        before = set(self.files())
        for name in before:
            os.unlink(self.path(name))
        self.assertTrue(wait_for(lambda: bool(self.files()) and not before & set(self.files())), self.reader.fault)
        self.assertTrue(wait_for(lambda: len(self.reader) + self.reader.left_out == 500 - len(before)))
        self.assertIsNone(self.reader.fault)


class Mails(InFolder):
    def test_maildir(self) -> None:
        for side in ("cur", "new", "tmp"):
            os.mkdir(self.path(side))
        write(self.path("cur", "1:2,S"), MAIL.format("Mon, 3 Mar 2025 09:12:00 +0100"))
        write(self.path("new", "2"), MAIL.format("soon"))
        self.reader.start()
        self.becomes("1:2,S", "2")
        nodes = self.files()
        with self.store.pin() as version:
            for query, names in [
                ("MAIL:status==New", ["2"]), ("MAIL:when==1740989520", ["1:2,S"]), ("MAIL:subject==Seeds", ["1:2,S", "2"]),
                ('MAIL:from=="Ann Müller <*"', ["1:2,S", "2"]), ("MAIL:to==bob*", ["1:2,S", "2"]),
            ]:
                self.assertEqual(version.query(query), sorted(nodes[name] for name in names))

    def test_headers(self) -> None:
        """A header may use encoded words, or contain bytes in UTF-8 or in another encoding."""
        path = self.path("1")
        for raw, text in [
            (b"=?utf-8?q?M=C3=BCller?=", "Müller"), ("Müller".encode(), "Müller"), (b"M\xfcller", "Müller"),
            (b"=?none?q?x?=", "=?none?q?x?="), ("=?utf-8?q?M=C3=BCller?= und Söhne".encode(), "Müller und Söhne"),
            (b"=?utf-8?b?4pyJ?=\n =?utf-8?b?4pyJ?= x", "✉✉ x"), (b"=?utf-8?b?4py?=", "=?utf-8?b?4py?="),
            (b"\x81\xff", "\ufffdÿ"),
        ]:
            with open(path, "wb") as file:
                file.write(b"Subject: " + raw + b"\n\n")
            self.assertEqual(mail_attributes(path)["MAIL:subject"], text)

    def test_cut(self) -> None:
        self.assertEqual([cut("a\0b"), cut("é" * 200), cut("\udcff")], ["ab", "é" * 127, "?"])

    def test_dates_out_of_the_calendar(self) -> None:
        for date in ("Mon, 3 Mar 99999 09:12:00 +0100", "Mon, 3 Mar 2025 09:12:00 +9999", "x" * 1000):
            write(self.path("1"), f"Date: {date}\n\n")
            self.assertNotIn("MAIL:when", mail_attributes(self.path("1")))

    def test_types(self) -> None:
        self.assertEqual([type_of("a.html"), type_of("a.tar.gz"), type_of("a.unknown")],
                         ["text/html", "application/gzip", "application/octet-stream"])


class Where(unittest.TestCase):
    def test_tree(self) -> None:
        """A file's folder is a node, and so on up to a folder that has a path."""
        with bestore.open(64, 2) as store:
            root = file_of(store, **{"name": "home", "FILE:root": "/home"})
            sub = file_of(store, **{"name": "sub\ufffd", "FILE:parent": root, "FILE:name": b"sub\xff"})
            stray = file_of(store, **{"name": "x", "FILE:parent": 999})
            loop = store.new_node()
            store.set(loop, "FILE:parent", loop)
            places = Places()
            with store.pin() as version:
                def where(attributes: Dict[str, bestore.Value]) -> "str | None":
                    places.locate(version, attributes)
                    return path_of(attributes)
                self.assertEqual(where({"name": "a", "FILE:parent": sub}), os.fsdecode(b"/home/sub\xff/a"))
                self.assertEqual(where({"name": "home", "FILE:root": "/home"}), "/home")
                self.assertEqual(where({"name": "b", "FILE:parent": root}), "/home/b")
                self.assertIsNone(where({"name": "c", "FILE:parent": stray}))
                self.assertIsNone(where({"name": "d", "FILE:parent": loop}))
                self.assertEqual(where({"name": "e", "folder": "/x"}), "/x/e")
                self.assertEqual([where({"path": "/y"}), where({"name": "z"})], ["/y", None])
            self.assertEqual((places.forget([1000]), places.forget([7, sub])), (False, True))


class Opens(unittest.TestCase):
    def setUp(self) -> None:
        place = tempfile.TemporaryDirectory()
        self.addCleanup(place.cleanup)
        self.folder = place.name
        self.program = os.path.join(self.folder, "xdg-open")
        patched = mock.patch.dict(os.environ, {"PATH": f"{self.folder}:/usr/bin:/bin"})
        patched.start()
        self.addCleanup(patched.stop)

    def make_program(self, text: str) -> None:
        write(self.program, f"#!/bin/sh\n{text}\n")
        os.chmod(self.program, stat.S_IRWXU)

    def end_of(self, name: str) -> bool:
        opening = Opening(os.path.join(self.folder, name), name)
        return wait_for(opening.has_ended)

    def test_opens(self) -> None:
        self.make_program(f'printf %s "$*" >{self.folder}/opened')
        name = "-a; b$c\n"
        write(os.path.join(self.folder, name), "")
        self.assertTrue(self.end_of(name))
        with open(os.path.join(self.folder, "opened"), encoding="utf-8") as file:
            self.assertEqual(file.read(), os.path.join(self.folder, name))

    def test_faults(self) -> None:
        write(os.path.join(self.folder, "a"), "")
        for program, reason in [
            ("exit 4", "no program opens"), ("echo oh dear >&2; exit 9", "oh dear"), ("exit 9", "ended with 9"),
            ("kill -9 $$", "ended with -9"),
        ]:
            self.make_program(program)
            with self.assertRaisesRegex(CannotOpen, reason):
                self.end_of("a")
        with self.assertRaisesRegex(CannotOpen, "isn't there any more"):
            Opening(os.path.join(self.folder, "none"), "none")
        with self.assertRaisesRegex(CannotOpen, "don't say where it is"):
            Opening(None, "none")
        write(self.program, "")
        with mock.patch.dict(os.environ, {"PATH": self.folder}), self.assertRaisesRegex(CannotOpen, "xdg-utils"):
            os.chmod(self.program, 0)
            Opening(os.path.join(self.folder, "a"), "a")


if __name__ == "__main__":
    unittest.main()
