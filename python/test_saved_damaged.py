"""Tests of store files with changed or missing parts."""

import os
import random
import shutil
from typing import Dict, List, Optional
from unittest import mock

from bestore import saved
from bestore._saved_checks import of_entry, of_token
from saved_files import Files, sql, three, to_format

CHANGES = 200  # bytes to change, each in its own copy of the file


class Damaged(Files):
    def beside(self, ending: str) -> str:
        return self.path + ending

    def image(self) -> Dict[str, bytes]:
        """Returns the contents of the file and its companion files, by suffix."""
        found = {}
        for ending in ("", "-wal", "-last"):
            if os.path.exists(self.beside(ending)):
                with open(self.beside(ending), "rb") as file:
                    found[ending] = file.read()
        return found

    def put(self, image: Dict[str, bytes]) -> None:
        for ending in ("", "-wal", "-shm", "-last"):
            if ending in image:
                with open(self.beside(ending), "wb") as file:
                    file.write(image[ending])
            elif os.path.exists(self.beside(ending)):
                os.remove(self.beside(ending))

    def killed(self, entries: int) -> Dict[str, bytes]:
        """Returns a file with this many entries and as many nodes, as `kill -9` would leave it."""
        with saved.open(self.path, 64) as store:
            for _ in range(entries):
                store.new_node()
            return self.image()

    def nodes(self) -> List[int]:
        with saved.open(self.path, 64) as store, store.pin() as version:
            return list(version.nodes())

    def changed(self, image: Dict[str, bytes], ending: str, at: int, by: int = 0x55) -> None:
        data = bytearray(image[ending])
        data[at] ^= by
        self.put({**image, ending: bytes(data)})

    def test_any_changed_byte(self) -> None:
        """A changed byte is either detected or makes no difference."""
        image, chosen, refused = self.killed(150), random.Random(1), 0
        for change in range(CHANGES):
            ending = ("", "-wal")[change % 2]
            at = chosen.randrange(len(image[ending]))
            self.changed(image, ending, at, chosen.randrange(1, 256))
            with self.subTest(ending=ending, at=at):
                try:
                    self.assertEqual(self.nodes(), list(range(1, 151)))
                except saved.SavedError as error:
                    self.assertIsInstance(error, (saved.Damaged, saved.CutOff, saved.Foreign, saved.Newer))
                    refused += 1
        self.assertGreater(refused, CHANGES // 3)

    def test_cut_file(self) -> None:
        three(self.path)
        whole = self.image()[""]
        for length in range(0, len(whole), len(whole) // 11):
            self.put({"": whole[:length]})
            try:
                self.assertIn(len(self.nodes()), (0, 3))
            except saved.SavedError:
                pass

    def test_damaged_entry(self) -> None:
        self.killed(9)
        sql(self.path, "UPDATE entry SET batch = substr(batch, 1, 5) || x'77' || substr(batch, 7) WHERE number = 6")
        damaged = self.refusal()
        assert isinstance(damaged, saved.Damaged)
        self.assertEqual((damaged.entry, damaged.batch, damaged.until), (6, None, 5))
        self.assertEqual(str(damaged), f"{self.path}: entry 6 is damaged: its checksum doesn't match; be restore --until 5 "
                                       "restores what comes before it")

    def test_parts(self) -> None:
        """Every part of a row is checked."""
        image = self.killed(3)
        self.put(image)
        self.nodes()
        with saved.open(self.path, 64) as store:
            store.new_node()
        image = self.image()
        for change, entry, batch, until in [
            ("UPDATE entry SET pass = pass + 1", 4, None, 3), ("UPDATE entry SET checksum = NULL", 4, None, 3),
            ("UPDATE entry SET batch = 'text'", 4, None, 3), ("UPDATE state SET batch = x'00' WHERE place = 0", None, 0, None),
            ("UPDATE about SET number = 1 WHERE what = 'next'", None, None, None), ("DELETE FROM about", None, None, None),
            ("DROP TABLE entry", 4, None, 3),
        ]:
            with self.subTest(change):
                self.put(image)
                sql(self.path, change)
                damaged = self.refusal()
                assert isinstance(damaged, saved.Damaged), damaged
                self.assertEqual((damaged.entry, damaged.batch, damaged.until), (entry, batch, until))

    def test_without_wal(self) -> None:
        image = self.killed(9)
        self.put({"": image[""], "-last": image["-last"]})
        cut = self.refusal()
        assert isinstance(cut, (saved.CutOff, saved.Damaged)), cut
        self.changed(image, "-wal", len(image["-wal"]) - 1)
        cut = self.refusal()
        assert isinstance(cut, saved.CutOff), cut
        self.assertEqual((cut.last, cut.had), (8, 9))
        os.remove(self.beside("-last"))
        self.assertEqual(len(self.nodes()), 8)

    def test_last(self) -> None:
        """The `-last` file contains the number while the store is open. If the file can't be written, the store works without it."""
        image = self.killed(2)
        self.assertEqual(image["-last"].split()[1], b"%020d" % 2)
        self.assertEqual(os.listdir(self.folder), [os.path.basename(self.path)])
        with mock.patch("os.pwrite", side_effect=OSError):
            self.killed(1)
        os.mkdir(self.beside("-last"))
        self.assertEqual(self.nodes(), [1, 2, 3])

    def test_first_format(self) -> None:
        three(self.path)
        to_format(self.path, 1)
        sql(self.path, "DELETE FROM about WHERE what = 'file'")
        sql(self.path, "CREATE TABLE token (number INTEGER PRIMARY KEY, token TEXT NOT NULL, nodes BLOB NOT NULL)",
            "INSERT INTO token VALUES (4, 'one', x'0300000000000000')")
        self.assertEqual(self.nodes(), [1, 2, 3])
        self.assertEqual(sql(self.path, "PRAGMA user_version"), [(3,)])
        self.assertEqual(sql(self.path, "SELECT checksum FROM token"), [(of_token(4, b"one", b"\3" + bytes(7)),)])
        self.assertEqual(sql(self.path, "SELECT count(*) FROM state WHERE checksum IS NULL"), [(0,)])

    def test_first_format_on_a_full_disk(self) -> None:
        three(self.path)
        to_format(self.path, 1)
        full: Optional[saved.SavedError] = saved.DiskFull(self.path)
        with mock.patch("bestore._saved_file.File.write_state", side_effect=full), saved.open(self.path, 64) as store:
            store.new_node()
        self.assertEqual(sql(self.path, "PRAGMA user_version"), [(1,)])
        with saved.open(self.path, 64) as store:
            store.new_node()
        row = sql(self.path, "SELECT number, pass, batch, checksum FROM entry")[0]
        self.assertEqual(row[3], of_entry(*row[:3]))
        shutil.copy(self.path, self.beside("-copy"))
        self.assertEqual(self.nodes(), [1, 2, 3, 4, 5])


if __name__ == "__main__":
    import unittest
    unittest.main()
