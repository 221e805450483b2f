"""Tests of folders of volumes, in which version 0.4.0 kept a shelf. Opening one makes a file of it."""

import os
import shutil
from contextlib import ExitStack
from typing import Any, Callable, Dict, List, Set
from unittest import mock

import bestore
from bestore import saved
from bestore._saved_file import File
from saved_files import Files, file_size, sql, to_format

NUMBERS = 10**14
Contents = Dict[int, Dict[str, bestore.Typed]]


class Volumes(Files):
    def setUp(self) -> None:
        super().setUp()
        self.shelf = os.path.join(self.folder, "shelf")
        os.mkdir(self.shelf)
        self.expected: Contents = {}

    def volume(self, number: int, fill: Callable[[saved.Saved], object], entries: bool = False) -> None:
        """Makes a volume. Its last writes are entries, and not in its state, if this is so."""
        path = os.path.join(self.shelf, f"{number}.bestore")
        with saved.open(path, 64) as store:
            fill(store)
            if not entries:
                store.compact()
            with store.pin() as version:
                for node in version:
                    self.expected[number * NUMBERS + node] = version.attributes(node, kinds=True)
        to_format(path, 1 if number % 3 == 2 else 2)

    def fill_two(self) -> None:
        def first(store: saved.Saved) -> None:
            store.set(store.new_node(), "size", 7)  # before there is an index
            store.make_index("size", bestore.INT64)
            for size in (5, 6):
                file_size(store, size)
            store.apply(bestore.Batch().set(2, "raw", b"\0").set(2, "é", "ü").set(3, "size", "seven"))
            store.remove_node(3)

        def second(store: saved.Saved) -> None:
            store.make_index("size", bestore.INT64)
            store.make_index("name", bestore.STRING)
            store.set(file_size(store, 8), "name", "eight")

        self.volume(0, first)
        self.volume(1, second, entries=True)

    def check_joined(self, path: str, sizes: List[int], next_node: int) -> None:
        with saved.open(path, 256) as store:
            with store.pin() as version:
                self.assertEqual({node: version.attributes(node, kinds=True) for node in version}, self.expected)
                self.assertEqual((version.query("size>0"), version.next_node), (sizes, next_node))
            self.assertEqual(store.new_node(), next_node)
            store.remove_node(next_node)

    def test_two(self) -> None:
        self.fill_two()
        before = {name: sql(os.path.join(self.shelf, name), "SELECT batch FROM entry") for name in os.listdir(self.shelf)}
        self.check_joined(self.shelf + "/", [2, NUMBERS + 1], NUMBERS + 2)
        self.check_joined(self.shelf, [2, NUMBERS + 1], NUMBERS + 3)
        with saved.open(self.shelf, 256) as store, store.pin() as version:
            self.assertEqual((version.indices(), version.query("name==eight")), (
                {"name": bestore.STRING, "size": bestore.INT64}, [NUMBERS + 1]))
            self.assertEqual(store.number_in_file(version.number), 7 + 4 + 2 + 2)
        self.assertEqual(sorted(os.listdir(self.folder)), ["shelf", "shelf-0.4"])
        self.assertEqual(os.stat(self.shelf).st_mode & 0o7777, 0o600)
        kept = os.path.join(self.folder, "shelf-0.4")
        self.assertEqual({name: sql(os.path.join(kept, name), "SELECT batch FROM entry") for name in before}, before)

    def test_most(self) -> None:
        for number in range(64):
            self.volume(number, lambda store: file_size(store, number + 1), entries=number % 2 == 0)
        with saved.open(self.shelf, 256) as store, store.pin() as version:
            self.assertEqual(list(version), [number * NUMBERS + 1 for number in range(64)])
            self.assertEqual((version.column(version, "size"), version.next_node), (list(range(1, 65)), 63 * NUMBERS + 2))
            self.assertLess(version.next_node, 2**53)

    def test_link(self) -> None:
        self.fill_two()
        os.symlink("shelf", self.path)
        self.check_joined(self.path, [2, NUMBERS + 1], NUMBERS + 2)
        self.assertEqual((os.path.isfile(self.shelf), os.path.islink(self.path)), (True, True))

    def check_refused(self, kind: type) -> Any:
        before = sorted(os.listdir(self.shelf))
        refused = self.refusal(self.shelf)
        self.assertIsInstance(refused, kind)
        self.assertEqual(sorted(os.listdir(self.shelf)), before)
        return refused

    def test_two_kinds(self) -> None:
        for number, kind in enumerate((bestore.INT64, bestore.INT64, bestore.UINT32)):
            self.volume(number, lambda store: store.make_index("size", kind))
        refused = self.check_refused(saved.OtherKind)
        self.assertEqual((refused.name, refused.first, refused.second), ("size", (0, bestore.INT64), (2, bestore.UINT32)))
        self.assertTrue(str(refused).startswith(f'{self.shelf}: the index "size" has kind INT64 in volume 0, and kind UINT32 in volume 2;'))
        with saved.open(os.path.join(self.shelf, "2.bestore"), 64) as store:  # which makes it a file of the newest format
            store.remove_index("size")
        with saved.open(self.shelf, 64) as store, store.pin() as version:
            self.assertEqual(version.indices(), {"size": bestore.INT64})

    def test_more_indices_than_a_store_has(self) -> None:
        for number in range(2):
            self.volume(number, lambda store: [store.make_index(f"{number}{name}", bestore.INT64) for name in range(17)])
        self.assertIn("34 indices", str(self.check_refused(saved.TooLarge)))

    def test_missing_and_damaged(self) -> None:
        self.fill_two()
        path = os.path.join(self.shelf, "0.bestore")
        sql(path, "UPDATE state SET checksum = 0")
        self.assertEqual(self.check_refused(saved.Damaged).path, path)
        os.remove(path)
        self.assertEqual(self.check_refused(saved.NoFile).path, path)

    def test_held_and_taken(self) -> None:
        self.fill_two()
        os.mkdir(self.shelf + "-0.4")
        self.assertEqual(self.check_refused(saved.Exists).other, self.shelf + "-0.4")
        os.rmdir(self.shelf + "-0.4")
        with saved.open(os.path.join(self.shelf, "1.bestore"), 64):
            self.check_refused(saved.Held)

    def test_killed_at_every_step(self) -> None:
        """Kills a process before each statement of SQLite, and each call that changes names or waits for the disk."""
        self.fill_two()

        def check(path: str) -> None:
            self.check_joined(path, [2, NUMBERS + 1], NUMBERS + 2)
            self.assertEqual(sorted(os.listdir(os.path.dirname(path))), ["shelf", "shelf-0.4"])
        self.assertGreater(self.kill_at_every_step("shelf", check), 50)

    def test_earlier_format_killed_at_every_step(self) -> None:
        """A file is converted in one transaction, so it has one format or the other."""
        self.fill_two()
        os.rename(os.path.join(self.shelf, "0.bestore"), os.path.join(self.shelf, "one"))
        self.expected = {node: attributes for node, attributes in self.expected.items() if node < NUMBERS}

        def check(path: str) -> None:
            formats.add(sql(path, "PRAGMA user_version")[0][0])
            self.check_joined(path, [2], 4)
        formats: Set[int] = set()
        self.assertGreater(self.kill_at_every_step(os.path.join("shelf", "one"), check), 20)
        self.assertEqual(formats, {2, 3})

    def kill_at_every_step(self, name: str, check: Callable[[str], None]) -> int:
        """Opens copies of what has this name, and kills the process at each step. Returns how many steps there were."""
        step, ended = 0, 9
        while ended == 9:
            place = os.path.join(self.folder, "copies", str(step))
            shutil.copytree(self.shelf, os.path.join(place, "shelf"))
            child = os.fork()
            if child == 0:
                self.open_until(os.path.join(place, name), step)
            ended = os.WEXITSTATUS(os.waitpid(child, 0)[1])
            with self.subTest(step=step):
                check(os.path.join(place, name))
            shutil.rmtree(place)
            step += 1
        self.assertEqual(ended, 7)
        return step

    def open_until(self, path: str, steps: int) -> None:
        """Opens the folder, and ends the process at once when this many steps have been taken."""
        left = [steps]

        def counted(call: Callable[..., object]) -> Callable[..., object]:
            def run(*arguments: object) -> object:
                if left[0] == 0:
                    os._exit(9)
                left[0] -= 1
                return call(*arguments)
            return run
        try:
            with ExitStack() as patched:
                for owner, name in (os, "rename"), (os, "remove"), (os, "fsync"), (File, "_run"), (File, "close"):
                    patched.enter_context(mock.patch.object(owner, name, counted(getattr(owner, name))))
                saved.open(path, 256).close()
            os._exit(7)
        finally:
            os._exit(1)


if __name__ == "__main__":
    import unittest
    unittest.main()
