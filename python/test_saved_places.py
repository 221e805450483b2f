"""Tests of saved stores whose open file is removed, moved or replaced. The next opening wouldn't find what is written then."""

import os
import unittest
from contextlib import suppress
from typing import Callable, List

import bestore
from bestore import saved
from saved_files import Files, three


def nodes_of(store: bestore.Pass) -> List[int]:
    with store.pin() as version:
        return version.nodes()


class Places(Files):
    def setUp(self) -> None:
        super().setUp()
        self.elsewhere = os.path.join(self.folder, "elsewhere")

    def opened(self, **options: float) -> saved.Saved:
        store = saved.open(self.path, 64, **options)  # type: ignore[arg-type]
        self.addCleanup(self.close, store)
        return store

    def close(self, store: saved.Saved) -> None:
        with suppress(saved.Stopped):
            store.close()

    def remove(self) -> None:
        os.unlink(self.path)

    def move(self) -> None:
        for ending in ("", "-wal", "-last"):
            os.rename(self.path + ending, self.elsewhere + ending)

    def replace(self) -> None:
        """Puts another store's file in place of the open one."""
        with saved.open(self.elsewhere, 64) as other:
            other.new_nodes(5)
        os.replace(self.elsewhere, self.path)

    def check_refused(self, lose: Callable[[], None], is_replaced: bool, said: str) -> None:
        """Checks that the first write after the file was lost isn't accepted, and no later one either."""
        store = self.opened()
        other = store.another()
        store.new_node()
        lose()
        with self.assertRaises(saved.NotSaved) as refused:
            other.new_node()
        cause = refused.exception.__cause__
        assert isinstance(cause, saved.Moved)
        self.assertEqual((refused.exception.number, cause.path, cause.is_replaced), (2, self.path, is_replaced))
        for error in (refused.exception, cause):
            self.assertTrue(str(error).startswith(self.path), error)
            self.assertIn(said, str(error))
            self.assertIn("put the file back", str(error))
        for call in (store.new_node, store.flush, store.compact, store.close):
            with self.assertRaises(saved.Stopped) as stopped:
                call()
            self.assertIs(stopped.exception.__cause__, cause)
        self.assertEqual(nodes_of(other), [1, 2])

    def test_removed(self) -> None:
        self.check_refused(self.remove, False, "the open file was moved or removed")
        self.assertEqual(os.path.exists(self.path), False)

    def test_moved(self) -> None:
        self.check_refused(self.move, False, "the open file was moved or removed")
        with saved.open(self.elsewhere, 64) as store:
            self.assertEqual(nodes_of(store), [1])

    def test_replaced(self) -> None:
        self.check_refused(self.replace, True, "another file has taken the open file's place")

    def test_new_store_at_the_path(self) -> None:
        """Closing a store whose file was moved leaves alone what belongs to the new store at its path."""
        before = self.opened()
        before.new_node()
        self.move()
        with saved.open(self.path, 64) as store:
            nodes = store.new_nodes(3)
            before.close()
            self.assertEqual(sorted(os.listdir(self.folder)), sorted(
                name + ending for name in ("test.bestore", "elsewhere") for ending in ("", "-wal", "-last")))
            nodes.append(store.new_node())
        with saved.open(self.path, 64) as store:
            self.assertEqual(nodes_of(store), nodes)

    def test_nothing_to_write(self) -> None:
        """A flush and a compaction say it too."""
        for call in ("flush", "compact"):
            store = self.opened()
            store.new_node()
            self.remove()
            with self.assertRaises(saved.Stopped) as stopped:
                getattr(store, call)()
            self.assertIsInstance(stopped.exception.__cause__, saved.Moved)
            self.close(store)

    def test_saved_later(self) -> None:
        store = self.opened(every=3600)
        store.new_node()
        self.remove()
        store.new_node()
        self.assertRaises(saved.Stopped, store.flush)
        self.assertRaises(saved.Stopped, store.new_node)
        self.assertRaises(saved.Stopped, store.close)

    def test_changed_link(self) -> None:
        os.symlink("one", self.path)
        store = self.opened()
        store.new_node()
        os.unlink(self.path)
        os.symlink("two", self.path)
        self.assertRaises(saved.NotSaved, store.new_node)

    def test_back_again(self) -> None:
        """A file that is back in time wasn't lost. A relative path stays what it was when the store was opened."""
        before = os.getcwd()
        self.addCleanup(os.chdir, before)
        os.chdir(self.folder)
        three("test.bestore")
        with saved.open("test.bestore", 64) as store:
            os.chdir(before)
            os.rename(self.path, self.elsewhere)
            os.rename(self.elsewhere, self.path)
            os.chmod(self.path, 0o644)
            node = store.new_node()
        with saved.open(self.path, 64) as store:
            self.assertIn(node, nodes_of(store))


if __name__ == "__main__":
    unittest.main()
