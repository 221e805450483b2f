"""Tests of what the list builds on: sorted hits, the selection, and the file of saved queries."""

from __future__ import annotations

import json
import os
import random
import tempfile
import threading
import unittest
from typing import Dict, List, Optional

import bestore
from bestore_queries.saved_queries import BadFile, Saved, SavedQueries, default_path
from bestore_queries.selection import Selection
from bestore_queries.sorted_hits import CHUNK, Hit, SortedHits, entry_of

VALUES: List[Optional[bestore.Value]] = [None, -3, 0, 7, 2**63, "", "b", "B", "a", "ä", "straße", "STRASSE", b"", b"x"]


def hit_of(node: int, chance: random.Random) -> Hit:
    """Returns a hit that may lack an attribute, or have it with any kind."""
    values = {name: chance.choice(VALUES) for name in ("name", "size")}
    return Hit(node, {name: value for name, value in values.items() if value is not None})


def in_order(hits: Dict[int, Hit], attribute: str, is_turned: bool) -> List[int]:
    """Returns the hits' nodes as they should be listed."""
    entries = [entry_of(attribute, hit) for hit in hits.values()]
    found = [entry[3] for entry in sorted((it for it in entries if it is not None), reverse=is_turned)]
    return found + sorted(set(hits) - set(found))


def listed(hits: SortedHits) -> List[int]:
    return [hits[place].node for place in range(len(hits))]


class Sorted(unittest.TestCase):
    def check(self, hits: SortedHits, model: Dict[int, Hit]) -> None:
        nodes = listed(hits)
        self.assertEqual(sorted(nodes), sorted(model))
        self.assertEqual([hits.place_of(node) for node in nodes], list(range(len(nodes))))

    def test_at_random(self) -> None:
        """Whatever joins, changes or leaves, even during re-sorting, the order matches that of a plain sort."""
        for seed in range(30):
            chance, hits, model = random.Random(seed), SortedHits(), {}  # type: random.Random, SortedHits, Dict[int, Hit]
            for _ in range(400):
                what = chance.random()
                if what < 0.6:
                    hit = hit_of(chance.randrange(60), chance)
                    hits.put(hit)
                    model[hit.node] = hit
                elif what < 0.8:
                    node = chance.randrange(60)
                    hits.remove(node)
                    model.pop(node, None)
                elif what < 0.85:
                    hits.sort(chance.choice(("name", "size")), chance.random() < 0.5)
                    hits.show_first(chance.sample(range(60), 5))
                else:
                    hits.step()
                if chance.random() < 0.1:
                    self.check(hits, model)
            attribute, is_turned = hits.attribute, hits.will_be_turned
            while hits.is_sorting:
                hits.step()
            self.assertEqual((hits.attribute, hits.is_turned), (attribute, is_turned))
            self.assertEqual(listed(hits), in_order(model, attribute, is_turned))
            hits.clear()
            self.assertEqual((len(hits), hits.attribute, hits.is_turned), (0, attribute, is_turned))

    def test_many(self) -> None:
        """Sorting takes more than one step."""
        hits, chance, model = SortedHits(), random.Random(1), {}  # type: SortedHits, random.Random, Dict[int, Hit]
        for node in range(3 * CHUNK + 1):
            model[node] = Hit(node, {"name": str(chance.random()), "size": chance.randrange(100)})
            hits.put(model[node])
        self.assertEqual(listed(hits), in_order(model, "name", False))
        hits.sort("size", True)
        before = listed(hits)
        steps = 0
        while not hits.step():
            steps += 1
            if steps == 3:
                hits.remove(5)
                del model[5]
                before.remove(5)
            self.assertEqual(listed(hits), before)
        self.assertGreater(steps, 5)
        self.assertEqual(listed(hits), in_order(model, "size", True))

    def test_first_of_a_new_order(self) -> None:
        """The hits that the store found come first until all are sorted. Meanwhile, the others keep their order."""
        hits = SortedHits()
        for node in range(6):
            hits.put(Hit(node, {"name": str(node), "size": -node}))
        hits.show_first([5])  # nothing is being sorted
        self.assertEqual(listed(hits), [0, 1, 2, 3, 4, 5])
        hits.sort("size")
        hits.show_first([5, 4, 9])
        self.assertEqual(listed(hits), [5, 4, 0, 1, 2, 3])
        hits.remove(5)
        hits.put(Hit(7, {"name": "1", "size": 7}))
        self.assertEqual(listed(hits), [4, 0, 1, 7, 2, 3])
        self.assertEqual([hits.place_of(node) for node in (4, 0, 7, 3, 5)], [0, 1, 3, 5, None])
        hits.sort("size", True)
        self.assertEqual(listed(hits), [0, 1, 7, 2, 3, 4])
        while not hits.step():
            pass
        self.assertEqual(listed(hits), [7, 0, 1, 2, 3, 4])

    def test_hit_that_is_there_already(self) -> None:
        """Adding a hit that is already there changes nothing, and gives a sort in progress nothing to catch up with."""
        hits = SortedHits()
        for node in range(3):
            hits.put(Hit(node, {"name": str(node), "size": -node}))
        hits.sort("size")
        hits.put(Hit(1, {"name": "1", "size": -1}))
        self.assertEqual(hits._sorting and hits._sorting.touched, {})
        hits.put(Hit(1, {"name": "1", "size": 1}))
        self.assertEqual(hits._sorting and list(hits._sorting.touched), [1])
        while not hits.step():
            pass
        self.assertEqual(listed(hits), [2, 0, 1])

    def test_turning_back(self) -> None:
        """Sorting by another attribute and then immediately by the old one again restores the old order."""
        hits = SortedHits()
        for node in range(5):
            hits.put(Hit(node, {"name": str(node), "size": -node}))
        hits.sort("size")
        hits.step()
        hits.sort("name", True)
        self.assertEqual((hits.is_sorting, listed(hits)), (False, [4, 3, 2, 1, 0]))


class Selected(unittest.TestCase):
    def setUp(self) -> None:
        self.hits = SortedHits()
        for node in range(10):
            self.hits.put(Hit(node, {"name": f"{node}"}))
        self.selection = Selection(self.hits)

    def test_by_pointer(self) -> None:
        self.selection.choose(3)
        self.selection.extend(5)
        self.assertEqual((self.selection.nodes, self.selection.cursor), ([3, 4, 5], 5))
        self.selection.extend(1)
        self.assertEqual(self.selection.nodes, [1, 2, 3])
        self.selection.toggle(2)
        self.selection.toggle(9)
        self.assertEqual((self.selection.nodes, len(self.selection), 9 in self.selection), ([1, 3, 9], 3, True))

    def test_by_keys(self) -> None:
        self.assertEqual(self.selection.move(1), 0)
        self.assertEqual([self.selection.move(it) for it in (4, -100, 100)], [4, 0, 9])
        self.assertEqual((self.selection.move(-2, extends=True), self.selection.nodes), (7, [7, 8, 9]))
        self.selection.choose_all()
        self.assertEqual(len(self.selection), 10)
        self.selection.clear()
        self.assertEqual((self.selection.nodes, self.selection.cursor), ([], None))

    def test_list_that_changes(self) -> None:
        """The selection consists of hits rather than positions."""
        self.selection.choose(3)
        self.hits.put(Hit(20, {"name": ""}))
        self.assertEqual((self.selection.nodes, self.selection.cursor), ([3], 4))
        self.hits.remove(3)
        self.selection.forget(3)
        self.assertEqual((self.selection.nodes, self.selection.cursor, self.selection.move(1)), ([], None, 0))
        self.selection.extend(2)
        self.assertEqual(self.selection.nodes, [20, 0, 1])
        self.hits.clear()
        self.assertIsNone(self.selection.move(1))


class SavedFile(unittest.TestCase):
    def setUp(self) -> None:
        folder = tempfile.TemporaryDirectory()
        self.addCleanup(folder.cleanup)
        self.path = os.path.join(folder.name, "deep", "queries.json")
        self.saved = SavedQueries(self.path)

    def test_saves(self) -> None:
        self.assertEqual(self.saved.all(), [])
        one, other = Saved("New ✉", 'MAIL:status==New && MAIL:when>=%yesterday%', ("MAIL:subject",)), Saved("all", 'name=="*"')
        for it in (one, other):
            self.saved.save(it)
        self.assertEqual(SavedQueries(self.path).all(), [other, one])
        self.saved.save(Saved("all", "size>0"))
        self.saved.remove("New ✉")
        self.saved.remove("none")
        self.assertEqual(self.saved.all(), [Saved("all", "size>0")])
        self.assertEqual(os.listdir(os.path.dirname(self.path)), ["queries.json.lock", "queries.json"]
                         if os.listdir(os.path.dirname(self.path))[0].endswith("lock") else ["queries.json", "queries.json.lock"])

    def test_bad_files(self) -> None:
        """If a file can't be read, the error names the file and the position, and the file isn't overwritten."""
        os.makedirs(os.path.dirname(self.path))
        for text, reason in [
            (b"{", "line 1, column 2"), (b"[]", "no list of queries"), (b'{"queries":[{"name":1,"query":"x"}]}', "isn't a string"),
            (b'{"queries":[{}]}', "no list of queries"), (b"\xff", "no list of queries"), (b"[" * 100000, "no list of queries"),
        ]:
            with open(self.path, "wb") as file:
                file.write(text)
            for call in (self.saved.all, lambda: self.saved.save(Saved("a", "b")), lambda: self.saved.remove("a")):
                with self.assertRaisesRegex(BadFile, reason):
                    call()
            with open(self.path, "rb") as file:
                self.assertEqual(file.read(), text)

    def test_no_room(self) -> None:
        """If the file can't be written, the old one is left in place."""
        self.saved.save(Saved("a", "b"))
        blocked = SavedQueries(os.path.join(self.path, "below", "a", "file.json"))
        with self.assertRaises(BadFile):
            blocked.save(Saved("a", "b"))
        if os.path.exists("/dev/full"):
            with self.assertRaises(BadFile):
                SavedQueries("/dev/full/x").save(Saved("a", "b"))
        self.assertEqual(self.saved.all(), [Saved("a", "b")])

    def test_half_of_a_character(self) -> None:
        """A query that was typed with half of a character is saved as it is."""
        saved = [Saved("\udcff", "name==\ud800", ("\udfff",)), Saved("\U0001f600", "name==é")]
        for it in saved:
            self.saved.save(it)
        self.assertEqual(sorted(self.saved.all()), sorted(saved))
        with open(self.path, encoding="utf-8") as file:
            self.assertIn("name==é", file.read())

    def test_link(self) -> None:
        """If the file is a link, the file that it names is replaced, and not the link."""
        os.makedirs(os.path.dirname(self.path))
        elsewhere = os.path.join(os.path.dirname(os.path.dirname(self.path)), "elsewhere.json")
        os.symlink(elsewhere, self.path)
        for it in (Saved("a", "b"), Saved("a", "c")):
            self.saved.save(it)
            self.assertEqual(SavedQueries(elsewhere).all(), [it])
        self.assertTrue(os.path.islink(self.path))

    def test_two_windows(self) -> None:
        """Windows that save at the same time lose nothing."""
        def save(first: int) -> None:
            for number in range(20):
                SavedQueries(self.path).save(Saved(f"{first}-{number}", "x"))
        threads = [threading.Thread(target=save, args=(it,)) for it in range(3)]
        for thread in threads:
            thread.start()
        for thread in threads:
            thread.join()
        self.assertEqual(len(self.saved.all()), 60)
        with open(self.path, encoding="utf-8") as file:
            self.assertEqual(len(json.load(file)["queries"]), 60)

    def test_default(self) -> None:
        self.assertTrue(default_path().endswith("/bestore/queries.json"))


if __name__ == "__main__":
    unittest.main()
