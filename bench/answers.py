#!/usr/bin/env python3
"""Compares the package's answers to random queries with those of sqlite3, which is told the same attributes.

    python3 bench/answers.py                 the package has to be found: PYTHONPATH=python
    python3 bench/answers.py --seed 7        repeats an earlier run: each run prints its seed
    python3 bench/answers.py --queries 5000  a long run

Each query is asked in up to five spellings and as its canonical text, in every form: whole, counted, prepared, the first by number, any,
pages by an index in either direction, and refreshed. Each is asked again after a few writes. Some attributes are missing, are older
than their index or have another kind than it, and two indices are made halfway. A query that no index covers has to be refused, however
it is spelled. If an answer is wrong, it says so and exits with status 1.
"""
from __future__ import annotations

import argparse
import os
import re
import sys
import time
from contextlib import ExitStack
from random import Random
from typing import Callable, Dict, List, Optional, Sequence, Tuple, Union

sys.dont_write_bytecode = True
sys.path.insert(0, os.path.join(os.path.dirname(os.path.abspath(__file__)), "script"))

import bestore
from bestore import Batch, Kind, NotCovered, Prepared, Version
from drawing import Comparison, Tree, draw_tree, is_covered, spellings, sql_text

try:
    import sqlite3
except ImportError:
    print("skipped, python3 has no sqlite3")
    sys.exit()

Value = Union[int, str, bytes]

EARLY = {"number": Kind.INT32, "title": Kind.STRING}
"""The indices that there are from the beginning."""
LATE = {"count": Kind.INT64, "label": Kind.STRING}
"""The indices that are made halfway."""
NAMES = (*EARLY, *LATE, "loose", "note")
TEXTS = ("title", "label", "note")
OPERATORS = ("==", "!=", "<", "<=", ">", ">=")
PATTERNS = ("a*", "*x-1*", "b?-*", "*", "[ab]x*", "[^a]*", "?", "ax*7", "*.txt")
SPELLINGS, NODES = 5, 200


def draw_text(chance: Random) -> str:
    return chance.choice(["", str(chance.randrange(30)), chance.choice("abcä") + chance.choice("xy") + f"-{chance.randrange(50)}.txt"])


def draw_number(chance: Random) -> int:
    return chance.choice([chance.randrange(-9, 12), chance.randrange(-9, 12), chance.choice([-2**31, 2**31 - 1])])


def draw_value(chance: Random, name: str) -> Tuple[Value, Kind]:
    """Draws a value, which one time in eight is of another kind than most values with this name."""
    is_text = name in TEXTS or (name == "loose" and chance.random() < 0.5)
    if chance.random() < 0.125:
        others: List[Tuple[Value, Kind]] = [
            (b"raw", Kind.RAW), (draw_text(chance), Kind.STRING), (draw_number(chance), Kind.INT32), (draw_number(chance), Kind.INT64),
            (abs(draw_number(chance)), Kind.UINT64)]
        return chance.choice(others)
    if is_text:
        return draw_text(chance), Kind.STRING
    return draw_number(chance), Kind.INT32 if name == "number" else Kind.INT64


def draw_comparison(chance: Random) -> Comparison:
    name, operator = chance.choice(NAMES), chance.choice(OPERATORS)
    if chance.random() < 0.1:
        return Comparison(name, operator, chance.choice(["x", "", "99999999999", "-99999999999", "18446744073709551615", "1.5", "007"]))
    if name in ("number", "count") or (name == "loose" and chance.random() < 0.5):
        return Comparison(name, operator, draw_number(chance))
    if operator in ("==", "!=") and chance.random() < 0.6:
        return Comparison(name, operator, chance.choice(PATTERNS))
    return Comparison(name, operator, draw_text(chance))


def quoted(text: str) -> str:
    return "'" + text.replace("'", "''") + "'"


def sql_of(comparison: Comparison) -> str:
    """Returns a comparison's condition in SQL: an integer is compared with a number only, and a text with the value's characters."""
    name, text = comparison.name, str(comparison.value)
    sign = {"==": "=", "!=": "<>"}.get(comparison.operator, comparison.operator)
    if comparison.operator in ("==", "!=") and re.search(r"[*?[]", text):
        of_text = f"{'NOT ' if comparison.operator == '!=' else ''}{name} GLOB {quoted(text)}"
    else:
        of_text = f"{name} {sign} {quoted(text)}"
    of_number = f"{name} {sign} {int(text)}" if re.fullmatch("-?[0-9]{1,20}", text) else "NULL"
    return f"CASE typeof({name}) WHEN 'text' THEN {of_text} WHEN 'integer' THEN {of_number} END"


class Peer:
    """The nodes in sqlite3. A row has what queries see of a node: nothing of a raw value and, if the name has an index, nothing of
    what isn't in it."""

    def __init__(self) -> None:
        self._rows = sqlite3.connect(":memory:")
        self._rows.execute(f"CREATE TABLE node (id INTEGER PRIMARY KEY, {', '.join(NAMES)})")
        self.indices: Dict[str, Kind] = {}

    def make_index(self, name: str, kind: Kind) -> None:
        self.indices[name] = kind
        self._rows.execute(f"UPDATE node SET {name} = NULL")

    def make_node(self, node: int) -> None:
        self._rows.execute("INSERT INTO node (id) VALUES (?)", (node,))

    def remove_node(self, node: int) -> None:
        self._rows.execute("DELETE FROM node WHERE id = ?", (node,))

    def set(self, node: int, name: str, value: Optional[Value], kind: Kind) -> None:
        is_seen = not isinstance(value, bytes) and self.indices.get(name, kind) == kind
        self._rows.execute(f"UPDATE node SET {name} = ? WHERE id = ?", (value if is_seen else None, node))

    def nodes(self, where: str = "1") -> List[int]:
        return [node for node, in self._rows.execute(f"SELECT id FROM node WHERE {where} ORDER BY id")]

    def page(self, where: str, by: str, descending: bool) -> List[Tuple[Value, int]]:
        """Returns the whole answer in the order of an index: values and nodes."""
        way = "DESC" if descending else "ASC"
        return list(self._rows.execute(f"SELECT {by}, id FROM node WHERE {by} NOTNULL AND {where} ORDER BY {by} {way}, id {way}"))


class Stores:
    """A store and its peer, to which the same is written."""

    def __init__(self, chance: Random) -> None:
        self.chance, self.store, self.peer = chance, bestore.open(), Peer()

    def make_indices(self, indices: Dict[str, Kind]) -> None:
        for name, kind in indices.items():
            self.store.make_index(name, kind)
            self.peer.make_index(name, kind)

    def write(self, count: int) -> None:
        """Makes this many writes: each creates or changes a node, or removes one. From NODES nodes on, about as many go as come."""
        for _ in range(count):
            with self.store.pin() as version:
                fresh = version.next_node
            nodes, batch = self.peer.nodes(), Batch()
            what = self.chance.random() if len(nodes) > 20 else 0
            node = fresh if what < (0.3 if len(nodes) < NODES else 0.1) else self.chance.choice(nodes)
            if what > 0.9:
                self.peer.remove_node(node)
                batch.remove_node(node)
            elif node == fresh:
                self.peer.make_node(node)
                batch.new_node()
            self.store.apply(self._with_values(batch, node) if what <= 0.9 else batch)

    def _with_values(self, batch: Batch, node: int) -> Batch:
        """Adds values for some of the names, at least one."""
        for name in self.chance.sample(NAMES, self.chance.randint(1, len(NAMES))):
            value, kind = draw_value(self.chance, name)
            batch.set(node, name, value, kind)
            self.peer.set(node, name, value, kind)
        return batch


class Asked:
    """A query in all its spellings."""

    def __init__(self, stores: Stores, tree: Tree, kept: ExitStack) -> None:
        self._stores, self._tree, self._where = stores, tree, sql_text(tree, sql_of)
        self.texts = spellings(tree, SPELLINGS, stores.chance)
        with bestore.prepare(self.texts[0]) as prepared:
            self.texts.append(prepared.text)
        self._prepared = [kept.enter_context(bestore.prepare(text)) for text in self.texts]
        self._refreshed: Dict[int, List[int]] = {}
        self.answers = self.refused = 0

    def compare(self) -> None:
        """Compares all forms of asking with the peer's answers."""
        expected = self._stores.peer.nodes(self._where)
        covered = is_covered(self._tree, lambda name: name in self._stores.peer.indices)
        for place, text in enumerate(self.texts):
            with self._stores.store.pin() as version:
                if covered:
                    self._whole(version, place, expected)
                    self._some(version, place, expected)
                    self._refresh(version, place, expected)
                    for by in self._stores.peer.indices:
                        self._pages(version, place, by, descending=self._stores.chance.random() < 0.5)
                else:
                    self._refusals(version, text, self._prepared[place])

    def _check(self, form: str, place: int, answer: object, expected: object) -> None:
        self.answers += 1
        if answer != expected:
            raise AssertionError(f"{form} of {self.texts[place]}\n    bestore: {answer}\n    sqlite3: {expected}")

    def _whole(self, version: Version, place: int, expected: List[int]) -> None:
        text, prepared = self.texts[place], self._prepared[place]
        self._check("the answer", place, version.query(text), expected)
        self._check("the count", place, version.count(text), len(expected))
        for time_asked in ("first", "second"):
            self._check(f"the {time_asked} prepared answer", place, version.query_prepared(prepared), expected)

    def _some(self, version: Version, place: int, expected: List[int]) -> None:
        """Asks for the first nodes from a number, and for any nodes."""
        chance, prepared = self._stores.chance, self._prepared[place]
        limit, start = chance.choice([1, 2, 7, 50, 1000]), chance.choice([0, chance.randrange(1, 300)])
        first = [node for node in expected if node >= start][:limit]
        self._check(f"the first {limit} from {start}", place, version.query_prepared(prepared, limit=limit, start=start), first)
        queries: Sequence[Union[str, Prepared]] = (self.texts[place], prepared)
        for query in queries:
            found = version.any(query, limit)
            self._check(f"any {limit}: how many", place, len(found), min(limit, len(expected)))
            self._check(f"any {limit}, found once and matching", place, sorted(found), sorted(set(found) & set(expected)))

    def _pages(self, version: Version, place: int, by: str, descending: bool) -> None:
        """Turns all pages, from the beginning."""
        rest = [node for _, node in self._stores.peer.page(self._where, by, descending)]
        after, more = None, True
        while more:
            limit = self._stores.chance.choice([1, 3, 20, 100]) if len(rest) < 30 else 50
            page = version.query_prepared(self._prepared[place], by=by, descending=descending, limit=limit, after=after)
            form = f"a page of {limit} by {by}{' descending' if descending else ''}"
            self._check(form, place, (list(page), page.more), (rest[:limit], len(rest) > limit))
            rest, after, more = rest[limit:], page.cursor, page.more

    def _refresh(self, version: Version, place: int, expected: List[int]) -> None:
        before, now = set(self._refreshed.get(place, [])), set(expected)
        refresh = version.refresh if place % 2 else version.refresh_changed
        self._check("the refresh", place, refresh(self._prepared[place]), (sorted(now - before), sorted(before - now)))
        self._refreshed[place] = expected

    def _refusals(self, version: Version, text: str, prepared: Prepared) -> None:
        by = next(iter(self._stores.peer.indices))
        forms: Sequence[Callable[[], object]] = (
            lambda: version.query(text), lambda: version.count(text), lambda: version.query_prepared(prepared),
            lambda: version.query(text, limit=1), lambda: version.any(text, 1), lambda: version.query(text, by=by, limit=1),
            lambda: version.refresh(prepared))
        for form in forms:
            self.refused += 1
            try:
                form()
            except NotCovered:
                continue
            raise AssertionError(f"{text}: no index covers this query, but bestore answers it instead of raising NotCovered")


def compared(stores: Stores, queries: int) -> Tuple[int, int]:
    """Draws queries, and returns how many answers were compared and how many were refused."""
    chance, answers, refused = stores.chance, 0, 0
    for _ in range(queries):
        tree = draw_tree(chance, chance.choice([1, 2, 2, 3, 3, 4, 5]), draw_comparison)
        with ExitStack() as kept:
            asked = Asked(stores, tree, kept)
            for _ in range(3):
                asked.compare()
                stores.write(chance.randrange(1, 6))
            answers, refused = answers + asked.answers, refused + asked.refused
    return answers, refused


def main() -> None:
    parser = argparse.ArgumentParser(description=__doc__, formatter_class=argparse.RawDescriptionHelpFormatter)
    parser.add_argument("--seed", type=int, default=int(os.environ.get("BESTORE_SEED", time.time_ns() % 10**9)))
    parser.add_argument("--queries", type=int, default=60, help="how many queries are drawn (60)")
    parser.add_argument("--writes", type=int, default=600, help="how many writes fill the store before the first query (600)")
    options = parser.parse_args()
    stores = Stores(Random(options.seed))
    said = f"BESTORE_SEED={options.seed}"
    try:
        with stores.store:
            stores.write(options.writes // 4)
            stores.make_indices(EARLY)
            stores.write(options.writes - options.writes // 4)
            early = compared(stores, options.queries // 2)
            stores.make_indices(LATE)
            late = compared(stores, options.queries - options.queries // 2)
    except AssertionError as wrong:
        sys.exit(f"{wrong}\n{said}")
    print(f"{options.queries} queries, {early[0] + late[0]} answers as in sqlite3, {early[1] + late[1]} refusals, {said}")


if __name__ == "__main__":
    main()
