"""Draws queries whose comparisons are true of 90, 10, 1 or .01 % of the nodes, and the nodes that they are asked of."""
from __future__ import annotations

import operator
import sqlite3
from dataclasses import dataclass
from fnmatch import fnmatchcase
from itertools import permutations, product
from random import Random
from typing import Callable, Dict, Iterator, List, Tuple

from drawing import Comparison, Joined, Tree, Value, comparisons_in, conjunctions, draw_tree, is_covered, spellings, sql_text

COLUMNS = {"name": "TEXT", "size": "INT64", "flag": "INT32", "tenth": "INT32", "kind": "TEXT", "weight": "INT64"}
INDEXED = ("name", "size", "flag", "tenth")
WORDS = ("report", "draft", "letter", "photo", "invoice", "notes", "plan", "budget", "summary", "minutes")
ENDINGS = ("txt", "jpg", "png", "pdf", "html", "c")
KINDS = 8
STEP = 10
"""The sizes and the weights are the multiples of this number."""
SHARES = (0.9, 0.9, 0.1, 0.1, 0.01, 0.0001)
INDEXED_SHARE = 0.8
MOST_COMPARISONS = 5
PAGE = 50
OPERATORS: Dict[str, Callable[[Value, Value], bool]] = {"<": operator.lt, "<=": operator.le, ">": operator.gt, ">=": operator.ge}


def name_of(number: int) -> str:
    return f"{WORDS[number % 10]}-{WORDS[number // 10 % 10]}-{200_000_000 + 7 * number}.{ENDINGS[number % len(ENDINGS)]}"


def rows(nodes: int, chance: Random) -> Iterator[Tuple[Value, ...]]:
    """Yields the nodes: each has its own name, size and weight, which say nothing of each other. One flag of ten is 1."""
    def mixed() -> List[int]:
        return chance.sample(range(nodes), nodes)

    for node, (name, size, weight) in enumerate(zip(mixed(), mixed(), mixed()), 1):
        flag, kind = int(chance.randrange(10) == 0), f"kind/{chance.randrange(KINDS)}"
        yield node, name_of(name), STEP * size, flag, chance.randrange(10), kind, STEP * weight


def write_nodes(database: sqlite3.Connection, nodes: int, chance: Random) -> None:
    columns = ", ".join(f"{name} {kind}" for name, kind in COLUMNS.items())
    database.execute(f"CREATE TABLE node (id INTEGER PRIMARY KEY, {columns})")
    database.executemany(f"INSERT INTO node VALUES (?{', ?' * len(COLUMNS)})", rows(nodes, chance))
    for name in INDEXED:
        database.execute(f"CREATE INDEX index_{name} ON node ({name})")


class Parts:
    """Draws the parts of queries: one comparison, or the two bounds of a range."""

    def __init__(self, nodes: int) -> None:
        self._nodes, self._top = nodes, STEP * nodes

    def draw(self, chance: Random) -> Tree:
        share, is_indexed = chance.choice(SHARES), chance.random() < INDEXED_SHARE
        options = [*self._numbers(chance, share, "size" if is_indexed else "weight")]
        options += self._indexed(chance, share) if is_indexed else self._kinds(chance, share)
        return chance.choice(options)

    def _numbers(self, chance: Random, share: float, name: str) -> Iterator[Tree]:
        wide = max(STEP, int(self._top * share))
        if share == 0.9:
            yield Comparison(name, ">=", self._top - wide)
        if share >= 0.1:
            yield Comparison(name, "<", wide)
        if share <= 0.1:
            begin = STEP * chance.randrange((self._top - wide) // STEP + 1)
            yield Joined("&&", (Comparison(name, ">=", begin), Comparison(name, "<", begin + wide)))
        if share < 0.01:
            yield Comparison(name, "==", STEP * chance.randrange(self._nodes))

    def _indexed(self, chance: Random, share: float) -> Iterator[Tree]:
        """Yields parts that indices answer, apart from those by size."""
        one, other = chance.choice(WORDS), chance.choice(WORDS)
        if share == 0.9:
            yield Comparison("flag", "==", 0)
            yield Comparison("flag", "!=", 1)
            yield Comparison("tenth", "!=", chance.randrange(10))
            yield Comparison("name", ">=", "draft")
        elif share == 0.1:
            yield Comparison("flag", "==", 1)
            yield Comparison("flag", "!=", 0)
            yield Comparison("tenth", "==", chance.randrange(10))
            yield Comparison("name", "==", f"{one}-*")
            yield Comparison("name", "==", f"*-{one}-*")
        elif share == 0.01:
            yield Comparison("name", "==", f"{one}-{other}-*")
        else:
            yield Comparison("name", "==", name_of(chance.randrange(self._nodes)))

    def _kinds(self, chance: Random, share: float) -> Iterator[Tree]:
        kind = f"kind/{chance.randrange(KINDS)}"
        if share >= 0.1:
            yield Comparison("kind", "!=" if share == 0.9 else "==", kind)


@dataclass(frozen=True)
class Form:
    """How a query is asked. A page has an index; all but the whole answer have room for so many nodes."""

    word: str
    by: str = ""
    room: int = 0

    def statement(self, where: str) -> str:
        if self.word == "any":
            return f"SELECT id FROM node WHERE {where} LIMIT {self.room}"
        way = " DESC" if self.word == "descending" else ""
        order = f"{self.by}{way}, id{way}" if self.by else "id"
        return f"SELECT id FROM node WHERE {where} ORDER BY {order}" + (f" LIMIT {self.room}" if self.room else "")

    def __str__(self) -> str:
        by = f" by {self.by}" if self.by else ""
        return f"{self.word}{f' {self.room}' if self.room else ''}{by}"


def draw_form(chance: Random) -> Form:
    word = chance.choice(["plain"] * 8 + ["any"] * 3 + ["first"] * 3 + ["ascending"] * 3 + ["descending"] * 3)
    if word == "plain":
        return Form(word)
    if word in ("any", "first"):
        return Form(word, room=chance.choice([1, PAGE]) if word == "any" else PAGE)
    return Form(word, chance.choice(["size", "size", "name", "tenth"]), PAGE)


@dataclass(frozen=True)
class Query:
    texts: List[str]
    where: str
    form: Form
    is_contradiction: bool


def common_queries() -> List[Query]:
    """Returns the queries whose costs docs/QUERIES.md lists, for 10,000 nodes."""
    middle, middle_where = "size>=50000 && size<51000", "size >= 50000 AND size < 51000"
    newest = Form("descending", "size", PAGE)
    forms = [("size==50000", "size = 50000", Form("plain")),
             (middle, middle_where, Form("plain")),
             ('name=="report-draft-*"', "name GLOB 'report-draft-*'", Form("plain")),
             (f"flag==0 && {middle}", f"flag = 0 AND {middle_where}", Form("plain")),
             (f'kind=="kind/3" && {middle}', f"kind = 'kind/3' AND {middle_where}", Form("plain")),
             ("flag==1 || size<1000", "flag = 1 OR size < 1000", Form("plain")),
             ("tenth!=3", "tenth <> 3", Form("plain")),
             ('name=="*-draft-*"', "name GLOB '*-draft-*'", Form("plain")),
             ("flag==0", "flag = 0", newest),
             ('kind=="kind/3" && size>=0', "kind = 'kind/3' AND size >= 0", newest),
             ("flag==1 && tenth==3", "flag = 1 AND tenth = 3", Form("any", room=1)),
             ("flag==0", "flag = 0", Form("first", room=PAGE))]
    return [Query([text], where, form, False) for text, where, form in forms]


def sql_of(comparison: Comparison) -> str:
    if isinstance(comparison.value, int):
        return f"{comparison.name} {_sign(comparison)} {comparison.value}"
    if "*" in comparison.value:
        return f"{comparison.name} {'NOT ' if comparison.operator == '!=' else ''}GLOB '{comparison.value}'"
    return f"{comparison.name} {_sign(comparison)} '{comparison.value}'"


def _sign(comparison: Comparison) -> str:
    return {"==": "=", "!=": "<>"}.get(comparison.operator, comparison.operator)


def draw_query(chance: Random, parts: Parts, most_spellings: int) -> Query:
    """Draws a query of one to five comparisons that indices cover. It doesn't depend on the number of spellings."""
    while True:
        tree = draw_tree(chance, chance.choice([1, 2, 2, 3, 3, 4, 5]), parts.draw)
        if len(comparisons_in(tree)) <= MOST_COMPARISONS and is_covered(tree, lambda name: name in INDEXED):
            texts = spellings(tree, most_spellings, Random(chance.getrandbits(64)))
            return Query(texts, sql_text(tree, sql_of), draw_form(chance), is_contradiction(tree))


def is_contradiction(tree: Tree) -> bool:
    """Returns whether no node can match the query, whatever its attributes are."""
    return not any(map(_can_be_true, conjunctions(tree)))


def _can_be_true(joined: List[Comparison]) -> bool:
    """Returns whether each name has a value of which all its comparisons are true."""
    for name in {it.name for it in joined}:
        own = [it for it in joined if it.name == name]
        if not any(all(_holds(it, value) for it in own) for value in _candidates(own)):
            return False
    return True


def _candidates(joined: List[Comparison]) -> Iterator[Value]:
    """Yields values of one name. If drawn comparisons hold for any value, they hold for one of these. Texts one after another match
    several patterns."""
    for it in joined:
        if isinstance(it.value, int):
            yield from (it.value - 1, it.value, it.value + 1)
    texts = [it.value.replace("*", "") for it in joined if isinstance(it.value, str)]
    for count in range(1, len(texts) + 1):
        yield from map("".join, permutations(texts, count))
    if joined[0].name == "name":
        yield from (f"{one}-{other}-2{ending}" for one, other, ending in product(WORDS, WORDS, ("", ".txt")))
    elif isinstance(joined[0].value, str):
        yield "another kind"


def _holds(comparison: Comparison, value: Value) -> bool:
    if comparison.operator in OPERATORS:
        return OPERATORS[comparison.operator](value, comparison.value)
    is_equal = value == comparison.value if isinstance(value, int) else fnmatchcase(value, str(comparison.value))
    return is_equal == (comparison.operator == "==")


def write_asked(database: sqlite3.Connection, queries: List[Query], nodes: int) -> None:
    """Writes the queries into the table that bench/drawn.c reads. A spelling's label is QUERY.SPELLING."""
    database.execute("CREATE TABLE asked (label, form, by, room, query, statement, whole)")
    for number, query in enumerate(queries):
        form = query.form
        for place, text in enumerate(query.texts):
            statement = form.statement(query.where) if place == 0 else ""
            whole = Form("plain").statement(query.where) if form.word == "any" else ""
            database.execute("INSERT INTO asked VALUES (?, ?, ?, ?, ?, ?, ?)",
                             (f"{number}.{place}", form.word, form.by, form.room or nodes, text, statement, whole))
