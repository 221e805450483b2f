"""Tests the comparisons found in query texts against the library's canonical texts. Each run uses different texts. If a run
fails, the message contains its seed: BESTORE_SEED=seed repeats that run.
"""

from __future__ import annotations

import os
import random
import unittest
from typing import Optional

import bestore
from bestore.language import Comparison, comparisons

TEXTS = 4000
"""How many texts a run uses."""

PIECES = [
    "a", "size", "MAIL:from", "größe", "漢", '"x y"', "'it\"s'", '"a\\"b"', "\\(", "a\\ b", '""', "''", "\\\\", '"\n"', "\t", " ", "\n", "\r",
    "=", "==", "!=", "<", "<=", ">", ">=", "!", "&&", "||", "&", "|", "(", ")", "1", "-5", "a*", "?", "[a-c]", "[^\\]]", "[", "]", "\\*",
    '"', "'", "\\", "\x01", "\x0b", "\x7f", "\x85", "\u2028", "\xa0",
]
NAMES = ["a", "size", "größe", '"x y"', "'it\"s'", '"a\\"b"', "\\(x", "a\\ b", "\x0bq", "x\u2028"]
VALUES = [*NAMES, "1", "-5", "a*", "[a-c]?", "[^\\]]", '"&&"', '"||)"', '""', "'\"'", "\\*", "\\\\", '"\n"', "\x85", "\xa0"]


def some_query(chance: random.Random, depth: int = 3) -> str:
    """Returns a valid query."""
    kind = chance.random() if depth > 0 else 1.0
    if kind < 0.3:
        sign = chance.choice(["&&", "||"])
        return some_query(chance, depth - 1) + sign + some_query(chance, depth - 1)
    if kind < 0.45:
        return "(" + some_query(chance, depth - 1) + ")"
    if kind < 0.6:
        return "!" + some_query(chance, depth - 1)
    space = chance.choice(["", " ", "\n\t"])
    operator = chance.choice(["=", "==", "!=", "<", "<=", ">", ">="])
    return f"{space}{chance.choice(NAMES)}{space}{operator}{space}{chance.choice(VALUES)}{space}"


def some_text(chance: random.Random) -> str:
    """Returns a text that may be a query: pieces of one, or a query with one piece changed."""
    if chance.random() < 0.3:
        return "".join(chance.choice(PIECES) for _ in range(chance.randrange(12)))
    text = some_query(chance)
    if chance.random() < 0.6:
        at = chance.randrange(len(text) + 1)
        text = text[:at] + chance.choice(PIECES) + text[at + chance.randrange(3):]
    return text


def canonical(text: str) -> Optional[str]:
    """Returns a query's canonical text, or None if the library refuses it."""
    try:
        with bestore.prepare(text) as prepared:
            return prepared.text
    except bestore.QueryError:
        return None


def in_quotes(text: str) -> str:
    """Encloses a name or a value from the query's text in double quotes."""
    pieces, escaped = [], False
    for character in text:
        pieces.append("\\" + character if character == '"' and not escaped else character)
        escaped = character == "\\" and not escaped
    return '"' + "".join(pieces) + '"'


def written(comparison: Comparison) -> str:
    """Returns the query that consists of a single comparison."""
    name = comparison.name.replace("\\", "\\\\")
    return in_quotes(name) + comparison.operator + in_quotes(comparison.value)


class Readings(unittest.TestCase):
    def setUp(self) -> None:
        self.seed = int(os.environ.get("BESTORE_SEED") or random.SystemRandom().randrange(2**32))
        self.chance = random.Random(self.seed)

    def test_comparisons_of_what_the_library_takes(self) -> None:
        """A query has the same comparisons as its canonical text, in the same order, apart from any `!` before them. Each is
        written as it would be on its own."""
        queries = 0
        for _ in range(TEXTS):
            text = some_text(self.chance)
            known = canonical(text)
            if known is None:
                with self.assertRaises(bestore.QueryError, msg=f"{text!r}, seed {self.seed}"):
                    comparisons(text)
                continue
            queries += 1
            with self.subTest(text=text, seed=self.seed):
                self.is_read(text, known)
        self.assertGreater(queries, TEXTS // 4, f"seed {self.seed}")

    def is_read(self, text: str, known: str) -> None:
        found, theirs = comparisons(text), comparisons(known)
        self.assertEqual([it.name for it in found], [it.name for it in theirs])
        for mine, other in zip(found, theirs):
            self.assertTrue(known.encode()[other.offset:].startswith((canonical(written(other)) or "none").encode()), other)
            self.assertIn(canonical(written(mine)), (canonical(written(other)), canonical("!" + written(other))), mine)


if __name__ == "__main__":
    unittest.main()
