"""The table of what grows, tests/growth.txt, and the sizes at which it is tested."""
from __future__ import annotations

import random
import re
from pathlib import Path
from typing import Iterator, NamedTuple

ROOT = Path(__file__).resolve().parent.parent
TABLE = ROOT / "tests/growth.txt"


class Trial(NamedTuple):
    """How a row is tested in one form: with this test, at these sizes."""

    form: str
    sizes: list[int]
    test: str


class Row(NamedTuple):
    name: str
    trials: list[Trial]
    calls: list[str]


def powers(least: int, most: int) -> list[int]:
    """Returns the sizes at which memory grows: each power of two, one less, and one more. Includes the bounds."""
    around = {2**k + d for k in range(most.bit_length() + 1) for d in (-1, 0, 1)}
    return sorted({least, most} | {size for size in around if least <= size <= most})


def sizes_of(words: str, least: int, most: int) -> list[int]:
    """Returns the sizes that a line specifies: `each`, `powers`, `bound`, `powers to N`, or `each to N`, which is every size up
    to N and then powers. `at most N` after these replaces the row's maximum."""
    words, _, cap = words.partition(" at most ")
    most = int(cap or most)
    which, _, last = words.partition(" to ")
    if which == "bound":
        return [most]
    if which == "each":
        return sorted({*range(least, int(last or most) + 1), *powers(least, most)})
    return powers(least, int(last or most))


def more_sizes(sizes: list[int], chance: random.Random) -> list[int]:
    """Returns these sizes and, if they skip any, two more: one that is as likely to be small as large, and one of any size."""
    least, most = sizes[0], sizes[-1]
    if len(sizes) > most - least:
        return sizes
    by_power = round(max(1, least) * (most / max(1, least)) ** chance.random())
    return sorted({*sizes, by_power, chance.randint(least, most)})


def trial_of(line: str, least: int, most: int) -> Iterator[Trial]:
    head, _, tests = line.partition(": ")
    form, _, words = head.partition(" ")
    for test in tests.split(", "):
        yield Trial(form, sizes_of(words, least, most), test)


def row_of(text: str) -> Row:
    """Parses a row: a line `NAME LEAST MOST`, a line per form, and the names after `calls:`."""
    head, *lines = re.split(r"\n *", text.strip())
    name, least, most = head.split()
    trials = [it for line in lines if not line.startswith("calls: ") for it in trial_of(line, int(least), int(most))]
    calls = [call for line in lines if line.startswith("calls: ") for call in line.removeprefix("calls: ").split(", ")]
    return Row(name, trials, calls)


def read_table() -> tuple[list[Row], list[str]]:
    """Returns the rows, and the calls that allocate no memory for their input."""
    text = re.sub(r"^#.*\n", "", TABLE.read_text(), flags=re.M)
    *rows, last = re.split(r"\n\n+", text.strip())
    return [row_of(row) for row in rows], re.split(r"[,\s]+", last.removeprefix("no memory:").strip())
