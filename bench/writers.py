#!/usr/bin/env python3
"""Measures how long writes take when four threads do nothing but write: bestore through its C library, and LMDB. Prints a Markdown table.

    bench/writers.py                           seven rounds, in each of which the programs run one after the other
    bench/writers.py --rounds 1 --part 20      a trial run with a twentieth of the writes

Times are in microseconds: the median of all rounds, and in brackets the lowest and the highest.
"""
from __future__ import annotations

import argparse
import os
import sys
from collections import defaultdict
from statistics import median

sys.dont_write_bytecode = True
sys.path.insert(0, os.path.join(os.path.dirname(os.path.abspath(__file__)), "script"))
from build import built_programs
from given import add_given
from measure import run
from peers import NODES, TITLES

COMPARED = ("library", "lmdb")
CASES = {"writers-4-50": "median", "writers-4-99": "99th percentile", "writers-4-max": "longest"}


def options() -> argparse.Namespace:
    parser = argparse.ArgumentParser(description=__doc__, formatter_class=argparse.RawDescriptionHelpFormatter)
    add_given(parser)
    parser.add_argument("--rounds", type=int, default=7, help="how many times each program is run")
    parser.add_argument("--part", type=int, default=1, help="how small a part of the writes to make: 20 for a twentieth")
    return parser.parse_args()


def measured(programs: dict[str, str], rounds: int, part: int) -> dict[tuple[str, str], list[float]]:
    """Returns the values of each program's cases, one for each round."""
    values: dict[tuple[str, str], list[float]] = defaultdict(list)
    for number in range(1, rounds + 1):
        for name, program in programs.items():
            for case, value in run([program, "writers", str(NODES), "0", str(part)]):
                values[name, case].append(value)
        print(f"round {number}, load {os.getloadavg()[0]:.1f}", file=sys.stderr)
    return values


def shown(values: list[float]) -> str:
    low, middle, high = (f"{value / 1000:,.1f}" for value in (min(values), median(values), max(values)))
    return f"{middle} ({low} to {high})"


def main() -> None:
    chosen = options()
    programs = built_programs(chosen.folder, dict(chosen.program), COMPARED)
    values = measured(programs, chosen.rounds, chosen.part)
    print(f"| | {' | '.join(TITLES[name] for name in programs)} |")
    print(f"|---|{'---|' * len(programs)}")
    for case, title in CASES.items():
        print(f"| {title} | {' | '.join(shown(values[name, case]) for name in programs)} |")


main()
