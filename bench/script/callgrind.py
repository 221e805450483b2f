"""Counts what each case of a program costs, with callgrind: instructions, stores, exchanges, and misses in simulated caches.

Callgrind writes part of its counts before each call to clock_gettime or write. A case reads the clock twice for each stretch
that it times, and prints its line at the end. So a case's cost is the sum of the parts between the first and the second
reading, the third and the fourth, and so on, up to its line. Preparations aren't included.

An exchange is an `xchg` instruction with a memory operand, with which an x86-64 processor stores an atomic word. objdump finds
these in the program, and callgrind counts how many times each ran. In bestore they store the words of pages, and little
else."""
from __future__ import annotations

import glob
import os
import re
import subprocess
import sys
import tempfile
from collections.abc import Iterator
from dataclasses import dataclass

from running import run_program

# A first-level cache of 32 KB and a last-level cache of 1 MB on every machine, so that counts from different machines can be compared.
OPTIONS = ["--tool=callgrind", "--cache-sim=yes", "--I1=32768,8,64", "--D1=32768,8,64", "--LL=1048576,16,64", "--combine-dumps=no",
           "--dump-before=clock_gettime*", "--dump-before=write", "--dump-instr=yes", "--compress-pos=no",
           "--compress-strings=no", "-q"]
EXCHANGE = re.compile(r"\s*([0-9a-f]+):\s+xchg\s.*\(")
EXCHANGES = "exchanges"
EVENTS = ("Ir", "Dr", "Dw", "I1mr", "D1mr", "D1mw", "ILmr", "DLmr", "DLmw")


@dataclass(frozen=True)
class Counts:
    """Counts for one operation. Misses are data misses, in the first cache and in the last."""

    instructions: float
    stores: float
    exchanges: float
    near_misses: float
    far_misses: float


@dataclass(frozen=True)
class Part:
    """The counts up to a call, and whether that call reads the clock."""

    is_before_clock: bool
    counts: dict[str, int]


def count_cases(words: list[str]) -> dict[str, Counts]:
    """Runs a program under callgrind, and returns the counts for each case that reports how many operations it has."""
    with tempfile.TemporaryDirectory() as folder:
        said = _run(words, folder)
        costs = _costs_by_line(_parts(folder, words[0]))
    cases = [(fields[0], int(fields[2])) for fields in map(str.split, said) if len(fields) == 3]
    if len(cases) != len(costs):
        sys.exit(f"{' '.join(words)} has printed {len(cases)} cases, and read the clock for {len(costs)}")
    return {case: _each(cost, operations) for (case, operations), cost in zip(cases, costs)}


def _run(words: list[str], folder: str) -> list[str]:
    ended = run_program(["valgrind", *OPTIONS, f"--callgrind-out-file={folder}/part", *words], stderr=subprocess.PIPE)
    if ended.returncode != 0:
        sys.exit(f"{ended.stderr}{' '.join(words)} has ended under callgrind with status {ended.returncode}")
    return ended.stdout.splitlines()


def _exchanges(program: str) -> set[int]:
    """Returns the addresses of a program's exchanges."""
    read = subprocess.run(["objdump", "-d", "--no-show-raw-insn", program], capture_output=True, text=True, check=True)
    return {int(found[1], 16) for found in map(EXCHANGE.match, read.stdout.splitlines()) if found}


def _parts(folder: str, program: str) -> list[Part]:
    """Returns the parts in the order in which they were written, without the counts after the last of them."""
    exchanges = _exchanges(program)
    paths = glob.glob(f"{folder}/part.*")
    return [_part(path, program, exchanges) for path in sorted(paths, key=lambda path: int(os.path.splitext(path)[1][1:]))]


def _part(path: str, program: str, exchanges: set[int]) -> Part:
    with open(path, encoding="utf-8", errors="replace") as lines:
        said = list(lines)
    trigger = any(line.startswith("desc: Trigger:") and "clock_gettime" in line for line in said)
    totals = [line for line in said if line.startswith("totals:")][-1]
    counts = dict(zip(EVENTS, map(int, totals.split()[1:])))
    counts[EXCHANGES] = sum(_runs(said, program, exchanges))
    return Part(trigger, counts)


def _runs(said: list[str], program: str, exchanges: set[int]) -> Iterator[int]:
    """Yields how many times each of the program's exchanges ran. A line has an address, a source line's number, and the counts.
    The line after a call has the counts inside the called function, and is skipped."""
    is_ours = is_of_call = False
    for line in said:
        if line.startswith("ob="):
            is_ours = os.path.realpath(line[3:].strip()) == os.path.realpath(program)
        elif is_ours and line.startswith("0x") and not is_of_call:
            place, _, count, *_ = line.split()
            if int(place, 16) in exchanges:
                yield int(count)
        is_of_call = line.startswith("calls=")


def _costs_by_line(parts: list[Part]) -> list[dict[str, int]]:
    """Returns the sums of the stretches before each line, except for lines before which the clock wasn't read."""
    costs: list[dict[str, int]] = []
    sums, readings = _nothing(), 0
    for part in parts:
        if readings % 2 == 1:
            for event, count in part.counts.items():
                sums[event] += count
        if part.is_before_clock:
            readings += 1
        elif readings:
            costs.append(sums)
            sums, readings = _nothing(), 0
    return costs


def _nothing() -> dict[str, int]:
    return dict.fromkeys([*EVENTS, EXCHANGES], 0)


def _each(cost: dict[str, int], operations: int) -> Counts:
    return Counts(cost["Ir"] / operations, cost["Dw"] / operations, cost[EXCHANGES] / operations,
                  (cost["D1mr"] + cost["D1mw"]) / operations, (cost["DLmr"] + cost["DLmw"]) / operations)
