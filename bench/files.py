#!/usr/bin/env python3
"""Counts the instructions of calls in stores of 12,000, 100,000 and 450,000 files, with callgrind, and prints them as a table. No call may
take over a fifth more instructions than in the store before; if one does, it says so and exits with status 1.

It needs c/libbestore.a, `cc` and `valgrind`. The largest store takes a few minutes and 3 GB of memory.
"""
from __future__ import annotations

import argparse
import re
import subprocess
import sys
import tempfile
from pathlib import Path

ROOT = Path(__file__).resolve().parent.parent
# Pages and files.
SIZES = [(16_384, 12_000), (131_072, 100_000), (524_288, 450_000)]
MOST_GROWTH = 1.2


def build(folder: Path) -> Path:
    program = folder / "files"
    sources = [ROOT / "bench/files.c", ROOT / "c/libbestore.a"]
    subprocess.run(["cc", "-std=c11", "-O2", "-I", ROOT / "include", *sources, "-lpthread", "-o", program], check=True)
    return program


def counts(program: Path, folder: Path, pages: int, files: int) -> dict[str, float]:
    """Returns the instructions of each step for one call."""
    words = ["valgrind", "-q", "--tool=callgrind", "--instr-atstart=no", f"--callgrind-out-file={folder}/{files}"]
    ran = subprocess.run([*words, program, str(pages), str(files)], stdout=subprocess.PIPE, text=True, check=True)
    calls, found = int(ran.stdout), {}
    for part in folder.glob(f"{files}.*"):
        text = part.read_text()
        step = re.search(r"^desc: Trigger: Client Request: (.*)$", text, re.M)
        total = re.findall(r"^(?:summary|totals): (\d+)$", text, re.M)
        if step and total and step[1] != "between":
            found[step[1]] = int(total[-1]) / calls
    return found


def main() -> int:
    parser = argparse.ArgumentParser(description=__doc__, formatter_class=argparse.RawDescriptionHelpFormatter)
    parser.add_argument("--most", type=int, default=SIZES[-1][1], help="counts only stores of up to this many files")
    given = parser.parse_args()
    sizes = [it for it in SIZES if it[1] <= given.most]
    with tempfile.TemporaryDirectory(prefix="files-") as name:
        folder = Path(name)
        program = build(folder)
        columns = [counts(program, folder, pages, files) for pages, files in sizes]
    print("| call |", " | ".join(f"{files:,} files" for _, files in sizes), "|")
    print("|---|" + "---:|" * len(sizes))
    faults = 0
    for step in sorted(columns[0]):
        row = [column[step] for column in columns]
        print(f"| {step} |", " | ".join(f"{it:,.0f}" for it in row), "|")
        faults += sum(later > MOST_GROWTH * before for before, later in zip(row, row[1:]))
    if faults:
        print(f"{faults} steps grow by more than a fifth", file=sys.stderr)
    return 1 if faults else 0


if __name__ == "__main__":
    sys.exit(main())
