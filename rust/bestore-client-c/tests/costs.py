#!/usr/bin/env python3
"""Counts what a call of the client for C costs in instructions, using valgrind, and compares it with the client for Rust.

usage: costs.py C RUST

C and RUST are the programs made from costs.c and from ../examples/costs.rs. BESTORED names the server's program. The counts of two runs are
subtracted, so what a program does at its start doesn't count."""
from __future__ import annotations

import os
import re
import subprocess
import sys
import tempfile
import time
from pathlib import Path

CALLS = (500, 1500)
# How many times as many instructions a call may take as in Rust: values are also copied to the caller's memory.
MOST = 1.15


def instructions(program: str, socket: Path, case: str, calls: int) -> int:
    """Returns how many instructions the program takes for this many calls."""
    out = socket.with_name("counted")
    words = ["valgrind", "--tool=callgrind", f"--callgrind-out-file={out}", program, str(socket), case, str(calls)]
    ran = subprocess.run(words, stdout=subprocess.PIPE, stderr=subprocess.PIPE, text=True)
    found = re.search(r"^(?:summary|totals): (\d+)", out.read_text(), re.M) if ran.returncode == 0 else None
    if found is None:
        sys.exit(f"costs: {program} {case} ended with status {ran.returncode}:\n{ran.stderr}")
    return int(found[1])


def cost(program: str, socket: Path, case: str) -> int:
    """Returns how many instructions a call takes."""
    few, many = (instructions(program, socket, case, calls) for calls in CALLS)
    return (many - few) // (CALLS[1] - CALLS[0])


def compare(programs: list[str], socket: Path) -> list[str]:
    """Returns a text for each case. Exits if a call of C costs too much."""
    texts = []
    for case in ("get", "set"):
        c, rust = (cost(program, socket, case) for program in programs)
        texts.append(f"a {case} takes {c:,} instructions, and {rust:,} in Rust")
        if c > MOST * rust:
            sys.exit(f"costs: {texts[-1]}, which is more than {MOST} times as many")
    return texts


def main() -> None:
    programs = sys.argv[1:]
    if len(programs) != 2:
        sys.exit((__doc__ or "").strip())
    with tempfile.TemporaryDirectory(prefix="costs-") as folder:
        socket = Path(folder, "socket")
        server = subprocess.Popen([os.environ["BESTORED"], "--socket", socket], stderr=subprocess.DEVNULL)
        try:
            until = time.monotonic() + 60
            while not socket.exists() and time.monotonic() < until:
                time.sleep(0.02)
            print("; ".join(compare(programs, socket)))
        finally:
            server.kill()
            server.wait()


if __name__ == "__main__":
    main()
