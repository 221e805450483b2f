#!/usr/bin/env python3
"""Causes random faults while clients write and read. Is each history strictly serializable, and do writes soon continue?

usage: soak.py FOLDER [--minutes M] [--seed N] [--only file|log] [--pause SECONDS] [--round SECONDS]

FOLDER contains bestored, such as rust/target/release. The run takes 60 minutes by default. Half of the time goes to a server with
a file, which is killed, shut down and paused. The other half goes to three servers with a log in PostgreSQL. Their leader is killed,
shut down and paused, and their database is shut down, hangs, or waits for a standby. If PostgreSQL isn't installed, this half is
skipped.

Eight clients write batches with `expected`, based on what they have read; another three read from the log's servers. Each round is
checked separately. The same seed causes the same faults in the same order. The program prints tables in Markdown. It exits with 1
if a history isn't strictly serializable or if writes took too long to continue.
"""
from __future__ import annotations

import argparse
import random
import sys
import time
from pathlib import Path
from statistics import median
from typing import Dict, List

from faults import OF_FILE, OF_LOG, Fault
from postgres import Postgres, programs
from record import Outcome
from rounds import Plan, Report, run_round
from servers import FileServers, LogServers, Servers

PAUSES = {"file": (0.3, 3.0), "log": (2.0, 8.0)}
"""How many seconds to wait between two faults."""


def options() -> argparse.Namespace:
    parser = argparse.ArgumentParser(description=__doc__, formatter_class=argparse.RawDescriptionHelpFormatter)
    parser.add_argument("folder", type=Path, help="the folder with bestored")
    parser.add_argument("--minutes", type=float, default=60.0, help="how long it takes in all (60)")
    parser.add_argument("--seed", type=int, default=random.randrange(10**6), help="the seed of the faults and of what the clients do")
    parser.add_argument("--only", choices=["file", "log"], help="only a server with a file, or only those with a log")
    parser.add_argument("--pause", type=float, default=0.02, help="the most seconds that a client rests after each step (0.02)")
    parser.add_argument("--round", type=float, default=60.0, help="how many seconds a round takes (60)")
    return parser.parse_args()


def soak(servers: Servers, form: str, seconds: float, chosen: argparse.Namespace) -> List[Report]:
    """Runs rounds on the same servers, and prints a line for each round."""
    faults, until = OF_FILE if form == "file" else OF_LOG, time.monotonic() + seconds
    reports: List[Report] = []
    while not reports or time.monotonic() < until:
        seed = f"{chosen.seed} {form} {len(reports)}"
        left = max(until - time.monotonic(), 1.0)
        report = run_round(servers, Plan(seed, min(chosen.round, left), faults, PAUSES[form]), seed, chosen.pause)
        reports.append(report)
        print(f"| {form} {len(reports)} | {len(report.waits)} | {report.count(Outcome.ACKNOWLEDGED):,} | "
              f"{report.count(Outcome.REFUSED):,} | {report.count(Outcome.UNKNOWN):,} | {len(report.history.reads):,} | "
              f"{servers.memory()} | {len(report.violations)} |", flush=True)
        for line in [*report.violations[:20], *report.slow()]:
            print(f"{form} {len(reports)}: {line}", file=sys.stderr)
    return reports


def fault_lines(reports: List[Report]) -> List[str]:
    """Returns a line for each fault that says how many times it occurred and how soon writes continued."""
    waits: Dict[Fault, List[float]] = {}
    for report in reports:
        for fault, wait in report.waits:
            waits.setdefault(fault, []).append(float("inf") if wait is None else wait)
    return [f"| {fault.name} | {len(found)} | {median(found):.2f} | {max(found):.2f} | {fault.bound:.0f} |"
            for fault, found in sorted(waits.items(), key=lambda it: it[0].name)]


def run(chosen: argparse.Namespace) -> List[Report]:
    forms = [chosen.only] if chosen.only else ["file", "log"]
    if "log" in forms and programs() is None:
        print("a log in PostgreSQL: skipped, it isn't installed", file=sys.stderr)
        forms.remove("log")
    seconds = chosen.minutes * 60 / len(forms)
    reports: List[Report] = []
    if "file" in forms:
        with FileServers(chosen.folder) as servers:
            reports += soak(servers, "file", seconds, chosen)
    if "log" in forms:
        with Postgres() as postgres, LogServers(chosen.folder, postgres) as sharing:
            reports += soak(sharing, "log", seconds, chosen)
    return reports


def main() -> None:
    chosen = options()
    chosen.folder = chosen.folder.resolve()
    print(f"Seed {chosen.seed}, {chosen.minutes:g} minutes.\n")
    print("| round | faults | writes acknowledged | refused | unknown | reads | memory, MiB | violations |\n|---|" + "---:|" * 7, flush=True)
    reports = run(chosen)
    print("\n| fault | times | median, s | longest, s | bound, s |\n|---|---:|---:|---:|---:|")
    print("\n".join(fault_lines(reports)))
    errors = sum((report.errors for report in reports), start=type(reports[0].errors)())
    print("\nErrors: " + ", ".join(f"{name} {count:,}" for name, count in sorted(errors.items())))
    if any(report.violations or report.slow() for report in reports):
        raise SystemExit(1)


if __name__ == "__main__":
    main()
