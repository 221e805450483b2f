"""Runs the programs in turn, round by round, and records what each printed."""
from __future__ import annotations

import os
import sys
from collections import defaultdict
from collections.abc import Iterable

from peers import NODES, PEERS, SIZES, TITLES, Peer, Workload, single_workloads
from running import run_program

Said = list[tuple[str, float]]

POOLS = (1_024, 16_384)
LISTS = (1, 64)
OPERATIONS = 640_000
COMMITS = 1_000_000


class Results:
    """Each round's values, by peer, number of nodes and case, and how busy the machine was."""

    def __init__(self, nodes: int) -> None:
        self.values: defaultdict[tuple[str, int, str], list[float]] = defaultdict(list)
        self.loads: list[float] = []
        self.nodes = nodes

    def add(self, peer: str, nodes: int, case: str, value: float) -> None:
        self.values[peer, nodes, case].append(value)

    def of(self, peer: str, case: str, nodes: int | None = None) -> list[float]:
        """Returns a case's values, for the table's number of nodes or a different one."""
        return self.values.get((peer, nodes or self.nodes, case), [])

    def best(self, peer: str, case: str, nodes: int | None = None) -> float | None:
        """Returns the best round's value, or None."""
        values = self.of(peer, case, nodes)
        if not values:
            return None
        return max(values) if is_rate(case) else min(values)

    def write(self, path: str) -> None:
        with open(path, "w") as file:
            print(self.nodes, *self.loads, file=file)
            for (peer, nodes, case), values in self.values.items():
                print(peer, nodes, case, *values, file=file)

    @staticmethod
    def read(path: str) -> "Results":
        with open(path) as file:
            nodes, *loads = file.readline().split()
            results = Results(int(nodes))
            results.loads = [float(load) for load in loads]
            for line in file:
                peer, nodes, case, *values = line.split()
                results.values[peer, int(nodes), case] = [float(value) for value in values]
        return results


def is_rate(case: str) -> bool:
    """Returns whether a case's value is a rate per second rather than a time or a size."""
    return case.startswith(("readers-", "commits-", "writers-", "mixed-rate"))


def all_workloads(most: int, milliseconds: int) -> list[Workload]:
    nodes = min(most, NODES)
    workloads = [Workload(name, size) for size in SIZES if size <= most for name in ("writes", "reads")]
    workloads += single_workloads(most)
    workloads += [Workload("threads", nodes, milliseconds, needs_threads=True), Workload("mixed", nodes, needs_threads=True)]
    return workloads


def measure(programs: dict[str, str], peak: str, rounds: int, milliseconds: int, most: int) -> Results:
    """Returns what the programs print. For each workload, the peers run one after another. `peak` is the program that measures memory."""
    results = Results(min(most, NODES))
    peers = [peer for peer in PEERS if peer.name in programs]
    for number in range(1, rounds + 1):
        results.loads.append(os.getloadavg()[0])
        for workload in all_workloads(most, milliseconds):
            for peer in peers:
                if workload.fits(peer):
                    keep_workload(results, peer, workload, run([programs[peer.name], *workload.words()]))
        stop_on_other_answers(results)
        for peer in peers:
            if peer.has_journal:
                measure_opening(results, peer.name, [peak, programs[peer.name]])
                measure_journal(results, peer.name, programs[peer.name])
        print(f"round {number}, load {os.getloadavg()[0]:.1f}", file=sys.stderr)
    results.loads.append(os.getloadavg()[0])
    return results


def keep_workload(results: Results, peer: Peer, workload: Workload, said: Said) -> None:
    """Records a workload's results. Cases with the sizes that the plot shows are filed under their number of nodes, and all
    others under the table's number."""
    nodes = workload.nodes if workload.name in ("writes", "reads") else results.nodes
    if workload.case:
        said = [(workload.case, value) for _, value in said]
    keep(results, peer.name, nodes, workload.name, said)


def measure_opening(results: Results, name: str, program: list[str]) -> None:
    """Measures how long opening takes, and the process's peak memory."""
    for pages in POOLS:
        said = dict(run([*program, "open", str(pages)]))
        results.add(name, results.nodes, f"open-{pages}", said["open"])
        results.add(name, results.nodes, f"peak-{pages}", said["peak"])


def measure_journal(results: Results, name: str, program: str) -> None:
    """Measures how much memory an operation leaves in use, by the number of operations in a batch, and the slowest of many commits."""
    for count in LISTS:
        said = dict(run([program, "journal", str(OPERATIONS // count), str(count)]))
        results.add(name, results.nodes, f"journal-{count}", said["journal"])
    keep(results, name, results.nodes, "pauses", run([program, "pauses", "1000", str(COMMITS)]))


def keep(results: Results, name: str, nodes: int, workload: str, said: Said) -> None:
    for case, value in said:
        results.add(name, nodes, f"{workload}-answers" if case == "answers" else case, value)


def stop_on_other_answers(results: Results) -> None:
    """Ends the program if a peer or a round gave different answers from the first."""
    first: dict[tuple[int, str], tuple[str, float]] = {}
    for (peer, nodes, case), values in results.values.items():
        if case.endswith("-answers"):
            said, answers = first.setdefault((nodes, case), (peer, values[0]))
            if any(value != answers for value in values):
                sys.exit(f"the answers of {TITLES[peer]} and {TITLES[said]} differ: {case.removesuffix('-answers')}, {nodes} nodes")


def run(words: list[str]) -> Said:
    """Runs a program, and returns the cases and values that it prints."""
    ended = run_program(words)
    if ended.returncode != 0:
        sys.exit(f"{' '.join(words)} has ended with status {ended.returncode}")
    return values_in(ended.stdout.splitlines())


def values_in(lines: Iterable[str]) -> Said:
    """Parses lines `CASE VALUE` or `CASE VALUE COUNT`."""
    return [(fields[0], float(fields[1])) for fields in map(str.split, lines)]
