"""The table, with a row for each case and a column for each peer."""
from __future__ import annotations

import sys
from collections.abc import Iterator

from measure import Results, is_rate
from peers import OURS, PEERS

CASES = {
    "create": "create: a node and three sets, per operation",
    "set-indexed": "set, indexed",
    "set-unindexed": "set, not indexed",
    "list": "set, in batches of 64",
    "set-held": "set, indexed, while another pass is pinned throughout",
    "set-many": "set, indexed, in a store of 26,000 nodes",
    "set-8": "set, indexed, with 8 indices in the store",
    "set-32": "set, indexed, with 32 indices in the store",
    "drop": "drop",
    "names-8": "set of a new name, in batches of 8 on a node",
    "names-64": "the same, in batches of 64",
    "import-single": "import of 17,000 files of five attributes, three of them indexed, each operation a commit, per file",
    "import-lists": "the same, ten files per commit",
    "import-one": "the same, all in one commit",
    "dump": "reading the operations that recreate these files, per file",
    "restore": "writing them to an empty store, per file",
    "bytes-file": "bytes of pages in use, per file",
    "one-text": '`name=="x"`, 1 node',
    "one-text-32": "the same, with 32 indices in the store",
    "parsed": "the same, parsed each time",
    "one-number": "`size>=a && size<b`, 1 node",
    "range-100": "the same, 100 nodes",
    "from-1000": "`size>=a`, 1,000 nodes",
    "front-100": '`name=="012*"`, 100 nodes',
    "filter": '`name=="012*" && size>=a`',
    "get": "get",
    "shared-8": '`name=="x"`, 1 node, if all names have the same first 8 bytes',
    "shared-16": "the same with 16 bytes",
    "shared-24": "the same with 24 bytes",
    "contains": '`name=="*report*"`, over 10,000 names, a tenth of them found',
    "ends": '`name=="*.jpg"`, a sixth of them found',
    "unequal": '`name!="x"`, all but one found',
    "any-three": '`name=="x" \\|\\| name=="y" \\|\\| name=="z"`',
    "contains-from": '`name=="*report*" && size>=a`, `a` in the smaller half',
    "attributes": "`size>=a && size<b`, 100 nodes, and their five attributes",
    "first-50": "`size>=a`, 10,000 nodes: the first 50 of them, by their numbers",
    "any-50": "the same: any 50 of them",
    "page-newest": "a page: the 50 largest sizes of 10,000 nodes",
    "page-middle": "50 after a position in the middle",
    "page-oldest": "the last 50",
    "page-tenth": "the 50 largest sizes of a tenth of the nodes, filtered by an indexed number",
    "page-tenth-middle": "50 of these after a position in the middle",
    "page-kind": "the 50 largest sizes of an eighth, filtered by a string that has no index",
    "page-part": "the 50 largest sizes of a tenth, filtered by a pattern on their names",
    "page-front-1000": "the 50 largest sizes of 1,000 nodes, filtered by a prefix of their names",
    "page-front-100": "the same for 100 nodes",
    "page-end": "the last 50 of the 1,000 names with a given ending",
    "any-4": "4 comparisons joined by `\\|\\|`, 32 indices",
    "any-256": "256 comparisons joined by `\\|\\|`, 32 indices",
    "live-10": "refresh of a live query of 10 nodes after a write, with its pin",
    "live-query-10": "the query itself after a write, 10 nodes, with its pin",
    "live-1000": "refresh of one of 1,000 nodes",
    "live-query-1000": "the query itself, 1,000 nodes",
    "live-10000": "refresh of one of 10,000 nodes",
    "live-query-10000": "the query itself, 10,000 nodes",
    "pin": "pin and unpin",
    "pin-beside": "the same, beside a writer",
    "readers-1": "queries, 1 reader",
    "readers-2": "queries, 2 readers",
    "readers-4": "queries, 4 readers",
    "readers-1-beside": "queries, 1 reader beside a writer",
    "readers-2-beside": "queries, 2 readers beside a writer",
    "readers-4-beside": "queries, 4 readers beside a writer",
    "commits-0": "commits, 1 writer alone",
    "commits-1": "commits beside 1 reader",
    "commits-2": "commits beside 2 readers",
    "commits-4": "commits beside 4 readers",
    "writers-2": "commits by 2 writers",
    "mixed-rate": "4 threads, each with 19 one-node queries per write",
    "mixed-read-50": "the median of these queries, with their pins",
    "mixed-read-99": "the 99th percentile of these queries",
    "mixed-read-max": "the longest of them",
    "mixed-write-50": "the median of these writes",
    "mixed-write-99": "the 99th percentile of these writes",
    "mixed-write-max": "the longest write",
    "open-1024": "opening 1,024 pages",
    "open-16384": "opening 16,384 pages",
    "peak-1024": "peak memory of the process, 1,024 pages",
    "peak-16384": "peak memory of the process, 16,384 pages",
    "journal-1": 'memory per commit of one operation, `set 1 "size" LLNG 5`',
    "journal-64": "memory per operation, in batches of 64",
    "median": "the median of a million commits: set, indexed, 1,000 nodes",
    "worst": "the longest of them",
}


def number(value: float) -> str:
    """Formats a number with three digits, or with all digits before the point."""
    return f"{value:.0f}" if value >= 100 else f"{value:.3g}"


def shown(case: str, value: float) -> str:
    """Formats a value with its unit."""
    if is_rate(case):
        return f"{number(value / 1e3)} k/s"
    if case.startswith("peak-"):
        return f"{number(value / 1e6)} MB"
    if case.startswith(("journal-", "bytes-")):
        return f"{number(value)} B"
    for unit, size in (("ms", 1e6), ("µs", 1e3)):
        if value >= size:
            return f"{number(value / size)} {unit}"
    return f"{number(value)} ns"


def gain(case: str, ours: float, other: float) -> float:
    """Returns how many times faster, or smaller, bestore is."""
    return ours / other if is_rate(case) else other / ours


def cell(results: Results, peer: str, case: str) -> str:
    value, ours = results.best(peer, case), results.best(OURS, case)
    if value is None:
        return ""
    if peer == OURS or not ours or not value:
        return shown(case, value)
    return f"{shown(case, value)} ({gain(case, ours, value):.2f})"


def spread(results: Results, case: str) -> str:
    """Returns bestore's worst round relative to its best."""
    values = results.of(OURS, case)
    return f"{max(values) / min(values):.2f}" if values and min(values) > 0 else ""


def table_lines(results: Results) -> Iterator[str]:
    peers = [peer for peer in PEERS if any(results.of(peer.name, case) for case in CASES)]
    rounds = max((len(values) for values in results.values.values()), default=0)
    yield f"The best of {rounds} rounds, in which the programs took turns; load average {min(results.loads):.1f} to {max(results.loads):.1f}."
    yield "In brackets: how many times as fast, or as small, bestore is. Spread: its worst round divided by its best."
    yield ""
    yield "| case | " + " | ".join(peer.title for peer in peers) + " | spread |"
    yield "|---|" + "---|" * (len(peers) + 1)
    for case, title in CASES.items():
        cells = [cell(results, peer.name, case) for peer in peers]
        if any(cells):
            yield f"| {title} | " + " | ".join(cells) + f" | {spread(results, case)} |"


def write_table(results: Results, path: str) -> None:
    """Writes the table between its two marks in a document."""
    write_between(path, "table", list(table_lines(results)))


def write_between(path: str, name: str, lines: list[str]) -> None:
    """Replaces the lines between the two marks with this name in a document."""
    first, last = f"<!-- {name} -->\n", f"<!-- end of the {name} -->\n"
    with open(path) as file:
        before, mark, rest = file.read().partition(first)
    _, end, after = rest.partition(last)
    if not end:
        sys.exit(f"{path} has no marks {first.strip()} and {last.strip()}")
    with open(path, "w") as file:
        file.write("\n".join([before + mark, *lines, "", end + after]))
