"""Plots speed against the number of nodes and the number of readers, as SVG."""
from __future__ import annotations

import math
from collections.abc import Iterator, Sequence

from measure import Results
from peers import COLORS, PEERS, SIZES, TITLES

WIDTH, HEIGHT = 300, 240
LEFT, TOP, GAP = 60, 40, 90
READERS = [1, 2, 4]


class Panel:
    """Lines in a plot with two logarithmic axes. Values are thousands per second."""

    def __init__(self, title: str, below: str, places: Sequence[int]) -> None:
        self.title, self.below, self.places = title, below, places
        self.lines: list[tuple[str, list[float], bool]] = []

    def add(self, peer: str, values: list[float | None], dashed: bool = False) -> None:
        known = [value for value in values if value]
        if len(known) == len(values):
            self.lines.append((peer, known, dashed))

    def bounds(self) -> tuple[float, float]:
        values = [value for _, line, _ in self.lines for value in line]
        return math.floor(math.log10(min(values)) * 3) / 3, math.ceil(math.log10(max(values)) * 3) / 3

    def draw(self, left: float) -> Iterator[str]:
        low, high = self.bounds()
        first, last = math.log(self.places[0]), math.log(self.places[-1])

        def x(place: float) -> float:
            return left + WIDTH * (math.log(place) - first) / (last - first)

        def y(value: float) -> float:
            return TOP + HEIGHT * (1 - (math.log10(value) - low) / (high - low))

        yield text(left + WIDTH / 2, TOP - 14, self.title, "middle", "bold")
        yield f'<rect x="{left}" y="{TOP}" width="{WIDTH}" height="{HEIGHT}" fill="none" stroke="#888"/>'
        for place in self.places:
            yield text(x(place), TOP + HEIGHT + 16, f"{place:,}", "middle")
        yield text(left + WIDTH / 2, TOP + HEIGHT + 34, self.below, "middle")
        for value in ticks(low, high):
            yield f'<line x1="{left}" x2="{left + WIDTH}" y1="{y(value):.1f}" y2="{y(value):.1f}" stroke="#ddd"/>'
            yield text(left - 6, y(value) + 4, f"{value:,.0f}", "end")
        for peer, values, dashed in self.lines:
            points = " ".join(f"{x(place):.1f},{y(value):.1f}" for place, value in zip(self.places, values))
            dashes = ' stroke-dasharray="5 4"' if dashed else ""
            yield f'<polyline points="{points}" fill="none" stroke="{COLORS[peer]}" stroke-width="2"{dashes}/>'


def ticks(low: float, high: float) -> Iterator[float]:
    """Yields 1, 2, 5, 10 and so on between two powers of ten."""
    for power in range(math.floor(low), math.ceil(high) + 1):
        for digit in (1, 2, 5):
            if 10**low <= digit * 10**power <= 10**high:
                yield digit * 10**power


def text(x: float, y: float, words: str, anchor: str = "start", weight: str = "normal") -> str:
    return f'<text x="{x:.1f}" y="{y:.1f}" text-anchor="{anchor}" font-weight="{weight}">{words}</text>'


def by_nodes(results: Results, case: str, title: str) -> Panel:
    sizes = [nodes for nodes in SIZES if any(results.best(peer.name, case, nodes) for peer in PEERS)]
    panel = Panel(title, "nodes", sizes)
    for peer in PEERS:
        times = [results.best(peer.name, case, nodes) for nodes in sizes]
        panel.add(peer.name, [1e6 / time if time else None for time in times])
    return panel


def by_readers(results: Results) -> Panel:
    panel = Panel("Queries of 100 nodes, thousands per second", "readers; dashed: beside a writer", READERS)
    for peer in PEERS:
        for beside in ("", "-beside"):
            rates = [results.best(peer.name, f"readers-{readers}{beside}") for readers in READERS]
            panel.add(peer.name, [rate / 1e3 if rate else None for rate in rates], dashed=bool(beside))
    return panel


def legend(shown: list[str]) -> Iterator[str]:
    for i, peer in enumerate(shown):
        x = LEFT + 150 * i
        y = TOP + HEIGHT + 62
        yield f'<line x1="{x}" x2="{x + 24}" y1="{y - 4}" y2="{y - 4}" stroke="{COLORS[peer]}" stroke-width="3"/>'
        yield text(x + 30, y, TITLES[peer])


def write_plot(results: Results, path: str) -> None:
    panels = [
        by_nodes(results, "set-indexed", "Sets, indexed, thousands per second"),
        by_nodes(results, "one-text", "Queries of one node, thousands per second"),
        by_readers(results),
    ]
    panels = [panel for panel in panels if panel.lines and len(panel.places) > 1]
    shown = [peer.name for peer in PEERS if any(peer.name == line[0] for panel in panels for line in panel.lines)]
    width = LEFT + len(panels) * (WIDTH + GAP)
    height = TOP + HEIGHT + 80
    with open(path, "w") as file:
        print(f'<svg xmlns="http://www.w3.org/2000/svg" viewBox="0 0 {width} {height}" font-family="sans-serif" font-size="12">', file=file)
        print(f'<rect width="{width}" height="{height}" fill="white"/>', file=file)
        for i, panel in enumerate(panels):
            print("\n".join(panel.draw(LEFT + i * (WIDTH + GAP))), file=file)
        print("\n".join(legend(shown)), file=file)
        print("</svg>", file=file)
