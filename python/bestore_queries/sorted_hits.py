"""A query's hits in order. A new hit is inserted at its position. Re-sorting is split into steps, so that each step is short
however many hits there are."""

from __future__ import annotations

import heapq
from bisect import bisect_left, insort
from itertools import islice
from typing import Any, Dict, Iterator, List, NamedTuple, Optional, Sequence, Tuple

import bestore

Node = int
CHUNK = 1_000
"""The number of hits that are sorted in each step."""


class Hit(NamedTuple):
    """A node that matches the query, with the attributes to show."""

    node: Node
    attributes: Dict[str, bestore.Value]


Entry = Tuple[int, Any, Any, Node]


def entry_of(attribute: str, hit: Hit) -> Optional[Entry]:
    """Returns a hit's sort key, or None if it lacks the attribute. Numbers come before strings, and case is ignored."""
    value = hit.attributes.get(attribute)
    if value is None:
        return None
    if isinstance(value, str):
        return 1, value.casefold(), value, hit.node
    return (2, value, b"", hit.node) if isinstance(value, bytes) else (0, value, 0, hit.node)


class _Listed:
    """Hits in the order of an attribute, followed by those without it."""

    def __init__(self, attribute: str, entries: Optional[List[Entry]] = None, lacking: Optional[List[Node]] = None) -> None:
        self.attribute = attribute
        self.entries: List[Entry] = [] if entries is None else entries
        self.lacking: List[Node] = [] if lacking is None else lacking

    def add(self, hit: Hit) -> None:
        entry = entry_of(self.attribute, hit)
        if entry is None:
            insort(self.lacking, hit.node)
        else:
            insort(self.entries, entry)

    def remove(self, hit: Hit) -> None:
        entry = entry_of(self.attribute, hit)
        if entry is None:
            del self.lacking[bisect_left(self.lacking, hit.node)]
        else:
            del self.entries[bisect_left(self.entries, entry)]


class _Sorting:
    """Hits that are being sorted by another attribute, first in parts, which are then merged."""

    def __init__(self, attribute: str, hits: Iterator[Hit]) -> None:
        self.attribute = attribute
        self._hits = hits
        self._runs: List[List[Entry]] = []
        self._merged: Optional[Iterator[Entry]] = None
        self._entries: List[Entry] = []
        self._lacking: List[Node] = []
        self._has_read_all = False
        self.touched: Dict[Node, Optional[Hit]] = {}
        """The hits that joined, changed or left in the meantime, as they were at the beginning, or None for hits that didn't exist then."""

    def step(self) -> Optional[_Listed]:
        """Continues sorting. Returns the hits once they are sorted."""
        if not self._has_read_all:
            self._read_some()
            return None
        if self._merged is None:
            self._merged = iter(heapq.merge(*self._runs))
        before = len(self._entries)
        self._entries += islice(self._merged, CHUNK)
        return None if len(self._entries) > before else _Listed(self.attribute, self._entries, sorted(self._lacking))

    def _read_some(self) -> None:
        run = []
        for _ in range(CHUNK):
            hit = next(self._hits, None)
            if hit is None:
                self._has_read_all = True
                break
            entry = entry_of(self.attribute, hit)
            if entry is None:
                self._lacking.append(hit.node)
            else:
                run.append(entry)
        self._runs.append(sorted(run))


class SortedHits:
    """The hits, by their position in the list."""

    def __init__(self, attribute: str = "name") -> None:
        self._hits: Dict[Node, Hit] = {}
        self._listed = _Listed(attribute)
        self._sorting: Optional[_Sorting] = None
        self._sorted: Optional[_Listed] = None  # doesn't contain the touched hits yet
        self._first: List[Node] = []  # the first hits in the new order, which come before all others
        self._gaps: Optional[List[int]] = None  # if known, the positions of these hits in the order that the others still have
        self.is_turned = self.will_be_turned = False
        """Whether the greatest values come first. Hits without the attribute always come last."""

    def __len__(self) -> int:
        return len(self._hits)

    def __contains__(self, node: object) -> bool:
        return node in self._hits

    def __getitem__(self, place: int) -> Hit:
        if place < len(self._first):
            return self._hits[self._first[place]]
        place -= len(self._first)
        for gap in self._gaps_of_first():
            place += gap <= place
        entries, lacking = self._listed.entries, self._listed.lacking
        if place >= len(entries):
            return self._hits[lacking[place - len(entries)]]
        return self._hits[entries[len(entries) - 1 - place if self.is_turned else place][3]]

    def get(self, node: Node) -> Optional[Hit]:
        """Returns a node's hit."""
        return self._hits.get(node)

    def place_of(self, node: Node) -> Optional[int]:
        """Returns a node's position, counting from 0, or None if the node isn't a hit."""
        hit = self._hits.get(node)
        if hit is None:
            return None
        if node in self._first:
            return self._first.index(node)
        place = self._listed_place(hit)
        return len(self._first) + place - bisect_left(self._gaps_of_first(), place)

    def _gaps_of_first(self) -> List[int]:
        """Returns the positions, among the listed hits, of the hits that come first."""
        if self._gaps is None:
            self._gaps = sorted(self._listed_place(self._hits[node]) for node in self._first)
        return self._gaps

    def _listed_place(self, hit: Hit) -> int:
        """Returns a hit's position among the listed hits."""
        node, entries = hit.node, self._listed.entries
        entry = entry_of(self._listed.attribute, hit)
        if entry is None:
            return len(entries) + bisect_left(self._listed.lacking, node)
        place = bisect_left(entries, entry)
        return len(entries) - 1 - place if self.is_turned else place

    def put(self, hit: Hit) -> None:
        """Inserts a hit at its position. If the hit is already in the list with earlier attributes, replaces it."""
        old = self._hits.get(hit.node)
        if old == hit:
            return
        self._gaps = None
        self._touch(hit.node, old)
        if old is not None:
            self._listed.remove(old)
        self._hits[hit.node] = hit
        self._listed.add(hit)

    def remove(self, node: Node) -> None:
        """Removes a hit if it is in the list."""
        old = self._hits.pop(node, None)
        if old is not None:
            self._touch(node, old)
            self._listed.remove(old)
            self._set_first([it for it in self._first if it != node])

    def clear(self) -> None:
        """Removes all hits. The order is unchanged."""
        self._hits, self._listed = {}, _Listed(self.attribute)
        self._set_first([])
        self._sorting, self._sorted, self.is_turned = None, None, self.will_be_turned

    def _touch(self, node: Node, old: Optional[Hit]) -> None:
        if self._sorting is not None:
            self._sorting.touched.setdefault(node, old)

    @property
    def attribute(self) -> str:
        """The attribute that the hits are sorted by, or will be sorted by once `step` has finished."""
        return self._listed.attribute if self._sorting is None else self._sorting.attribute

    def sort(self, attribute: str, is_turned: bool = False) -> None:
        """Begins to sort the hits by an attribute. They remain in the old order until `step` has finished."""
        self._set_first([])
        if attribute == self._listed.attribute:
            self._sorting = self._sorted = None
            self.is_turned = is_turned
        elif self._sorting is None or attribute != self._sorting.attribute:
            self._sorting, self._sorted = _Sorting(attribute, iter(list(self._hits.values()))), None
        self.will_be_turned = is_turned

    def show_first(self, nodes: Sequence[Node]) -> None:
        """Puts these hits before all others until `step` has sorted them. According to the store, they are the first in the new
        order."""
        if self._sorting is not None:
            self._set_first([node for node in nodes if node in self._hits])

    def _set_first(self, nodes: List[Node]) -> None:
        self._first, self._gaps = nodes, None

    @property
    def is_sorting(self) -> bool:
        """Whether `step` has work to do."""
        return self._sorting is not None

    def step(self) -> bool:
        """Continues sorting. Returns whether the hits are now in the new order."""
        sorting = self._sorting
        if sorting is None:
            return False
        if self._sorted is None:
            self._sorted = sorting.step()
            return False
        for _ in range(min(CHUNK // 2, len(sorting.touched))):
            node, old = sorting.touched.popitem()
            if old is not None:
                self._sorted.remove(old)
            if node in self._hits:
                self._sorted.add(self._hits[node])
        if sorting.touched:
            return False
        self._listed, self.is_turned = self._sorted, self.will_be_turned
        self._sorting = self._sorted = None
        self._set_first([])
        return True
