"""Which hits in a list are selected. The selection is stored by node, so it is preserved when the list changes."""

from __future__ import annotations

from typing import List, Optional, Set

from .sorted_hits import Node, SortedHits


class Selection:
    """The selected hits, the current hit (from which keys move), and the hit where a range begins."""

    def __init__(self, hits: SortedHits) -> None:
        self._hits = hits
        self._nodes: Set[Node] = set()
        self._cursor: Optional[Node] = None
        self._anchor: Optional[Node] = None

    def __contains__(self, node: object) -> bool:
        return node in self._nodes

    def __len__(self) -> int:
        return len(self._nodes)

    @property
    def nodes(self) -> List[Node]:
        """Returns the selected hits that are still in the list, in the list's order."""
        places = [(self._hits.place_of(node), node) for node in self._nodes if node in self._hits]
        return [node for _, node in sorted(places)]

    @property
    def cursor(self) -> Optional[int]:
        """Returns the position of the current hit."""
        return None if self._cursor is None else self._hits.place_of(self._cursor)

    def clear(self) -> None:
        """Selects nothing."""
        self._nodes, self._cursor, self._anchor = set(), None, None

    def forget(self, node: Node) -> None:
        """Forgets a hit that has left."""
        self._nodes.discard(node)

    def choose(self, place: int) -> None:
        """Selects only this hit."""
        node = self._hits[place].node
        self._nodes, self._cursor, self._anchor = {node}, node, node

    def move_to(self, place: int) -> None:
        """Makes this hit the current one. If it isn't selected, selects only this hit."""
        if self._hits[place].node in self._nodes:
            self._cursor = self._hits[place].node
        else:
            self.choose(place)

    def toggle(self, place: int) -> None:
        """Adds a hit to the selection, or removes it."""
        node = self._hits[place].node
        self._nodes ^= {node}
        self._cursor = self._anchor = node

    def extend(self, place: int) -> None:
        """Selects the hits from the start of the range to this one."""
        begin = None if self._anchor is None else self._hits.place_of(self._anchor)
        if begin is None:
            self.choose(place)
            return
        first, last = sorted((begin, place))
        self._nodes = {self._hits[it].node for it in range(first, last + 1)}
        self._cursor = self._hits[place].node

    def choose_all(self) -> None:
        """Selects all hits."""
        if len(self._hits):
            self._nodes = {self._hits[it].node for it in range(len(self._hits))}
            self._anchor = self._hits[0].node

    def move(self, steps: int, extends: bool = False) -> Optional[int]:
        """Moves by this many positions, selects the hit there or everything up to it, and returns the new position."""
        if not len(self._hits):
            return None
        at = self.cursor
        begin = at if at is not None else -1 if steps > 0 else 0
        place = min(max(begin + steps, 0), len(self._hits) - 1)
        if extends:
            self.extend(place)
        else:
            self.choose(place)
        return place
