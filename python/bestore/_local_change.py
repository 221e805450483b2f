"""Changes to a store in this process. The library collects their operations, and reads attributes as they will be after these
operations."""

from __future__ import annotations

from typing import TYPE_CHECKING, Dict, Iterable, List, Optional, Tuple

from .change import Change
from .errors import NoNode
from .operations import NEW, REMOVE, SET, UNSET, Batch
from .values import Kind, Typed, Value

if TYPE_CHECKING:
    from .local import LocalVersion


class LocalChange(Change):
    """A change that reads a version. It reads attributes as they will be after the collected operations."""

    _snapshot: LocalVersion

    def __init__(self, snapshot: LocalVersion, check_kinds: bool) -> None:
        self._snapshot = snapshot
        self.unpin = snapshot.unpin  # type: ignore  # the extension's call, which no signal handler can keep from unpinning
        if not check_kinds:
            snapshot._take_any_kind()

    @property
    def _count(self) -> int:
        return self._snapshot._collected_count

    def _collected(self) -> Batch:
        return self._snapshot._collected()

    def new(self) -> int:
        return self._snapshot._new_node()

    def remove(self, node: int) -> None:
        self._snapshot._remove_node(node)

    def set(self, node: int, name: str, value: Value, kind: Optional[int] = None) -> None:
        self._snapshot._set_attribute(node, name, value, kind)

    def unset(self, node: int, name: str) -> None:
        self._snapshot._unset(node, name)

    def make_index(self, name: str, kind: int) -> None:
        self._snapshot._make_index(name, kind)

    def remove_index(self, name: str) -> None:
        self._snapshot._remove_index(name)

    def get(self, node: int, name: str) -> Optional[Value]:
        return self._snapshot.get(node, name)

    def kind(self, node: int, name: str) -> Optional[Kind]:
        return self._snapshot.kind(node, name)

    def typed(self, node: int, name: str) -> Optional[Typed]:
        return self._snapshot.typed(node, name)

    def _read(self, node: int, name: str) -> Typed:
        return self._snapshot._read(node, name)

    def _value(self, node: int, name: str) -> Value:
        return self._snapshot._value(node, name)

    def _operations_on_nodes(self) -> List[Tuple[int, int, bytes]]:
        """Returns the collected operations on nodes. Each is given as its kind, the node, and the attribute's name."""
        if self._count == 0:
            return []
        return [(kind, node, name) for kind, _, node, _, name, _ in self._collected()._parts() if kind <= UNSET]

    def columns(self, nodes: Iterable[int], names: Iterable[str]) -> List[List[Optional[Value]]]:
        read, wanted = list(nodes), list(names)
        columns = self._snapshot.columns(read, wanted)
        changed = {node for _, node, _ in self._operations_on_nodes()}
        for place, node in enumerate(read):
            if node in changed:
                for column, name in zip(columns, wanted):
                    column[place] = self.get(node, name)
        return columns

    def _listed(self, node: int) -> Dict[str, Typed]:
        operations = [(kind, name) for kind, changed, name in self._operations_on_nodes() if changed == node]
        if not operations:
            return self._snapshot._listed(node)
        if node not in self:
            raise NoNode(node)
        names = {name.decode() for kind, name in operations if kind == SET}
        if node in self._snapshot:
            names.update(self._snapshot._listed(node))
        left = ((name, self.typed(node, name)) for name in sorted(names))
        return {name: typed for name, typed in left if typed is not None}

    def __contains__(self, node: int) -> bool:
        for kind, changed, _ in reversed(self._operations_on_nodes()):
            if changed == node and kind in (NEW, REMOVE):
                return kind == NEW
        return node in self._snapshot
