"""Changes to a server's store, whose operations are collected here and sent as one batch."""

from __future__ import annotations

from typing import Dict, Iterable, List, Optional, Set

from .change import Change
from .errors import BadCount, NoAttribute, NoNode, NotPinned, encoded
from .operations import MOST_OPERATIONS, SET, Batch
from .values import KIND_OF, Encoded, Kind, Typed, Value, encode_value, kind_mismatch, typed_value
from .versions import Version


class ConnectedChange(Change):
    """A change that reads a version of a server's store."""

    def __init__(self, snapshot: Version, check_kinds: bool) -> None:
        super().__init__(snapshot)
        self._batch, self._check_kinds = Batch(), check_kinds
        self._next: Optional[int] = None
        self._kinds: Optional[Dict[str, int]] = None
        self._made: Set[int] = set()
        self._removed: Set[int] = set()
        self._set: Dict[int, Dict[str, Optional[Encoded]]] = {}  # the values that were set, and None for removed attributes

    @property
    def _count(self) -> int:
        return len(self._batch)

    def _collected(self) -> Batch:
        return self._batch

    def _collecting(self) -> Batch:
        """Returns the batch, ready for one more operation."""
        if not self._snapshot._is_pinned:
            raise NotPinned()
        if len(self._batch) >= MOST_OPERATIONS:
            raise BadCount()
        return self._batch

    def new(self) -> int:
        batch = self._collecting()
        if self._next is None:
            self._next = self.next_node
        node, self._next = self._next, self._next + 1
        batch.new_node()
        self._made.add(node)
        return node

    def remove(self, node: int) -> None:
        self._collecting().remove_node(node)
        self._made.discard(node)
        self._set.pop(node, None)
        self._removed.add(node)

    def set(self, node: int, name: str, value: Value, kind: Optional[int] = None) -> None:
        code, number, taken = encode_value(value, kind)
        batch = self._collecting()
        self._check_kind(name, code)
        batch._add_encoded(SET, node, encoded(name), code, number, taken)
        self._set.setdefault(node, {})[name] = code, number, taken

    def _check_kind(self, name: str, kind: Kind) -> None:
        if not self._check_kinds:
            return
        index = KIND_OF.get(self._indexed().get(name, kind))
        if index is not None and index != kind:
            raise kind_mismatch(name, kind, index)

    def _indexed(self) -> Dict[str, int]:
        """Returns each index's kind, as it will be after the collected operations."""
        if self._kinds is None:
            self._kinds = dict(self.indices())
        return self._kinds

    def unset(self, node: int, name: str) -> None:
        self._collecting().unset(node, name)
        self._set.setdefault(node, {})[name] = None

    def make_index(self, name: str, kind: int) -> None:
        batch, indexed = self._collecting(), self._indexed()
        batch.make_index(name, kind)
        indexed.setdefault(name, kind)

    def remove_index(self, name: str) -> None:
        batch, indexed = self._collecting(), self._indexed()
        batch.remove_index(name)
        indexed.pop(name, None)

    def _read(self, node: int, name: str) -> Typed:
        written = self._set.get(node, {})
        if name in written:
            encoded = written[name]
            if encoded is None:
                raise NoAttribute()
            return typed_value(*encoded)
        if node in self._made or node in self._removed:
            raise NoAttribute()
        return self._snapshot._read(node, name)

    def columns(self, nodes: Iterable[int], names: Iterable[str]) -> List[List[Optional[Value]]]:
        read, wanted = list(nodes), list(names)
        columns = self._snapshot.columns(read, wanted)
        written = [(place, node) for place, node in enumerate(read) if node in self._set or node in self._removed]
        for column, name in zip(columns, wanted):
            for place, node in written:
                if node in self._removed or name in self._set[node]:
                    column[place] = self.get(node, name)
        return columns

    def _listed(self, node: int) -> Dict[str, Typed]:
        if node in self._removed:
            raise NoNode(node)
        listed = {} if node in self._made else self._snapshot._listed(node)
        for name, encoded in self._set.get(node, {}).items():
            listed.pop(name, None)
            if encoded is not None:
                listed[name] = typed_value(*encoded)
        return dict(sorted(listed.items()))

    def __contains__(self, node: int) -> bool:
        return node in self._made or node not in self._removed and node in self._snapshot
