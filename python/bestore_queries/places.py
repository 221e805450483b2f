"""Locates a file: finds its folder's path from the attributes that an import writes."""

from __future__ import annotations

import os
from typing import Dict, Iterable, Mapping, Optional

import bestore

from .sorted_hits import Node

PLACE_NAMES = ("name", "path", "folder", "BEOS:TYPE", "FILE:parent", "FILE:root", "FILE:name")
"""The attributes that say where a file is and what it is."""
_DEEPEST = 256  # maximum depth of nested folders


class Places:
    """The folders read so far, by node."""

    def __init__(self) -> None:
        self._paths: Dict[Node, Optional[str]] = {}

    def forget(self, nodes: Iterable[Node]) -> bool:
        """Returns whether one of these nodes is a folder that has been read."""
        return any(node in self._paths for node in nodes)

    def locate(self, version: bestore.Version, attributes: Dict[str, bestore.Value]) -> None:
        """Adds a file's folder if an import wrote only the folder's node."""
        parent, root = attributes.get("FILE:parent"), attributes.get("FILE:root")
        if "folder" in attributes:
            return
        path = self._path_of(version, parent, _DEEPEST) if isinstance(parent, int) else _above(root)
        if path is not None:
            attributes["folder"] = path

    def _path_of(self, version: bestore.Version, node: Node, depth: int) -> Optional[str]:
        """Returns a folder's path, or None if it is unknown."""
        if node not in self._paths:
            values = [column[0] for column in version.columns([node], ("FILE:root", "FILE:parent", "FILE:name", "name"))]
            root, parent, raw, name = values
            above = None
            if root is None and isinstance(parent, int) and depth > 0:
                above = self._path_of(version, parent, depth - 1)
            self._paths[node] = _decoded(root) if root is not None else _joined(above, raw if raw is not None else name)
        return self._paths[node]


def _decoded(value: Optional[bestore.Value]) -> Optional[str]:
    """Converts a path or a name to the form that system calls accept. The bytes need not be valid text."""
    if value is None or isinstance(value, int):
        return None
    return os.fsdecode(value)


def _joined(folder: Optional[str], name: Optional[bestore.Value]) -> Optional[str]:
    last = _decoded(name)
    return None if folder is None or last is None else os.path.join(folder, last)


def _above(root: Optional[bestore.Value]) -> Optional[str]:
    path = _decoded(root)
    return None if path is None else os.path.dirname(path)


def path_of(attributes: Mapping[str, bestore.Value]) -> Optional[str]:
    """Returns a file's path, or None if its attributes don't determine it."""
    whole = _decoded(attributes.get("FILE:root")) or _decoded(attributes.get("path"))
    if whole is not None:
        return whole
    raw = attributes.get("FILE:name")
    return _joined(_decoded(attributes.get("folder")), attributes.get("name") if raw is None else raw)
