"""Nodes: what calls accept as a node, and which nodes an error is about."""

from __future__ import annotations

from typing import SupportsIndex, Union

from .errors import NoAttribute, NoNode, decoded
from .operations import REMOVE, SET, UNSET, Batch
from .values import plain

def node_number(node: SupportsIndex) -> int:
    """Returns a node as a plain int. Raises a TypeError if the node isn't an integer."""
    try:
        return plain(node)
    except TypeError:
        raise TypeError(f"{node!r} isn't a node: a node is an int") from None


def name_missing(error: Union[NoNode, NoAttribute], batch: Batch) -> None:
    """Adds details to a refused batch's error: the nodes that the batch names, one of which doesn't exist, or the attribute
    that the batch removes, if it removes only one."""
    parts = batch._parts()
    if isinstance(error, NoNode):
        error.nodes = tuple(dict.fromkeys(node for kind, _, node, *_ in parts if kind in (REMOVE, SET, UNSET)))
        return
    removed = [(node, decoded(name)) for kind, _, node, _, name, _ in parts if kind == UNSET]
    if len(removed) == 1:
        error._name(*removed[0])
