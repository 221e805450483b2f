"""Reads of attributes whose type a program knows, so that a type checker knows it too."""

from __future__ import annotations

from abc import ABC, abstractmethod
from typing import Mapping, Optional, Type, TypeVar

from .values import Value

_Wanted = TypeVar("_Wanted", str, bytes, int)
_int = int  # in the class below, the name stands for the method


class TypedReads(ABC):
    """The calls that read an attribute of one type."""

    @abstractmethod
    def __getitem__(self, node: _int) -> Mapping[str, Value]:
        """Returns a node's attributes."""

    @abstractmethod
    def get(self, node: _int, name: str) -> Optional[Value]:
        """Returns a node's attribute, or None if the node has no such attribute."""

    def text(self, node: _int, name: str, default: Optional[str] = None) -> str:
        """Returns a node's attribute of the kind STRING or MIME. If the node has no such attribute, returns the default, or raises
        `NoAttribute` or `NoNode` if there is none. Raises a TypeError if the attribute has another kind."""
        return _of_type(self, node, name, str, default)

    def int(self, node: _int, name: str, default: Optional[_int] = None) -> _int:
        """Returns a node's attribute of one of the kinds of numbers, like `text`."""
        return _of_type(self, node, name, int, default)

    def raw(self, node: _int, name: str, default: Optional[bytes] = None) -> bytes:
        """Returns a node's attribute of the kind RAW, like `text`."""
        return _of_type(self, node, name, bytes, default)


_CALLS = {str: "text", int: "int", bytes: "raw"}


def _of_type(version: TypedReads, node: int, name: str, wanted: Type[_Wanted], default: Optional[_Wanted]) -> _Wanted:
    found = version[node][name] if default is None else version.get(node, name)
    if found is None:
        assert default is not None
        return default
    if not isinstance(found, wanted):
        call = next(call for kind, call in _CALLS.items() if isinstance(found, kind))
        raise TypeError(f"{name!r} of node {node} isn't of the type {wanted.__name__}: read it with `{call}`")
    return found
