"""The journal's text, in the format that the library writes."""

from __future__ import annotations

from ._surface import KIND_CODES
from .operations import MakeIndex, NewNode, Operation, RemoveIndex, RemoveNode, SetAttribute
from .store import Entry
from .values import Value

_ESCAPES = str.maketrans({'"': '\\"', "\\": "\\\\", "\n": "\\n", "\r": "\\r"})


def _quoted(text: str) -> str:
    return f'"{text.translate(_ESCAPES)}"'


def _value(value: Value) -> str:
    if isinstance(value, int):
        return str(value)
    return _quoted(value.hex() if isinstance(value, bytes) else value)


def _operation(operation: Operation) -> str:
    if isinstance(operation, NewNode):
        return "new"
    if isinstance(operation, RemoveNode):
        return f"drop {operation.node}"
    if isinstance(operation, SetAttribute):
        assert operation.kind is not None
        return f"set {operation.node} {_quoted(operation.name)} {KIND_CODES[operation.kind]} {_value(operation.value)}"
    if isinstance(operation, MakeIndex):
        return f"mkindex {_quoted(operation.name)} {KIND_CODES[operation.kind]}"
    if isinstance(operation, RemoveIndex):
        return f"rmindex {_quoted(operation.name)}"
    return f"unset {operation.node} {_quoted(operation.name)}"


def _outcome(operation: Operation) -> str:
    return f"node {operation.node}" if isinstance(operation, NewNode) else "ok"


def line_of(entry: Entry) -> str:
    """Returns an entry's line."""
    operations, outcomes = "; ".join(map(_operation, entry.operations)), "; ".join(map(_outcome, entry.operations))
    return f"{entry.number} by {entry.pass_number} {operations} -> {outcomes}\n"
