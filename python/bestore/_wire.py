"""The server's protocol in JSON: values, operations, and the fields of replies. docs/SERVER.md describes it."""

from __future__ import annotations

import base64
import json
from typing import Any, Dict, List, NamedTuple, Optional, Tuple

from ._surface import KIND_NAMES
from .errors import NoKind, NotUTF8, NoValue, decoded
from .operations import (
    MAKE_INDEX, NEW, REMOVE, SET, UNSET, Batch, MakeIndex, NewNode, Operation, RemoveIndex, RemoveNode, SetAttribute,
    UnsetAttribute)
from .store import Entry
from .values import KIND_OF, RANGES, Kind, Typed, Value, decode_value

PROTOCOL = 2
"""The version of the protocol."""
MOST_BYTES = 1 << 20
"""The maximum number of bytes in a request, including its line end."""
MOST_BYTES_OF_A_REPLY = 2 << 20

JSON = Dict[str, Any]  # a JSON object

_KINDS = {name: KIND_OF[code] for code, name in KIND_NAMES.items()}
_encode = json.JSONEncoder(ensure_ascii=False, separators=(",", ":")).encode
_decode = json.JSONDecoder().decode


def encode_request(number: int, command: str, parameters: JSON) -> bytes:
    """Returns a request as a line."""
    return _encode({"id": number, command: parameters}).encode() + b"\n"


def decode_line(line: bytes) -> JSON:
    """Returns the JSON object on a line. Raises a ValueError if the line isn't a JSON object."""
    try:
        found = _decode(line.decode())
    except RecursionError:
        raise ValueError("it is too deep") from None
    if not isinstance(found, dict):
        raise ValueError("it isn't an object of JSON")
    return found


def _value(code: int, number: int, value: bytes) -> object:
    """Returns the value in an operation. Raises `NoValue` if the kind can't hold the value."""
    kind, decoded_value = _kind(code), decode_value(code, number, value)
    if kind in RANGES and decoded_value not in RANGES[kind]:
        raise NoValue()
    if kind in (Kind.STRING, Kind.INT64):
        return decoded_value
    if isinstance(decoded_value, bytes):
        return {"raw": base64.b64encode(decoded_value).decode()}
    return {KIND_NAMES[kind]: decoded_value}


def _kind(code: int) -> Kind:
    if code not in KIND_OF:
        raise NoKind()
    return KIND_OF[code]


def _operation(kind: int, code: int, node: int, number: int, name: bytes, value: bytes) -> List[object]:
    if kind == NEW:
        return ["new"]
    if kind == REMOVE:
        return ["remove", node]
    if kind == SET:
        return ["set", node, decoded(name), _value(code, number, value)]
    if kind == UNSET:
        return ["unset", node, decoded(name)]
    if kind == MAKE_INDEX:
        return ["index", decoded(name), KIND_NAMES[_kind(code)]]
    return ["unindex", decoded(name)]


def operations_of(batch: Batch) -> List[List[object]]:
    """Returns a batch's operations in JSON. Raises `NotUTF8`, `NoKind` or `NoValue`, with the first operation that can't be encoded."""
    written = []
    for place, parts in enumerate(batch._parts()):
        try:
            written.append(_operation(*parts))
        except (NotUTF8, NoKind, NoValue) as error:
            raise type(error)(place, listed="operation") from None
    return written


# The functions that read a reply raise ValueError, KeyError, TypeError or an `Error` if the reply doesn't follow the protocol.


def read_value(value: object) -> Typed:
    """Reads a value."""
    if isinstance(value, str):
        return Typed(value, Kind.STRING)
    if isinstance(value, int) and not isinstance(value, bool):
        return Typed(value, Kind.INT64)
    if not isinstance(value, dict):
        raise ValueError("no value")
    (name, inner), = value.items()
    kind = _KINDS[name]
    if kind in RANGES:
        return Typed(int(inner), kind)
    return Typed(base64.b64decode(inner, validate=True) if kind == Kind.RAW else str(inner), kind)


class Compared(NamedTuple):
    """A comparison in a query's text, as parsed by a server."""

    name: str
    value: str
    offset: int
    is_number: bool
    never: Tuple[Kind, ...]
    """The kinds of index for which the comparison is never true."""


def read_compared(one: JSON) -> Compared:
    """Reads a comparison."""
    never = tuple(_KINDS[name] for name in one.get("never", ()))
    return Compared(str(one["name"]), str(one["value"]), int(one["offset"]), one["form"] == "number", never)


def read_comparisons(ok: JSON) -> List[Compared]:
    """Reads the comparisons in a query's text."""
    return [read_compared(one) for one in ok["comparisons"]]


def read_row(row: List[object]) -> List[Optional[Value]]:
    """Reads a node's values without their kinds. A missing value is None."""
    return [value if value is None or isinstance(value, str) else read_value(value).value for value in row]


def read_kind(name: str) -> Kind:
    """Returns the kind with this name."""
    return _KINDS[name]


def read_indices(ok: JSON) -> Dict[str, Kind]:
    """Reads the indices of a store, as a dict from names to kinds."""
    return {name: read_kind(kind) for name, kind in ok["indices"].items()}


def read_operation(parts: List[Any]) -> Operation:
    """Reads an operation."""
    what = parts[0]
    if what == "new":
        return NewNode(*parts[1:])
    if what == "remove":
        return RemoveNode(parts[1])
    if what == "set":
        return SetAttribute(parts[1], parts[2], *read_value(parts[3]))
    if what == "unset":
        return UnsetAttribute(parts[1], parts[2])
    if what == "index":
        return MakeIndex(parts[1], _KINDS[parts[2]])
    if what == "unindex":
        return RemoveIndex(parts[1])
    raise ValueError("no operation")


def read_entry(entry: JSON) -> Entry:
    """Reads a journal entry."""
    return Entry(entry["commit"], entry["pass"], tuple(map(read_operation, entry["operations"])))


def read_nodes(nodes: object) -> List[int]:
    """Reads a list of nodes."""
    if not isinstance(nodes, list):
        raise ValueError("no list of nodes")
    return nodes
