"""Values and their kinds."""

from __future__ import annotations

import enum
import operator
import reprlib
from typing import ClassVar, NamedTuple, Optional, SupportsIndex, Tuple, Type, TypeVar, Union

from .errors import NoKind, NoValue, WrongKind, decoded, encoded, wrong_kind

Value = Union[str, bytes, int]
"""A string, raw bytes, or a number."""


class Kind(enum.IntEnum):
    """The kinds of values, with the type codes of BeOS."""

    # surface.toml: kinds
    STRING = 0x43535452
    INT32 = 0x4C4F4E47
    INT64 = 0x4C4C4E47
    MIME = 0x4D494D53
    RAW = 0x52415754
    UINT32 = 0x554C4E47
    UINT64 = 0x554C4C47
    # surface.toml: end

    def __repr__(self) -> str:
        return f"bestore.{self.name}"


KIND_OF = {int(kind): kind for kind in Kind}
"""The kinds, by type code."""
RANGES = {
    # surface.toml: ranges
    Kind.INT32: range(-(2**31), 2**31),
    Kind.INT64: range(-(2**63), 2**63),
    Kind.UINT32: range(2**32),
    Kind.UINT64: range(2**64),
    # surface.toml: end
}
"""The kinds of numbers, and the range of each."""

_Self = TypeVar("_Self", bound="Integer")


class Integer(int):
    """An integer with an explicit kind. Creating one raises `NoValue` if the kind can't hold the value. Results of arithmetic
    are plain ints."""

    kind: ClassVar[Kind]

    def __new__(cls: Type[_Self], value: SupportsIndex) -> _Self:
        number = plain(value)
        if number not in RANGES[cls.kind]:
            raise NoValue()
        return super().__new__(cls, number)


# surface.toml: classes of integers
class Int32(Integer):
    """A signed 32-bit integer."""

    kind = Kind.INT32


class Int64(Integer):
    """A signed 64-bit integer."""

    kind = Kind.INT64


class UInt32(Integer):
    """An unsigned 32-bit integer."""

    kind = Kind.UINT32


class UInt64(Integer):
    """An unsigned 64-bit integer."""

    kind = Kind.UINT64
# surface.toml: end


class Typed(NamedTuple):
    """A value with its kind."""

    value: Value
    kind: Kind


Encoded = Tuple[Kind, int, bytes]
"""A value's kind, its number and its bytes."""


def plain(value: SupportsIndex) -> int:
    """Returns an integer as a plain int. For an int of another class, `in` would search a range number by number."""
    return int(operator.index(value))


def encode_value(value: Value, kind: Optional[int] = None) -> Encoded:
    """Returns a value in the library's form. If `kind` is None, a str is a STRING, bytes are RAW, and an int has the kind of
    its class, or INT64 if it is a plain int."""
    if isinstance(value, str):
        return _fitting(value, kind, "a str is", (Kind.STRING, Kind.MIME)), 0, encoded(value)
    if isinstance(value, (bytes, bytearray)):
        return _fitting(value, kind, "bytes are", (Kind.RAW,)), 0, bytes(value)
    if kind is None and isinstance(value, Integer):
        kind = value.kind
    number = _number(value)
    code = _fitting(value, kind, "an int is", _NUMBERS)
    if number not in RANGES[code]:
        raise NoValue()
    return code, number % 2**64, b""


def _number(value: SupportsIndex) -> int:
    """Returns a value as a number. Raises a TypeError if it isn't a number. A bool is refused, because a later read would return 0 or 1."""
    if isinstance(value, bool):
        raise TypeError(f"{value} isn't an attribute's value: write int({value}), which is {int(value)}, or a string")
    try:
        return plain(value)
    except TypeError:
        raise TypeError(f"{reprlib.repr(value)} isn't an attribute's value, which is a str, bytes or an int") from None


def _fitting(value: Value, kind: Optional[int], called: str, kinds: Tuple[Kind, ...]) -> Kind:
    """Returns `kind` if it is given, otherwise the first kind that the value may have."""
    if kind is None:
        return kinds[0]
    for fitting in kinds:
        if fitting == kind:
            return fitting
    if kind not in KIND_OF:
        raise NoKind()
    *others, last = (it.name for it in kinds)
    offered = f"{', '.join(others)} or {last}" if others else last
    raise TypeError(f"{reprlib.repr(value)} can't be of the kind {KIND_OF[kind].name}: {called} {offered}")


_TEXTS, _SIGNED = frozenset((Kind.STRING, Kind.MIME)), frozenset(kind for kind, numbers in RANGES.items() if numbers[0] < 0)
_NUMBERS = (Kind.INT64, *(kind for kind in RANGES if kind is not Kind.INT64))  # a plain int has the first


def decode_value(code: int, number: int, value: bytes) -> Value:
    """Returns the value that these encode."""
    if code in _TEXTS:
        return decoded(value)
    if code not in RANGES:
        return value
    return number - 2**64 if number >= 2**63 and code in _SIGNED else number


def typed_value(code: int, number: int, value: bytes) -> Typed:
    """Returns the value that these encode, with its kind."""
    return Typed(decode_value(code, number, value), KIND_OF[code])


def kind_mismatch(name: str, kind: int, index_kind: int) -> WrongKind:
    """Returns the error for an attribute whose kind differs from its index's kind. Both kinds are given as type codes."""
    return wrong_kind(name, Kind(kind).name, Kind(index_kind).name)
