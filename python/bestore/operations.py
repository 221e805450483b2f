"""A write's operations, and batches of operations."""

from __future__ import annotations

import operator
import struct
from dataclasses import dataclass
from typing import Callable, ClassVar, Iterable, Iterator, List, Optional, Sequence, Tuple, Type, TypeVar, Union

from .errors import BadBytes, BadCount, BadPart, DataLength, HasNul, NameLength, NoKind, NoNode, decoded, encoded
from .values import KIND_OF, RANGES, Kind, Value, decode_value, encode_value, plain

NEW, REMOVE, SET, UNSET, MAKE_INDEX, REMOVE_INDEX = range(6)
MOST_OPERATIONS = 64
"""The maximum number of operations in a write."""
MOST_OF_A_NAME = 63
"""The maximum number of bytes in a name, which has at least one."""
BYTES_OF_A_BATCH = MOST_OPERATIONS * (MOST_OF_A_NAME + 255)
"""The maximum number of bytes in a write's names and values."""


@dataclass(frozen=True)
class NewNode:
    """Creates a node."""

    node: int = 0
    """In a journal entry, the number of the node that was created; otherwise unused."""


@dataclass(frozen=True)
class RemoveNode:
    """Removes a node and all its attributes."""

    node: int


@dataclass(frozen=True)
class SetAttribute:
    """Sets a node's attribute. If the kind is None, the value's own kind is used, as in `Batch.set`."""

    node: int
    name: str
    value: Value
    kind: Optional[Kind] = None


@dataclass(frozen=True)
class UnsetAttribute:
    """Removes a node's attribute."""

    node: int
    name: str


@dataclass(frozen=True)
class MakeIndex:
    """Creates an index."""

    name: str
    kind: Kind


@dataclass(frozen=True)
class RemoveIndex:
    """Removes an index."""

    name: str


Operation = Union[NewNode, RemoveNode, SetAttribute, UnsetAttribute, MakeIndex, RemoveIndex]


Parts = Tuple[int, int, int, int, bytes, bytes]
"""An operation's kind, type code, node, number, name, and value, unless the value is a number."""
_Self = TypeVar("_Self", bound="Batch")


class Batch:
    """Up to 64 operations. `Pass.apply` applies either all of them or none. A batch's methods return the batch, so calls can be chained.

    `for operation in batch` iterates over the operations, `len(batch)` is the number of operations, and `Batch(operations)`
    makes a batch from operations. Batches with the same operations are equal."""

    _made: ClassVar[Optional[Type[Batch]]] = None
    """The class of new batches after a store has been opened in this process: the extension's class, which is faster."""

    def __new__(cls, operations: Iterable[Operation] = ()) -> Batch:
        return super().__new__(Batch._made or cls if cls is Batch else cls)

    def __init__(self, operations: Iterable[Operation] = ()) -> None:
        self._list: List[Parts] = []
        for operation in operations:
            self.add(operation)

    def __len__(self) -> int:
        return len(self._list)

    def __iter__(self) -> Iterator[Operation]:
        for parts in self._parts():
            yield _read_back(*parts)

    def __eq__(self, other: object) -> bool:
        """Returns whether the batches have the same operations in the same order."""
        if not isinstance(other, Batch):
            return NotImplemented
        return self._parts() == other._parts()

    __hash__ = None  # type: ignore[assignment]  # a batch can change

    def __repr__(self) -> str:
        return f"<batch of {len(self)} operations>"

    def __reduce__(self) -> Tuple[Callable[..., Batch], Tuple[Type[Batch], bytes, bytes]]:
        kind = type(self)
        if kind.__module__.startswith(f"{__package__}."):
            kind = Batch  # the process that unpickles it chooses between the plain and the native class
        return _copied, (kind, self._raw, self._bytes)

    def _add_encoded(self: _Self, kind: int, node: int, name: bytes, code: int, number: int, value: bytes, /) -> _Self:
        """Adds an operation from its parts."""
        self._list.append((kind, code, _node(node), number, name, value))
        return self

    def _parts(self) -> List[Parts]:
        """The operations."""
        return list(self._list)

    def _put(self, operations: bytes, texts: bytes, /) -> None:
        """Replaces the batch's contents with these operations in the library's form."""
        self._list = []
        for kind, code, node, number, name_at, name_length, value_at, value_length in _RAW.iter_unpack(operations):
            if max(name_at + name_length, value_at + value_length) > len(texts):
                raise BadPart()
            name, value = texts[name_at:name_at + name_length], texts[value_at:value_at + value_length]
            self._list.append((kind, code, node, number, name, value))

    @property
    def _bytes(self) -> bytes:
        """Returns the bytes of the names and values."""
        return b"".join(name + value for *_, name, value in self._list)

    @property
    def _raw(self) -> bytes:
        """Returns the operations in the library's form."""
        at, taken = 0, []
        for kind, code, node, number, name, value in self._list:
            taken.append(_RAW.pack(kind, code, node, number, at, len(name), at + len(name), len(value)))
            at += len(name) + len(value)
        return b"".join(taken)

    def new_node(self: _Self) -> _Self:
        """Creates a node."""
        return self._add_encoded(NEW, 0, b"", 0, 0, b"")

    def remove_node(self: _Self, node: int) -> _Self:
        """Removes a node and all its attributes."""
        return self._add_encoded(REMOVE, node, b"", 0, 0, b"")

    def set(self: _Self, node: int, name: str, value: Value, kind: Optional[int] = None) -> _Self:
        """Sets an attribute. If `kind` is None, a str is a STRING, bytes are RAW, an `Int32` or similar class has the kind that
        it is named after, and any other int is an INT64."""
        code, number, taken = encode_value(value, kind)
        return self._add_encoded(SET, node, encoded(name), code, number, taken)

    def unset(self: _Self, node: int, name: str) -> _Self:
        """Removes an attribute."""
        return self._add_encoded(UNSET, node, encoded(name), 0, 0, b"")

    def make_index(self: _Self, name: str, kind: int) -> _Self:
        """Creates an index with this name, for values of this kind. The index receives only attributes that are set from then on."""
        code = operator.index(kind)
        if code not in RANGES[Kind.UINT32]:
            raise NoKind()
        return self._add_encoded(MAKE_INDEX, 0, encoded(name), code, 0, b"")

    def remove_index(self: _Self, name: str) -> _Self:
        """Removes the index with this name."""
        return self._add_encoded(REMOVE_INDEX, 0, encoded(name), 0, 0, b"")

    def add(self, operation: Operation) -> Batch:
        """Adds an operation, in the form that `for operation in batch` yields."""
        if isinstance(operation, NewNode):
            return self._add_encoded(NEW, operation.node, b"", 0, 0, b"")
        if isinstance(operation, RemoveNode):
            return self.remove_node(operation.node)
        if isinstance(operation, SetAttribute):
            return self.set(operation.node, operation.name, operation.value, operation.kind)
        if isinstance(operation, UnsetAttribute):
            return self.unset(operation.node, operation.name)
        if isinstance(operation, MakeIndex):
            return self.make_index(operation.name, operation.kind)
        if isinstance(operation, RemoveIndex):
            return self.remove_index(operation.name)
        raise TypeError(f"{operation!r} isn't an operation")

    def to_bytes(self) -> bytes:
        """Returns the batch as bytes, which `from_bytes` and the libraries for C, C++ and Rust can read. Raises `BadCount`
        unless the batch has 1 to 64 operations, and `NameLength`, `DataLength`, `HasNul` or `NoKind` for parts that no write
        accepts."""
        return self._packed()

    def _packed(self, nodes: Optional[Sequence[int]] = None) -> bytes:
        """Returns the batch as bytes. If `nodes` is given, it contains the node that each operation created. The operations
        that create nodes then have these numbers, as in the journal."""
        if not 1 <= len(self) <= MOST_OPERATIONS:
            raise BadCount()
        texts, parts = self._bytes, [BEGINNING, _BYTES[len(self)]]
        for place, raw in enumerate(_RAW.iter_unpack(self._raw)):
            kind, code, node, number, name_at, name_length, value_at, value_length = raw
            if kind == NEW:
                parts.append(_KIND_NODE.pack(NEW, node if nodes is None else nodes[place]))
                continue
            parts.append(_KIND_NODE.pack(kind, node) if kind in _WITH_NODE else _BYTES[kind])
            if kind == REMOVE:
                continue
            if not 1 <= name_length <= MOST_OF_A_NAME:
                raise NameLength(place, listed="operation")
            parts += _BYTES[name_length], _text(texts[name_at:name_at + name_length], place)
            if kind not in _WITH_CODE:
                continue
            if code not in KIND_OF:
                raise NoKind(place, listed="operation")
            if kind == MAKE_INDEX:
                parts.append(_CODE.pack(code))
            elif value_length > 255:
                raise DataLength(place, listed="operation")
            elif code in RANGES:
                parts.append(_CODE_NUMBER.pack(code, number))
            else:
                value = texts[value_at:value_at + value_length]
                parts += _CODE.pack(code), _BYTES[value_length], value if code == Kind.RAW else _text(value, place)
        return b"".join(parts)

    @classmethod
    def from_bytes(cls, data: bytes) -> Batch:
        """Returns the batch that `to_bytes` encoded as these bytes. Raises `BadBytes` if the bytes aren't a batch that a store
        could accept, or if anything follows it."""
        data, batch = bytes(memoryview(data)), cls()  # bytes of an int would be that many zeros
        return batch if batch._take_bytes(data) else cls._read(data)

    def _take_bytes(self, data: bytes, /) -> bool:
        """Adds the operations in a batch's bytes, which only the extension's class does. Returns False if these aren't valid."""
        return False

    @classmethod
    def _read(cls, data: bytes) -> Batch:
        """Does what `from_bytes` does, in more time, and finds the first wrong byte."""
        reader, batch = Reader(data), cls()
        reader.read_beginning(BEGINNING)
        for _ in range(reader.read_count()):
            reader.read_operation(batch)
        reader.read_end()
        return batch


def _node(node: int) -> int:
    """Returns a node as a plain int. Raises a TypeError if the node isn't an integer, and `NoNode` if it doesn't fit in 64 bits."""
    try:
        number = plain(node)
    except TypeError:
        raise TypeError(f"{node!r} isn't a node: a node is an int") from None
    if number not in RANGES[Kind.UINT64]:
        raise NoNode(number)
    return number


def _text(text: bytes, place: int) -> bytes:
    """Returns the bytes of an operation's name or text. Raises `HasNul` if one of them is zero."""
    if 0 in text:
        raise HasNul(place, listed="operation")
    return text


def _copied(kind: Type[Batch], operations: bytes, texts: bytes) -> Batch:
    """Returns a batch of this class with these operations, which are in the library's form."""
    batch = kind()
    batch._put(operations, texts)
    return batch


def _read_back(kind: int, code: int, node: int, number: int, name: bytes, value: bytes) -> Operation:
    """Returns the operation that has these parts in a batch."""
    if kind == NEW:
        return NewNode(node)
    if kind == REMOVE:
        return RemoveNode(node)
    if kind == UNSET:
        return UnsetAttribute(node, decoded(name))
    if kind == REMOVE_INDEX:
        return RemoveIndex(decoded(name))
    if code not in KIND_OF:
        raise NoKind()
    if kind == SET:
        return SetAttribute(node, decoded(name), decode_value(code, number, value), KIND_OF[code])
    return MakeIndex(decoded(name), KIND_OF[code])


# The encoding of a batch, little-endian: the beginning, whose last byte is the format's version; the number of operations in
# one byte; and the operations. Each operation has its kind in one byte, followed by the fields that it needs from these: the
# node in 8 bytes; the length of the name in one byte, and the name; the type code in 4 bytes; and the value, either a number in
# 8 bytes, or a length in one byte followed by the bytes.
BEGINNING = b"BEB\x01"
_WITH_NODE, _WITH_NAME, _WITH_CODE = (NEW, REMOVE, SET, UNSET), (SET, UNSET, MAKE_INDEX, REMOVE_INDEX), (SET, MAKE_INDEX)
_KIND_NODE, _CODE, _CODE_NUMBER = struct.Struct("<BQ"), struct.Struct("<I"), struct.Struct("<IQ")
_BYTES = [bytes([byte]) for byte in range(256)]
_RAW = struct.Struct("=2I2Q4I")  # an operation in the library's form


class Reader:
    """Reads the parts of a batch from bytes."""

    def __init__(self, data: bytes) -> None:
        self._data, self.at = data, 0
        """How many bytes have been read."""

    def _take(self, count: int, what: str) -> bytes:
        """Returns the next `count` bytes."""
        taken = self._data[self.at:self.at + count]
        if len(taken) < count:
            raise BadBytes(self.at, f"{what} is cut off")
        self.at += count
        return taken

    @property
    def is_at_end(self) -> bool:
        """Whether everything has been read."""
        return self.at == len(self._data)

    def read_number(self, count: int, what: str) -> int:
        """Reads a number of this many bytes."""
        return int.from_bytes(self._take(count, what), "little")

    def _counted(self, what: str) -> bytes:
        """Reads a length, and returns that many bytes. If they are cut off, the error is at the length."""
        begin, count = self.at, self.read_number(1, f"the length of {what}")
        if len(self._data) - self.at < count:
            raise BadBytes(begin, f"{what} is cut off")
        return self._take(count, what)

    def _text(self, text: bytes, what: str) -> bytes:
        """Returns the name or text that has just been read. If it has a wrong byte, the error is at that byte."""
        begin, (valid, zero, _) = self.at - len(text), text.partition(b"\0")
        try:
            valid.decode()
        except UnicodeDecodeError as error:
            raise BadBytes(begin + error.start, f"{what} isn't valid UTF-8") from None
        if zero:
            raise BadBytes(begin + len(valid), f"{what} has a zero byte")
        return text

    def read_name(self) -> bytes:
        """Reads a name with its length."""
        name = self._counted("a name")
        if not 1 <= len(name) <= MOST_OF_A_NAME:
            raise BadBytes(self.at - len(name) - 1, f"a name has 1 to {MOST_OF_A_NAME} bytes, and this one {len(name)}")
        return self._text(name, "a name")

    def read_code(self) -> int:
        """Reads a type code."""
        code = self.read_number(4, "a type code")
        if code not in KIND_OF:
            raise BadBytes(self.at - 4, f"no kind has the type code {code:#x}")
        return code

    def read_value(self, code: int) -> Tuple[int, bytes]:
        """Reads a value of the kind with this type code. Returns its number and its bytes."""
        return (self._integer(code), b"") if code in RANGES else (0, self._value(code))

    def _integer(self, code: int) -> int:
        number = self.read_number(8, "a number")
        value = decode_value(code, number, b"")
        if value not in RANGES[Kind(code)]:
            raise BadBytes(self.at - 8, f"the number {value!r} doesn't fit its kind")
        return number

    def _value(self, code: int) -> bytes:
        value = self._counted("a value")
        return value if code == Kind.RAW else self._text(value, "a text")

    def read_beginning(self, beginning: bytes) -> None:
        """Reads these bytes, the last of which is the format's version."""
        for at, expected in enumerate(beginning):
            if self.read_number(1, "the beginning") != expected:
                name = beginning[:-1].decode()
                raise BadBytes(at, f"they don't begin with {name}" if at < len(name) else "the format has a version other than 1")

    def read_count(self) -> int:
        count = self.read_number(1, "the number of operations")
        if not 1 <= count <= MOST_OPERATIONS:
            raise BadBytes(self.at - 1, f"a batch has 1 to 64 operations, and this one {count}")
        return count

    def read_operation(self, batch: Batch) -> None:
        """Reads an operation, and adds it to the batch."""
        kind = self.read_number(1, "an operation")
        if kind > REMOVE_INDEX:
            raise BadBytes(self.at - 1, f"no operation has the number {kind}")
        node = self.read_number(8, "a node") if kind in _WITH_NODE else 0
        name = self.read_name() if kind in _WITH_NAME else b""
        code = self.read_code() if kind in _WITH_CODE else 0
        number, value = self.read_value(code) if kind == SET else (0, b"")
        batch._add_encoded(kind, node, name, code, number, value)

    def read_end(self) -> None:
        if not self.is_at_end:
            raise BadBytes(self.at, "the batch ends, and more bytes follow")
