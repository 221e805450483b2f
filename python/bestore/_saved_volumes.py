"""What files contain, read without a store: files of earlier formats, whose state consists of operations; files whose entries don't fit
in a store one after another; and folders of volumes, which become one file.

The earlier versions kept a shelf in a folder: `0.bestore`, `1.bestore` and so on. Node n of volume v becomes node v * 10^14 + n, the number
by which the shelf's users know it."""

from __future__ import annotations

import os
from contextlib import ExitStack, suppress
from typing import Dict, Iterator, List, Set, Tuple

from ._listings import ATTRIBUTE, HELD, INDEX, NODE, Record, batches, records
from ._saved_errors import Differs, Exists, NoFile, OtherKind, TooLarge, refused
from ._saved_file import FORMAT, File
from .errors import Error, IndexExists, NoAttribute, NoIndex, NoNode, decoded
from .operations import MAKE_INDEX, NEW, REMOVE, REMOVE_INDEX, SET, Batch
from .values import KIND_OF, RANGES

_ENDING = ".bestore"  # the suffix of a volume's file
_NUMBERS = 10**14  # how many node numbers a volume has
_ASIDE = "-0.4"  # the suffix of a folder that has become a file
_NEW = "-new"  # the suffix of the file while it is being written
_MOST_INDICES = 32


class _OtherNode(Error):
    """A node has another number than the one in the file."""


class Volume:
    """What a store contains, without the store. It is read from a file, and listed for a builder."""

    def __init__(self) -> None:
        self.next_node = 1
        self.indices: Dict[bytes, Tuple[int, Set[int]]] = {}
        """Each index's type code, and the nodes whose attributes it has."""
        self._nodes: Dict[int, Dict[bytes, bytes]] = {}  # the type code and the value of each attribute, as in a record
        self._last = 0  # the last node of a listing

    def take(self, data: bytes) -> None:
        """Takes the records of a listing's batch."""
        for kind, node, name, value in records(data):
            if kind == INDEX:
                self.indices[name] = int.from_bytes(value, "little"), set()
            elif kind == NODE:
                self._last, self._nodes[node] = node, {}
            elif self._last not in self._nodes:
                raise NoNode(self._last)
            else:
                self._nodes[self._last][name] = value
                if kind == HELD and name in self.indices:
                    self.indices[name][1].add(self._last)

    def apply(self, data: bytes) -> None:
        """Applies a batch of operations. Raises the errors of a store, and `_OtherNode` if a new node has another number than the batch
        says."""
        for kind, code, node, number, name, value in Batch.from_bytes(data)._parts():
            if kind == NEW:
                if node not in (0, self.next_node):
                    raise _OtherNode("it makes different nodes now")
                self._nodes[self.next_node] = {}
                self.next_node += 1
            elif kind == MAKE_INDEX:
                if name in self.indices:
                    raise IndexExists()
                self.indices[name] = code, set()
            elif kind == REMOVE_INDEX:
                if self.indices.pop(name, None) is None:
                    raise NoIndex()
            elif node not in self._nodes:
                raise NoNode(node)
            elif kind == REMOVE:
                self._remove(node)
            elif kind == SET:
                self._set(node, name, code, number.to_bytes(8, "little") if code in RANGES else bytes([len(value)]) + value)
            else:
                self._unset(node, name)

    def _remove(self, node: int) -> None:
        for name in list(self._nodes[node]):
            self._unset(node, name)
        del self._nodes[node]

    def _set(self, node: int, name: bytes, code: int, value: bytes) -> None:
        self._nodes[node][name] = code.to_bytes(4, "little") + value
        if name in self.indices:
            index, held = self.indices[name]
            (held.add if index == code else held.discard)(node)

    def _unset(self, node: int, name: bytes) -> None:
        if self._nodes[node].pop(name, None) is None:
            raise NoAttribute()
        if name in self.indices:
            self.indices[name][1].discard(node)

    def join(self, path: str, other: Volume, volume: int, first_of: Dict[bytes, int]) -> None:
        """Takes what another volume, with this number, contains. `first_of` says in which volume each index was found first."""
        before = volume * _NUMBERS
        for name, (code, held) in other.indices.items():
            mine, nodes = self.indices.setdefault(name, (code, set()))
            first = first_of.setdefault(name, volume)
            if mine != code:
                raise OtherKind(path, decoded(name), (first, KIND_OF[mine]), (volume, KIND_OF[code]))
            nodes.update(before + node for node in held)
        self._nodes.update((before + node, attributes) for node, attributes in other._nodes.items())
        self.next_node = before + other.next_node

    def _records(self) -> Iterator[Record]:
        for name, (code, _) in sorted(self.indices.items()):
            yield INDEX, 0, name, code.to_bytes(4, "little")
        for node, attributes in self._nodes.items():  # in ascending order, because it was read in that order
            yield NODE, node, b"", b""
            for name, value in sorted(attributes.items()):
                yield HELD if name in self.indices and node in self.indices[name][1] else ATTRIBUTE, 0, name, value

    def listing(self) -> Iterator[bytes]:
        """Yields batches for a builder."""
        return batches(self._records())


def state_of(file: File) -> Volume:
    """Returns what the file's state contains."""
    volume = Volume()
    for place, data in file.state():
        try:
            (volume.take if file.format == FORMAT else volume.apply)(data)
        except Error as error:
            raise refused(file.path, error, batch=place) from error
    next_node = file.about().next_node
    if file.format == FORMAT:
        volume.next_node = next_node
    elif volume.next_node != next_node:
        raise Differs(file.path, "its next node number differs from the recorded one")
    return volume


def whole_of(file: File) -> Tuple[Volume, int]:
    """Returns what the file contains after all entries, and the number of the last entry."""
    volume, last = state_of(file), file.about().entries
    for number, data in file.entries(last):
        if number != last + 1:
            raise Differs(file.path, "the entry is missing", entry=last + 1)
        try:
            volume.apply(data)
        except Error as error:
            raise refused(file.path, error, entry=number) from error
        last = number
    return volume, last


def _volumes_in(folder: str) -> int:
    """Returns how many volumes a folder has. Raises `NoFile` if a volume is missing and a later volume exists."""
    names = [name[:-len(_ENDING)] for name in os.listdir(folder) if name.endswith(_ENDING)]
    found = sorted(int(name) for name in names if name.isdecimal() and str(int(name)) == name)
    for expected, volume in enumerate(found):
        if volume != expected:
            raise NoFile(_file_of(folder, expected))
    return len(found)


def _file_of(folder: str, volume: int) -> str:
    return os.path.join(folder, f"{volume}{_ENDING}")


def join_volumes(path: str) -> None:
    """If a folder of volumes is at this path, puts a file with the contents of all of them in its place, and renames the folder. A call
    that is interrupted leaves the folder, under one of its names, to the next one, which begins again."""
    if not os.path.lexists(path) and os.path.exists(path + _NEW) and os.path.isdir(path + _ASIDE):
        os.rename(path + _ASIDE, path)
    if not os.path.isdir(path):
        return
    count = _volumes_in(path)
    if count == 0:
        return
    if os.path.lexists(path + _ASIDE):
        raise Exists(path, path + _ASIDE)
    with ExitStack() as opened:  # nobody else can open the volumes until the file is in the folder's place
        files: List[File] = []
        for volume in range(count):
            files.append(File(_file_of(path, volume)))
            opened.callback(files[-1].close)
        _write(path, files)
        os.rename(path, path + _ASIDE)
        os.rename(path + _NEW, path)
        _sync(os.path.dirname(path) or os.curdir)


def _write(path: str, volumes: List[File]) -> None:
    """Writes the file with the contents of all volumes. Its entries are those of all of them."""
    whole, entries, first_of = Volume(), 0, {}  # type: Volume, int, Dict[bytes, int]
    for number, file in enumerate(volumes):
        volume, last = whole_of(file)
        file.check(last)
        whole.join(path, volume, number, first_of)
        entries += last
    if len(first_of) > _MOST_INDICES:
        raise TooLarge(path, f"the volumes have {len(first_of)} indices together, and a store has at most {_MOST_INDICES}")
    for ending in ("", "-journal", "-wal", "-shm", "-last"):
        with suppress(FileNotFoundError):
            os.remove(path + _NEW + ending)
    written = File(path + _NEW)
    try:
        written.write_state(entries, whole.next_node, whole.listing())
    finally:
        written.close()
    _sync(path + _NEW)
    _sync(os.path.dirname(path) or os.curdir)


def _sync(path: str) -> None:
    """Returns once a file, or a folder's names, are on the disk."""
    descriptor = os.open(path, os.O_RDONLY | os.O_CLOEXEC)
    try:
        os.fsync(descriptor)
    finally:
        os.close(descriptor)
