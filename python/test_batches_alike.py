"""Tests that the decoders of C, Python and Rust refuse the same bytes, at the same offset and with the same error. Each run changes
other bytes. If a run fails, the message contains its seed: BESTORE_SEED=seed repeats that run.

Rust's decoder is the example `batch_errors` of bestore-types, which rust/test.sh builds. Without it, the test is skipped.
"""

from __future__ import annotations

import ctypes
import os
import random
import subprocess
import sys
import unittest
from typing import Dict, List

import bestore
from bestore._library import _path
from bestore.errors import ErrorNumber
from test_batches import random_operation, table

HERE = os.path.dirname(os.path.abspath(__file__))
BATCHES = 100_000
"""How many batches a run compares."""
BYTES = [0, 1, 2, 3, 4, 5, 6, 0x3F, 0x40, 0x41, 0x7F, 0x80, 0xBF, 0xC0, 0xC3, 0xE0, 0xED, 0xF0, 0xF4, 0xFF]
"""Bytes at which a decoder decides something."""
ERRORS = {
    "begin with BEB": ErrorNumber.BAD_PART, "version": ErrorNumber.BAD_PART, "cut off": ErrorNumber.BAD_PART,
    "more bytes follow": ErrorNumber.BAD_PART, "1 to 64 operations": ErrorNumber.BAD_COUNT,
    "no operation has": ErrorNumber.NO_OPERATION, "a name has 1 to 63 bytes": ErrorNumber.NAME_LENGTH,
    "no kind has": ErrorNumber.NO_KIND, "doesn't fit its kind": ErrorNumber.NO_VALUE, "isn't valid UTF-8": ErrorNumber.NOT_UTF8,
    "has a zero byte": ErrorNumber.HAS_NUL,
}
"""What a reason in Python or Rust contains, and C's error for it."""


def refusal(offset: int, reason: str) -> str:
    """Returns the offset, the part of the reason that all languages have, and C's error."""
    return next((f"{offset} {part} {int(error)}" for part, error in ERRORS.items() if part in reason), reason)


def changed(chance: random.Random, data: bytes) -> bytes:
    """Returns the bytes after a few of them were replaced, added, removed or repeated, or after their end was cut off."""
    taken = bytearray(data)
    for _ in range(chance.randrange(4)):
        at = chance.randrange(len(taken) + 1)
        byte = chance.choice(BYTES) if chance.random() < .7 else chance.randrange(256)
        what = chance.randrange(8)
        if what < 5:
            taken[at:at + 1] = [byte]
        elif what == 5:
            taken.insert(at, byte)
        elif what == 6:
            del taken[at:at + chance.randrange(1, 9)]
        else:
            taken[at:] = b"" if chance.random() < .5 else taken[at:] + taken[:at]
    return bytes(taken)


class InC:
    """The library's decoder."""

    def __init__(self) -> None:
        self._read = ctypes.CDLL(_path()).bes_operations_from_bytes
        self._counts, self._offset = (ctypes.c_uint64 * 2)(), ctypes.c_uint64()
        self._operations, self._texts = ctypes.create_string_buffer(64 * 40), ctypes.create_string_buffer(64 * (63 + 255))

    def found(self, data: bytes, other: str) -> str:
        """Returns what the decoder finds. Several reasons have the same error in C, so the reason is the other decoder's."""
        error = self._read(data, ctypes.c_size_t(len(data)), self._counts, self._operations, ctypes.c_size_t(64), self._texts,
                           ctypes.c_size_t(len(self._texts)), ctypes.byref(self._offset))
        return f"{self._offset.value} {other.partition(' ')[2].rpartition(' ')[0]} {error}" if error else "ok"


def in_python(data: bytes) -> str:
    try:
        bestore.Batch.from_bytes(data)
    except bestore.BadBytes as error:
        return refusal(error.offset, error.reason)
    return "ok"


def in_rust(program: str, batches: List[bytes]) -> List[str]:
    said = subprocess.run([program], input="".join(f"{data.hex()}\n" for data in batches), stdout=subprocess.PIPE, check=True, text=True)
    return [line if line == "ok" else refusal(int(line.split()[0]), line) for line in said.stdout.splitlines()]


class Alike(unittest.TestCase):
    def setUp(self) -> None:
        target = os.environ.get("CARGO_TARGET_DIR", os.path.join(HERE, "..", "rust", "target"))
        self.program = os.path.join(target, "debug", "examples", "batch_errors")
        if not os.access(self.program, os.X_OK):
            print(f"{self.id()}: skipped, bestore-types' example batch_errors isn't built: see rust/test.sh", file=sys.stderr)
            self.skipTest("the example isn't built")
        self.seed = int(os.environ.get("BESTORE_SEED") or random.SystemRandom().randrange(2**32))
        self.chance = random.Random(self.seed)

    def batches(self) -> List[bytes]:
        """Returns valid batches, and the changed bytes of such batches and of those in the table."""
        refused = [data for data, _ in table("!")]
        single = [b"BEB\1\1" + data for data, _ in table("=")]
        batches: List[bytes] = []
        while len(batches) < BATCHES:
            made = bestore.Batch([random_operation(self.chance) for _ in range(self.chance.randrange(1, 4))]).to_bytes()
            batches += [changed(self.chance, data) for data in (made, self.chance.choice(single), self.chance.choice(refused), made)]
        return batches

    def test_changed_bytes(self) -> None:
        batches, c, seen = self.batches(), InC(), dict[str, int]()
        differing: List[Dict[str, str]] = []
        for data, rust in zip(batches, in_rust(self.program, batches)):
            python = in_python(data)
            found = {"bytes": data.hex(), "C": c.found(data, rust), "Python": python, "Rust": rust}
            if not found["C"] == python == rust:
                differing.append(found)
            part = rust.partition(" ")[2]
            seen[part] = seen.get(part, 0) + 1
        self.assertEqual(differing[:5], [], f"{len(differing)} of {len(batches)} differ, BESTORE_SEED={self.seed}")
        self.assertEqual(len(seen), len(ERRORS) + 1, seen)
        self.assertGreater(min(seen.values()), 50, seen)


if __name__ == "__main__":
    unittest.main()
