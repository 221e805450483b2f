"""An in-memory display, run by Xvfb, and pictures of it."""

from __future__ import annotations

import contextlib
import os
import shutil
import struct
import subprocess
import tempfile
import zlib
from typing import Iterator, NamedTuple

SIZE = "940x560"
DOTS = 96  # per inch


class Screen(NamedTuple):
    """An in-memory display: its name, and the file that holds its pixels."""

    name: str
    path: str


@contextlib.contextmanager
def display(size: str = SIZE, dots: int = DOTS) -> Iterator[Screen]:
    """Runs an in-memory display, with this many dots per inch, during the `with` block."""
    server = shutil.which("Xvfb")
    if server is None:
        raise FileNotFoundError("Xvfb isn't installed")
    with tempfile.TemporaryDirectory() as folder:
        words = [server, "-displayfd", "1", "-screen", "0", f"{size}x24", "-dpi", str(dots), "-fbdir", folder, "-nolisten", "tcp"]
        with subprocess.Popen(words, stdout=subprocess.PIPE, stderr=subprocess.DEVNULL, text=True) as running:
            try:
                assert running.stdout is not None
                yield Screen(f":{running.stdout.readline().strip()}", os.path.join(folder, "Xvfb_screen0"))
            finally:
                running.terminate()


def pixels_of(path: str) -> bytes:
    with open(path, "rb") as file:
        return file.read()


def png(screen: bytes) -> bytes:
    """Makes a PNG file from a screen that Xvfb stores as an XWD file, with 32 bits per pixel: blue, green, red and unused."""
    head = struct.unpack(">25I", screen[:100])
    size, width, height, line, colours = head[0], head[4], head[5], head[12], head[19]
    begin, rows = size + 12 * colours, []
    for y in range(height):
        row, pixels = screen[begin + y * line:begin + y * line + 4 * width], bytearray(3 * width)
        pixels[0::3], pixels[1::3], pixels[2::3] = row[2::4], row[1::4], row[0::4]
        rows.append(b"\0" + pixels)

    def chunk(kind: bytes, data: bytes) -> bytes:
        return struct.pack(">I", len(data)) + kind + data + struct.pack(">I", zlib.crc32(kind + data))

    return b"".join([
        b"\x89PNG\r\n\x1a\n", chunk(b"IHDR", struct.pack(">IIBBBBB", width, height, 8, 2, 0, 0, 0)),
        chunk(b"IDAT", zlib.compress(b"".join(rows), 9)), chunk(b"IEND", b""),
    ])
