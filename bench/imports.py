#!/usr/bin/env python3
"""Imports generated photos, letters and files with `be import`, each into a server of its own that keeps them, and prints how many
pages, how much memory and how much processor time they take.

    bench/imports.py                                   20,000 photos, 100,000 letters of a Maildir, and 500,000 files
    bench/imports.py --photos 50 --letters 200 --files 200    a trial

The files have contents only where an import reads them: letters, and the first bytes of photos. The folders are made in TMPDIR, or in
/tmp, and are removed afterwards. 500,000 files need 2.2 GB there, and 5 GB of memory while the store is being opened.

The script exits with an error if files are missing from the store after the import, if a second import changes anything, or if files
are missing after the server has opened its file again.
"""
from __future__ import annotations

import argparse
import json
import os
import random
import sys
import tempfile
from email.utils import format_datetime
from datetime import datetime, timezone
from pathlib import Path
from typing import Callable, Iterator, NamedTuple

from served import Server, check_programs, processor_time

PROGRAMS = Path(__file__).resolve().parent.parent / "rust/target/release"
BEGIN, END = 1_500_000_000, 1_790_000_000
PHOTOS_IN_A_FOLDER, LETTERS_IN_A_FOLDER, FILES_IN_A_FOLDER, FOLDERS_IN_A_FOLDER = 180, 2_500, 20, 40
WORDS = ("report", "photo", "invoice", "letter", "holiday", "budget", "notes", "scan", "minutes", "recipe", "garden", "summer")
NAMES = ("Ada", "Bob", "Carla", "Dmitri", "Elif", "Farid", "Greta", "Hugo", "Ines", "Jun", "Karin", "Liam")
ENDINGS = (".txt", ".png", ".c", ".h", ".py", ".html", ".pdf", ".jpg", ".mp3", ".json", ".md", ".rs", "")
PHOTO = bytes.fromhex("ffd8ffe000104a46494600010100000100010000")


class Import(NamedTuple):
    """What is imported, how many there are, how many pages the FAQ advises for each, and what makes them in a folder."""

    what: str
    number: int
    pages: int
    make: Callable[[Path, int, random.Random], None]


def write(path: Path, content: bytes, size: int, chance: random.Random) -> None:
    """Creates a file that begins with this content, and is as long as this or longer."""
    with path.open("wb") as file:
        file.write(content)
        file.truncate(max(size, len(content)))
    when = chance.randrange(BEGIN, END)
    os.utime(path, (when, when))


def phrase(chance: random.Random, most: int) -> str:
    return " ".join(chance.choice(WORDS) for _ in range(chance.randint(1, most)))


def make_photos(folder: Path, count: int, chance: random.Random) -> None:
    """Creates a folder for each year, and in it one for each month."""
    for number in range(count):
        months = number // PHOTOS_IN_A_FOLDER
        month = folder / f"{2010 + months // 12}" / f"{months % 12 + 1:02} {WORDS[months % 12]}"
        month.mkdir(parents=True, exist_ok=True)
        time = datetime.fromtimestamp(BEGIN + 9_000 * number, timezone.utc)
        write(month / f"IMG_{time:%Y%m%d_%H%M%S}.jpg", PHOTO, chance.randrange(1_000_000, 9_000_000), chance)


def address(chance: random.Random) -> str:
    first, last = chance.choice(NAMES), chance.choice(NAMES)
    number = chance.randrange(200)
    return f'"{first} {last}son" <{first.lower()}.{last.lower()}{number}@mail.example.org>'


def letter(number: int, when: int, chance: random.Random) -> bytes:
    """Returns a letter with the headers that an import reads. A third of the letters have a copy, and a fifth an address for replies."""
    headers = {
        "Return-Path": "<bounce@mail.example.org>", "From": address(chance), "To": address(chance),
        "Subject": f"{chance.choice(('', 'Re: ', 'Fwd: ', '[garden] '))}{phrase(chance, 8)}",
        "Date": format_datetime(datetime.fromtimestamp(when, timezone.utc)), "Message-ID": f"<{number}.{when}@mail.example.org>",
        "MIME-Version": "1.0", "Content-Type": "text/plain; charset=utf-8",
    }
    if number % 3 == 0:
        headers["Cc"] = ", ".join(address(chance) for _ in range(chance.randint(1, 3)))
    if number % 5 == 0:
        headers["Reply-To"] = address(chance)
    text = "\n".join(phrase(chance, 10) for _ in range(20))
    return ("".join(f"{name}: {value}\n" for name, value in headers.items()) + "\n" + text + "\n").encode()


def make_letters(folder: Path, count: int, chance: random.Random) -> None:
    """Creates a Maildir with several folders. A tenth of the letters are new."""
    for number in range(count):
        maildir = folder / (f".Archive.{number // LETTERS_IN_A_FOLDER}" if number >= LETTERS_IN_A_FOLDER else ".")
        if number % LETTERS_IN_A_FOLDER == 0:
            for name in ("cur", "new", "tmp"):
                (maildir / name).mkdir(parents=True)
        when = chance.randrange(BEGIN, END)
        name, is_new = f"{when}.M{chance.randrange(10**6)}P{number}.mail,S={chance.randrange(2_000, 90_000)}", number % 10 == 0
        path = maildir / "new" / name if is_new else maildir / "cur" / f"{name}:2,S"
        write(path, letter(number, when, chance), 0, chance)


def make_files(folder: Path, count: int, chance: random.Random) -> None:
    """Creates folders within folders, with files of many types."""
    for number in range(count):
        place = number // FILES_IN_A_FOLDER
        within = folder / f"{WORDS[place // FOLDERS_IN_A_FOLDER % 12]}-{place // FOLDERS_IN_A_FOLDER}" / f"{WORDS[place % 12]} {place}"
        if number % FILES_IN_A_FOLDER == 0:
            within.mkdir(parents=True)
        name = f"{'-'.join(phrase(chance, 3).split())}-{number}{chance.choice(ENDINGS)}"
        write(within / name, b"", chance.randrange(2_000_000), chance)


def made(folder: Path) -> Iterator[str]:
    """Yields the folder, and everything in it."""
    for root, _, files in os.walk(folder):
        yield root
        yield from files


def check(server: Server, files: int) -> None:
    """Exits with an error unless the store has this many files."""
    found = int(server.be("query", "--count", "name==*").output)
    if found != files:
        sys.exit(f"the store has {found:,} files instead of {files:,}")


def check_unchanged(done: dict[str, int]) -> None:
    """Exits with an error if an import has changed anything."""
    if any(done[what] for what in ("new", "changed", "renamed", "removed", "left")):
        sys.exit(f"an import of unchanged files has changed the store: {done}")


def measure(it: Import, programs: Path) -> None:
    with tempfile.TemporaryDirectory(prefix="imports-") as work:
        folder, keep, pages = Path(work) / "files", Path(work) / "store.bestore", it.pages * it.number + 1024
        folder.mkdir()
        it.make(folder, it.number, random.Random(1))
        files = sum(1 for _ in made(folder))
        print(f"{it.what}: {files:,} with their folders, {pages:,} pages; load {os.getloadavg()[0]:.0f}", flush=True)
        begun = processor_time()
        with Server(programs, keep, pages, "--every", "1000") as server:
            print(f"  open an empty store: {processor_time() - begun:.1f} s; memory {server.memory()}", flush=True)
            begun = processor_time()
            ran = server.be("import", "--json", folder)
            print(f"  import: {processor_time() - begun:.1f} s, with {ran.memory} MB in be; memory {server.memory()}", flush=True)
            used = json.loads(ran.output)["used"]
            print(f"  {used:,} pages in use, {used / files:.2f} for each", flush=True)
            check(server, files)
            begun = processor_time()
            ran = server.be("import", "--json", folder)
            print(f"  import again: {processor_time() - begun:.1f} s, with {ran.memory} MB in be", flush=True)
            check_unchanged(json.loads(ran.output))
            check(server, files)
        print(f"  the kept files: {sum(path.stat().st_size for path in Path(work).glob('store.bestore*')) / 2**20:.1f} MB")
        begun = processor_time()
        with Server(programs, keep, pages) as server:
            print(f"  open it again: {processor_time() - begun:.1f} s; memory {server.memory()}", flush=True)
            check(server, files)


def main() -> None:
    parser = argparse.ArgumentParser(description=__doc__, formatter_class=argparse.RawDescriptionHelpFormatter)
    parser.add_argument("--photos", type=int, default=20_000)
    parser.add_argument("--letters", type=int, default=100_000)
    parser.add_argument("--files", type=int, default=500_000)
    parser.add_argument("--programs", type=Path, default=PROGRAMS, help="the folder with bestored and be (rust/target/release)")
    given = parser.parse_args()
    check_programs(given.programs)
    for it in (Import("photos", given.photos, 2, make_photos), Import("letters", given.letters, 3, make_letters),
               Import("files", given.files, 2, make_files)):
        if it.number > 0:
            measure(it, given.programs)


if __name__ == "__main__":
    main()
