#!/usr/bin/env python3
"""Fills, asks, changes, keeps, backs up, restores and opens a store of a million files from Python: in bestore, in LMDB (the package
`lmdb`) and in SQLite (`sqlite3`). Prints the processor time of each step, and what it leaves in memory and in files.

Each file has five attributes, three of them indexed, and ten files are written at a time. bestore keeps its store with `every`, LMDB
doesn't wait for the disk (`sync=False`), and SQLite has a WAL with `synchronous = NORMAL`, so no store waits for the disk at each
write. A store runs in a process of its own. bestore's backup is made with `be backup` from a server that keeps the store's file, and
restored with `be restore` to an empty server. bestore needs 5 GB of memory while it opens a million files' pages.

The script exits with an error if a backup doesn't give the same answers as the store did, or if two stores don't.

    PYTHONPATH=python bench/million.py
    PYTHONPATH=python bench/million.py --files 20000 --stores bestore sqlite3    a trial
"""

from __future__ import annotations

import argparse
import hashlib
import os
import sqlite3
import subprocess
import sys
import tempfile
from contextlib import closing
from pathlib import Path
from typing import Any, Callable, Iterator, List, NamedTuple, Tuple

from served import Ran, Server, check_programs, memory_of, processor_time

PROGRAMS = Path(__file__).resolve().parent.parent / "rust/target/release"
FILES = 1_000_000
TOGETHER = 10
CALLS = 1000
AT_ONCE = 20_000  # records in a read of all of them
SIZES = 10_000_000
NEWEST = 50
EVERY = 1.0
DIGEST = "  answers: "


class File(NamedTuple):
    """A file, as each store has it."""

    number: int
    name: str
    size: int
    modified: int
    path: str
    inode: int


def mixed(seed: int) -> int:
    """Returns a number that looks random, always the same for one seed."""
    seed = seed * 0x9E3779B97F4A7C15 % 2**64
    seed = (seed ^ seed >> 29) * 0xBF58476D1CE4E5B9 % 2**64
    return seed ^ seed >> 32


def file_of(number: int) -> File:
    name = f"{mixed(number) % 2**32:08x} file {number}.jpg"
    modified = 1_700_000_000 + mixed(mixed(number)) % 100_000_000
    return File(number, name, mixed(number) % SIZES, modified, f"/home/ann/pictures/{number % 100}/{number}", number)


def groups(files: int) -> Iterator[List[File]]:
    """Yields the files that are written together."""
    for first in range(1, files + 1, TOGETHER):
        yield [file_of(number) for number in range(first, min(first + TOGETHER, files + 1))]


class Options(NamedTuple):
    """How many files there are, and the folder with bestored and be."""

    files: int
    programs: Path

    @property
    def pages(self) -> int:
        return self.files * 5 // 4 + 1024


class Read:
    """A store of bestore that is read, in this process or from a server."""

    def __init__(self, store: Any) -> None:
        import bestore
        self._store, self._newest = store, bestore.prepare("size>=0")

    def named(self, name: str) -> List[int]:
        with self._store.pin() as version:
            return version.query(f'name=="{name}"')

    def newest(self) -> List[int]:
        with self._store.pin() as version:
            return version.query_prepared(self._newest, by="last_modified", descending=True, limit=NEWEST)

    def between(self, low: int, high: int) -> List[int]:
        with self._store.pin() as version:
            return version.query(f"size>={low} && size<{high}")

    def records(self) -> Iterator[File]:
        names, first = ("name", "size", "last_modified", "path", "inode"), 0
        while True:
            # A server ends a snapshot that is pinned for too long.
            with self._store.pin() as version:
                rows = version.rows(self._newest, names, first, AT_ONCE)
            if not rows:
                return
            yield from (File(number, *values) for number, values in rows)
            first = rows[-1][0] + 1

    def close(self) -> None:
        self._newest.close()
        self._store.close()


class Bestore(Read):
    """A kept store of bestore."""

    def __init__(self, folder: Path, options: Options) -> None:
        import bestore
        from bestore import saved
        self._bestore, self._path, self._options = bestore, folder / "store.bestore", options
        super().__init__(saved.open(self._path, pages=options.pages, every=EVERY))

    def fill(self, files: int) -> None:
        kinds = self._bestore.STRING, self._bestore.INT64, self._bestore.INT64
        for name, kind in zip(("name", "size", "last_modified"), kinds):
            self._store.make_index(name, kind)
        for group in groups(files):
            batch = self._bestore.Batch()
            for it in group:
                batch.new_node()
                batch.set(it.number, "name", it.name).set(it.number, "size", it.size).set(it.number, "last_modified", it.modified)
                batch.set(it.number, "path", it.path).set(it.number, "inode", it.inode)
            self._store.apply(batch)

    def resize(self, number: int, size: int) -> None:
        self._store.set(number, "size", size)

    def back_up(self, to: Path) -> None:
        """Backs up a server that keeps the closed store's file."""
        with serving("start a server with it", self._path, self._options) as server:
            run(server, "back it up", "backup", to / self._path.name)


def serving(what: str, keep: Path, options: Options) -> Server:
    """Starts a server that keeps this file."""
    started: List[Server] = []
    timed(what, 1, lambda: started.append(Server(options.programs, keep, options.pages)))
    print(f"  memory of the server: {started[0].memory()}")
    return started[0]


def run(server: Server, what: str, command: str, file: Path) -> None:
    """Runs a command of `be` on a file."""
    ran: List[Ran] = []
    timed(f"{what} with be {command}", 1, lambda: ran.append(server.be(command, file)))
    print(f"  memory of be: at most {ran[0].memory} MB; of the server: {server.memory()}")


def restore(backup: Path, options: Options, said: str) -> None:
    """Restores a backup to an empty server, which must then give the same answers as the store did."""
    import bestore
    with tempfile.TemporaryDirectory(prefix="restored-") as work:
        with serving("start an empty server", Path(work) / "store.bestore", options) as server:
            run(server, "restore the backup to it", "restore", backup)
            print(f"  its files: {sizes_in(Path(work))}")
            with closing(Read(bestore.connect(str(server.socket)))) as read:
                check(read, options.files, said)


class Lmdb:
    """LMDB, with a tree of records and a tree for each index."""

    def __init__(self, folder: Path, _: Options) -> None:
        import lmdb
        self._lmdb = lmdb
        self._all = lmdb.open(str(folder), map_size=4 << 30, max_dbs=4, sync=False)
        self._files, self._names, self._sizes, self._times = (
            self._all.open_db(it, dupsort=it != b"files") for it in (b"files", b"names", b"sizes", b"times"))

    @staticmethod
    def _key(number: int) -> bytes:
        return number.to_bytes(8, "big")

    def fill(self, files: int) -> None:
        for group in groups(files):
            with self._all.begin(write=True) as change:
                for it in group:
                    key = self._key(it.number)
                    record = b"\0".join([it.name.encode(), b"%d" % it.size, b"%d" % it.modified, it.path.encode(), b"%d" % it.inode])
                    change.put(key, record, db=self._files)
                    change.put(it.name.encode(), key, db=self._names)
                    change.put(self._key(it.size), key, db=self._sizes)
                    change.put(self._key(it.modified), key, db=self._times)

    def named(self, name: str) -> List[int]:
        with self._all.begin() as reading:
            with reading.cursor(self._names) as cursor:
                return [int.from_bytes(it, "big") for it in cursor.iternext_dup()] if cursor.set_key(name.encode()) else []

    def records(self) -> Iterator[File]:
        with self._all.begin() as reading, reading.cursor(self._files) as cursor:
            for key, record in cursor:
                name, size, modified, path, inode = record.split(b"\0")
                yield File(int.from_bytes(key, "big"), name.decode(), int(size), int(modified), path.decode(), int(inode))

    def newest(self) -> List[int]:
        with self._all.begin() as reading, reading.cursor(self._times) as cursor:
            backwards = cursor.iterprev(keys=False)
            return [int.from_bytes(it, "big") for it, _ in zip(backwards, range(NEWEST))]

    def between(self, low: int, high: int) -> List[int]:
        found, end = [], self._key(high)
        with self._all.begin() as reading, reading.cursor(self._sizes) as cursor:
            if cursor.set_range(self._key(low)):
                for size, key in cursor:
                    if size >= end:
                        break
                    found.append(int.from_bytes(key, "big"))
        return sorted(found)

    def resize(self, number: int, size: int) -> None:
        key = self._key(number)
        with self._all.begin(write=True) as change:
            fields = change.get(key, db=self._files).split(b"\0")
            change.delete(self._key(int(fields[1])), key, db=self._sizes)
            fields[1] = b"%d" % size
            change.put(key, b"\0".join(fields), db=self._files)
            change.put(self._key(size), key, db=self._sizes)

    def close(self) -> None:
        self._all.sync(True)
        self._backup = self._all.path()
        self._all.close()

    def back_up(self, to: Path) -> None:
        with self._lmdb.open(self._backup, max_dbs=4, map_size=4 << 30) as opened:
            timed("back it up", 1, lambda: opened.copy(str(to)))


class Sqlite:
    """SQLite, with a table and three indices."""

    def __init__(self, folder: Path, _: Options) -> None:
        self._path = folder / "store.sqlite"
        self._all = sqlite3.connect(self._path, isolation_level=None)
        self._all.execute("PRAGMA journal_mode = WAL").fetchall()
        self._all.execute("PRAGMA synchronous = NORMAL")

    def fill(self, files: int) -> None:
        columns = "number INTEGER PRIMARY KEY, name TEXT, size INTEGER, modified INTEGER, path TEXT, inode INTEGER"
        self._all.execute(f"CREATE TABLE file ({columns})")
        for column in ("name", "size", "modified"):
            self._all.execute(f"CREATE INDEX of_{column} ON file ({column})")
        for group in groups(files):
            self._all.execute("BEGIN")
            self._all.executemany("INSERT INTO file VALUES (?, ?, ?, ?, ?, ?)", group)
            self._all.execute("COMMIT")

    def _numbers(self, text: str, values: Tuple[Any, ...]) -> List[int]:
        return [number for (number,) in self._all.execute(f"SELECT number FROM file {text}", values)]

    def named(self, name: str) -> List[int]:
        return self._numbers("WHERE name = ?", (name,))

    def newest(self) -> List[int]:
        return self._numbers("WHERE size >= 0 ORDER BY modified DESC, number DESC LIMIT ?", (NEWEST,))

    def records(self) -> Iterator[File]:
        return (File(*row) for row in self._all.execute("SELECT * FROM file ORDER BY number"))

    def between(self, low: int, high: int) -> List[int]:
        return self._numbers("WHERE size >= ? AND size < ? ORDER BY number", (low, high))

    def resize(self, number: int, size: int) -> None:
        self._all.execute("UPDATE file SET size = ? WHERE number = ?", (size, number))

    def close(self) -> None:
        self._all.close()

    def back_up(self, to: Path) -> None:
        with closing(sqlite3.connect(self._path)) as source, closing(sqlite3.connect(to / self._path.name)) as target:
            timed("back it up", 1, lambda: source.backup(target))


STORES: dict[str, Callable[[Path, Options], Any]] = {"bestore": Bestore, "lmdb": Lmdb, "sqlite3": Sqlite}


def resident() -> str:
    """Returns how much of this process's own memory is in use, and how much with what it maps of files."""
    sizes = memory_of("self")
    return f"{sizes['RssAnon']} MB, {sizes['VmRSS']} MB with mapped files"


def sizes_in(folder: Path) -> str:
    return f"{sum(it.stat().st_blocks * 512 for it in folder.rglob('*') if it.is_file()) // 2**20} MB"


def timed(what: str, calls: int, call: Callable[[], object]) -> None:
    """Prints the processor time of a call, or of each of the calls that it makes."""
    begun = processor_time()
    call()
    taken = processor_time() - begun
    each = f"{taken / calls * 1e6:.1f} µs each" if calls > 1 else f"{taken:.2f} s"
    print(f"  {what}: {each}", flush=True)


def chosen(files: int) -> List[int]:
    """Returns the files that are asked for by name, always the same ones."""
    return [1 + mixed(it) % files for it in range(CALLS)]


def range_of(number: int, files: int) -> Tuple[int, int]:
    """Returns bounds of sizes between which there are about 30 files."""
    width = max(1, SIZES * 30 // files)
    low = mixed(number) % max(1, SIZES - width)
    return low, low + width


def ask(store: Any, files: int) -> None:
    """Asks the filled store, and changes it."""
    numbers = chosen(files)

    def names() -> None:
        for it in numbers:
            assert store.named(file_of(it).name) == [it]

    timed("find one file by its name", CALLS, names)
    timed(f"find the {NEWEST} newest", CALLS, lambda: [store.newest() for _ in numbers])
    timed("find about 30 files by their size", CALLS, lambda: [store.between(*range_of(it, files)) for it in numbers])
    timed("change the size of one", CALLS, lambda: [store.resize(it, mixed(it + 1) % SIZES) for it in numbers])


def answers(store: Any, files: int) -> str:
    """Returns a digest of all records, and of what the store finds."""
    digest = hashlib.sha256()
    for record in store.records():
        digest.update(repr(record).encode())
    for it in chosen(files):
        digest.update(repr((store.named(file_of(it).name), store.between(*range_of(it, files)))).encode())
    digest.update(repr(store.newest()).encode())
    return digest.hexdigest()[:16]


def check(store: Any, files: int, said: str) -> None:
    """Exits with an error unless the store gives the answers with this digest."""
    found = answers(store, files)
    if found != said:
        sys.exit(f"the restored store's answers have the digest {found} instead of {said}")
    print("  it gives the same answers", flush=True)


def measure(name: str, options: Options) -> None:
    """Takes a store through its steps."""
    with tempfile.TemporaryDirectory(prefix="million-") as work:
        folder, copy = Path(work) / "store", Path(work) / "copy"
        folder.mkdir()
        copy.mkdir()
        made: List[Any] = []
        timed("open an empty store", 1, lambda: made.append(STORES[name](folder, options)))
        print(f"  memory: {resident()}")
        timed("fill it, for each file", options.files, lambda: made[0].fill(options.files))
        print(f"  memory: {resident()}")
        ask(made[0], options.files)
        said = answers(made[0], options.files)
        print(f"{DIGEST}{said}")
        timed("close it", 1, made[0].close)
        print(f"  files: {sizes_in(folder)}")
        made[0].back_up(copy)
        print(f"  the backup's files: {sizes_in(copy)}")
        if name == "bestore":
            restore(copy / "store.bestore", options, said)
        timed("open the backup", 1, lambda: made.append(STORES[name](copy, options)))
        print(f"  memory: {resident()}")
        check(made[1], options.files, said)
        made[1].close()


def measured(name: str, given: argparse.Namespace) -> str:
    """Measures a store in a process of its own, and prints what that prints. Returns the digest of the store's answers."""
    print(f"{name}, {given.files:,} files; load {os.getloadavg()[0]:.0f}", flush=True)
    words = [sys.executable, __file__, "--here", "--files", str(given.files), "--programs", str(given.programs), "--stores", name]
    said = ""
    with subprocess.Popen(words, stdout=subprocess.PIPE, text=True) as process:
        assert process.stdout is not None
        for line in process.stdout:
            print(line, end="", flush=True)
            said = line.removeprefix(DIGEST).strip() if line.startswith(DIGEST) else said
    if process.returncode != 0:
        sys.exit(f"{name}: failed")
    return said


def main() -> int:
    parser = argparse.ArgumentParser(description=__doc__, formatter_class=argparse.RawDescriptionHelpFormatter)
    parser.add_argument("--files", type=int, default=FILES, help=f"how many files there are ({FILES:,})")
    parser.add_argument("--stores", nargs="*", choices=list(STORES), default=list(STORES))
    parser.add_argument("--programs", type=Path, default=PROGRAMS, help="the folder with bestored and be (rust/target/release)")
    parser.add_argument("--here", action="store_true", help=argparse.SUPPRESS)
    given = parser.parse_args()
    if "bestore" in given.stores:
        check_programs(given.programs)
    if given.here:
        measure(given.stores[0], Options(given.files, given.programs))
        return 0
    said = {measured(name, given) for name in given.stores}
    if len(said) > 1:
        sys.exit("the stores give different answers")
    return 0


if __name__ == "__main__":
    sys.exit(main())
