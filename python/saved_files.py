"""What the tests of saved stores share: a folder for the files, SQL on them, and programs in processes of their own."""

import os
import sqlite3
import subprocess
import sys
import tempfile
import unittest
from contextlib import closing, contextmanager, suppress

import bestore
from bestore import saved
from bestore._saved_checks import of_state
from bestore.language import all_in

HERE = os.path.dirname(os.path.abspath(__file__))
MEMORY = "/dev/shm" if os.access("/dev/shm", os.W_OK) else None  # a folder in which commits don't wait for a disk
PATIENCE = 30  # seconds that anything may take on a busy machine


def say(line):
    os.write(1, line.encode() + b"\n")


def run(work, *arguments, **options):
    """Runs one of the functions of test_saved_processes in its own process. The options are those of Popen."""
    code = f"import sys, test_saved_processes; test_saved_processes.{work}(*sys.argv[1:])"
    return subprocess.Popen(
        [sys.executable, "-c", code, *map(str, arguments)], cwd=HERE, stdout=subprocess.PIPE, universal_newlines=True, **options)


def sql(path, *statements):
    with closing(sqlite3.connect(path, isolation_level=None)) as connection:
        return [connection.execute(statement).fetchall() for statement in statements][-1]


def operations(version):
    """Yields batches that rebuild a version in an empty store, as the state of earlier formats has them."""
    batch = bestore.Batch()
    for operation in all_operations(version):
        if len(batch) == bestore.MOST_OPERATIONS:
            yield batch
            batch = bestore.Batch()
        batch.add(operation)
    if len(batch) > 0:
        yield batch


def all_operations(version):
    """Yields operations that rebuild a version: new nodes, attributes that aren't held, indices, attributes that are held."""
    nodes, indices = set(version), version.indices()
    held = {name: set(version.query(all_in(name, kind))) for name, kind in indices.items()}
    attributes = [(node, name, *typed) for node in version for name, typed in version.attributes(node, kinds=True).items()]
    for node in range(1, version.next_node):
        yield bestore.NewNode()
        if node not in nodes:
            yield bestore.RemoveNode(node)
    yield from (bestore.SetAttribute(*it) for it in attributes if it[0] not in held.get(it[1], ()))
    yield from (bestore.MakeIndex(name, kind) for name, kind in indices.items())
    yield from (bestore.SetAttribute(*it) for it in attributes if it[0] in held.get(it[1], ()))


def to_format(path, version, pages=64):
    """Converts the file to an earlier format, in which the state consists of operations. The first one has no checksums to reveal
    changes."""
    said = [number for number, in sql(path, "SELECT number FROM about WHERE what IN ('entries', 'next') ORDER BY what")]
    with bestore.Builder(pages) as builder:
        for batch, in sql(path, "SELECT batch FROM state ORDER BY place"):
            builder.batch(batch)
        with builder.finish(said[1]) as store, store.pin() as pinned:
            state = [batch.to_bytes() for batch in operations(pinned)]
    with closing(sqlite3.connect(path, isolation_level=None)) as connection:
        connection.execute("DELETE FROM state")
        connection.executemany("INSERT INTO state VALUES (?, ?, ?)", [(place, it, of_state(place, it)) for place, it in enumerate(state)])
        connection.execute(f"PRAGMA user_version = {version}")
    if version == 1:
        sql(path, *(f"ALTER TABLE {table} DROP COLUMN checksum" for table in ("about", "state", "entry")))


def file_size(store, size):
    def file(change):
        node = change.new()
        change[node]["size"] = size
        return node
    return store.change(file)


def three(path):
    """Creates a file with an index and three nodes, in four entries."""
    with saved.open(path, 64) as store:
        store.make_index("size", bestore.INT64)
        for size in (1, 2, 3):
            file_size(store, size)


def sizes(store):
    with store.pin() as version:
        return version.query("size>0")


class Files(unittest.TestCase):
    """Provides the other tests with a folder and a path in it."""

    def setUp(self):
        folder = tempfile.TemporaryDirectory(dir=MEMORY)
        self.addCleanup(folder.cleanup)
        self.folder, self.path = folder.name, os.path.join(folder.name, "test.bestore")

    def refusal(self, path=None, **limits):
        """Returns the error, along with everything that its traceback keeps alive."""
        try:
            saved.open(path or self.path, **{"pages": 64, **limits}).close()
        except saved.SavedError as error:
            return error
        self.fail("the file is opened")

    @contextmanager
    def stopping(self, pages=64, **options):
        """Opens a store on which a commit fails in the block, so that closing it raises `Stopped`. That doesn't hide what the block
        itself raises."""
        store = saved.open(self.path, pages, **options)
        try:
            yield store
        finally:
            with self.assertRaises(saved.Stopped) if sys.exc_info()[0] is None else suppress(saved.Stopped):
                store.close()

    def skip(self, reason):
        """Skips the test, and prints a line that even a quiet run shows."""
        print(f"{self.id()}: skipped, {reason}", file=sys.stderr)
        self.skipTest(reason)

    def ended(self, child):
        """Waits for the child to end, and returns what it printed."""
        said = child.stdout.read()
        child.stdout.close()
        return child.wait(), said.splitlines()
