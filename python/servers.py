"""Starts servers for tests. The variable BESTORED names the server program."""

import os
import shutil
import subprocess
import tempfile
import time
import unittest
from unittest import mock

import bestore

BESTORED = os.environ.get("BESTORED")
MEMORY = "/dev/shm" if os.access("/dev/shm", os.W_OK) else None  # a folder in which a server's file doesn't wait for a disk
PATIENCE = 30  # seconds that anything may take on a busy machine


class Server:
    """A server in its own folder. It is killed at the end."""

    def __init__(self, *options):
        self.folder = tempfile.mkdtemp(prefix="bestored-", dir=MEMORY)
        self.path = os.path.join(self.folder, "socket")
        self.options = [str(option).replace("FOLDER", self.folder) for option in options]
        self.start()

    def start(self):
        self.process = subprocess.Popen([BESTORED, "--socket", self.path, *self.options], stdin=subprocess.DEVNULL)

    def connect(self, **options):
        """Returns a pass as soon as the server is listening and has a free one."""
        until = time.monotonic() + PATIENCE
        while True:
            try:
                return bestore.connect(self.path, **options)
            except (bestore.NoServer, bestore.NoPass, bestore.TimedOut):
                if time.monotonic() > until or self.process.poll() is not None:
                    raise
                time.sleep(0.002)

    def kill(self):
        self.process.kill()
        self.process.wait()

    def close(self):
        self.kill()
        shutil.rmtree(self.folder)

    def __enter__(self):
        return self

    def __exit__(self, *_):
        self.close()


@unittest.skipUnless(BESTORED, "BESTORED names no bestored")
class OverServer(unittest.TestCase):
    """A test case in which `bestore.open` opens a new server's store."""

    def setUp(self):
        super().setUp()
        patched = mock.patch.object(bestore, "open", self.open)
        patched.start()
        self.addCleanup(patched.stop)

    def open(self, pages=4096, passes=8, commits=2**32 - 1):
        server = Server("--pages", pages, "--passes", passes, "--commits", commits)
        self.addCleanup(server.close)
        return server.connect()


class WithServer(unittest.TestCase):
    """Each test has a server with an index on `size`."""

    options = ()

    def setUp(self):
        if not BESTORED:
            self.skipTest("BESTORED names no bestored")
        self.server = Server(*self.options)
        self.addCleanup(self.server.close)
        self.store = self.server.connect()
        self.addCleanup(self.store.close)
        self.store.make_index("size", bestore.INT64)

    def sized(self, store, *sizes):
        """Creates nodes with these sizes."""
        def make(change):
            nodes = []
            for size in sizes:
                nodes.append(change.new())
                change.set(nodes[-1], "size", size)
            return nodes
        return store.change(make)
