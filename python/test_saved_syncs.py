"""Counts how often a saved store waits for its disk: at least once for each commit, whatever it saves."""

import ctypes
import os
import shutil
import subprocess
import sys
import unittest
from typing import Any
from unittest import mock

from bestore import saved
from bestore._saved_file import File
from saved_files import HERE, Files

COUNTER = """
#include <sys/syscall.h>
#include <unistd.h>

static unsigned long syncs;

unsigned long synced(void) { return syncs; }

static int sync_by(long call, int file)
{
    __atomic_fetch_add(&syncs, 1, __ATOMIC_SEQ_CST);
    return (int)syscall(call, file);
}

int fdatasync(int file) { return sync_by(SYS_fdatasync, file); }
int fsync(int file) { return sync_by(SYS_fsync, file); }
"""
"""A library to preload. It counts the calls that wait until a file's data is on the disk."""
NUMBERS = (1, 2, 64, 65, 100)
"""How many entries a commit saves. A single statement adds up to 64 of them."""


def report(library: str, path: str) -> None:
    """In a process into which the library was loaded, prints a line for each commit: what it saves, and how often it waits."""
    synced = ctypes.CDLL(library).synced

    def counted(what: str, call: Any, *arguments: Any) -> None:
        before = synced()
        call(*arguments)
        print(what, synced() - before)

    append, write_state = File.append, File.write_state
    with open(path + "-other", "w") as other:
        counted("other", os.fsync, other.fileno())
    with mock.patch.object(File, "append", lambda file, rows: counted(str(len(rows)), append, file, rows)), \
         mock.patch.object(File, "write_state", lambda file, *state: counted("state", write_state, file, *state)):
        with saved.open(path, 64) as store:
            for _ in range(10):
                store.new_node()
        with saved.open(path, 64, every=3600) as store:
            for number in NUMBERS:
                for _ in range(number):
                    store.new_node()
                store.flush()
            store.compact()


class Syncs(Files):
    def preloaded(self) -> str:
        """Compiles the library, and returns its path."""
        library = os.path.join(self.folder, "counter.so")
        if shutil.which("cc") is None:
            self.skip("there is no cc")
        build = ["cc", "-shared", "-fPIC", "-o", library, "-x", "c", "-"]
        subprocess.run(build, input=COUNTER, universal_newlines=True, check=True)
        return library

    def test_each_commit_waits(self) -> None:
        library = self.preloaded()
        code = "import sys, test_saved_syncs; test_saved_syncs.report(*sys.argv[1:])"
        child = subprocess.run(
            [sys.executable, "-c", code, library, self.path], cwd=HERE, stdout=subprocess.PIPE, universal_newlines=True,
            check=True, env={**os.environ, "LD_PRELOAD": library})
        counts = [(what, int(syncs)) for what, syncs in map(str.split, child.stdout.splitlines())]
        if counts[0] != ("other", 1):
            self.skip("the preloaded library counts nothing")
        self.assertEqual({what for what, _ in counts[1:]}, {"state", *map(str, NUMBERS)})
        self.assertEqual([(what, syncs) for what, syncs in counts if syncs < 1], [])


if __name__ == "__main__":
    unittest.main()
