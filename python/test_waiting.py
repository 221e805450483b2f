"""Tests that calls give up in time, even beside 30 processes that compute."""
import os
import signal
import sys
import time
import unittest
from contextlib import contextmanager
from typing import Iterator
from unittest import mock

import bestore

COMPUTING = 30
WITHIN = 0.3
SPARE = 5  # for a busy machine
COMPUTE = ["timeout", "60", "nice", "-n19", "sh", "-c", "while :; do :; done"]
BUSY = (int(bestore.ErrorNumber.BUSY), 1, [])  # what a write returns while pass 1 is writing


class InTime(unittest.TestCase):
    @classmethod
    def setUpClass(cls) -> None:
        for _ in range(COMPUTING):
            cls.addClassCleanup(os.kill, os.posix_spawnp(COMPUTE[0], COMPUTE, os.environ), signal.SIGTERM)

    @contextmanager
    def given_up(self, error: type) -> Iterator[None]:
        """Checks that the body raises this error, after the time that it was given."""
        begin = time.monotonic()
        with self.assertRaises(error):
            yield
        spent = time.monotonic() - begin
        self.assertGreaterEqual(spent, WITHIN)
        self.assertLess(spent, WITHIN + SPARE)

    def test_conflicts(self) -> None:
        with bestore.open(64, 2) as store, store.another() as other:
            node, runs = store.new_node(), []

            def disturbed(change: bestore.Change) -> None:
                runs.append(other.set(node, "a", len(runs)))
                change.set(node, "a", -1)
            with self.given_up(bestore.TooManyAttempts):
                store.change(disturbed, sys.maxsize, within=WITHIN)
            self.assertGreater(len(runs), 3)

    def test_full(self) -> None:
        with bestore.open(16, 2) as store, store.another() as reader, reader.pin():
            node = store.new_node()
            with self.assertRaises(bestore.Full):
                while True:
                    store.apply(bestore.Batch().set(node, "a", 1), 1)
            with self.given_up(bestore.Full):
                store.apply(bestore.Batch().set(node, "a", 1), sys.maxsize, within=WITHIN)
            with self.given_up(bestore.Full):
                store.change(lambda change: change.set(node, "a", 1), sys.maxsize, within=WITHIN)

    def test_busy(self) -> None:
        with bestore.open(64, 2) as store:
            node = store.new_node()
            with mock.patch.object(store, "_apply", return_value=BUSY), self.given_up(bestore.Busy):
                store.apply(bestore.Batch().set(node, "a", 1), sys.maxsize, within=WITHIN)
            with mock.patch.object(store, "_commit", side_effect=bestore.Busy(1)), self.given_up(bestore.Busy):
                store.change(lambda change: change.set(node, "a", 1), tries=sys.maxsize, within=WITHIN)


if __name__ == "__main__":
    unittest.main()
