"""Tests of KeyboardInterrupts at random moments: none leaves a pass pinned. BESTORE_INTERRUPTS says how many there are."""

import os
import random
import signal
import threading
import unittest
from typing import Callable, Optional

import bestore

INTERRUPTS = int(os.environ.get("BESTORE_INTERRUPTS", "2000"))
LONGEST = 0.0001  # seconds until an interrupt: a loop runs some dozens of times


def interrupt_at_random(work: Callable[[], object]) -> KeyboardInterrupt:
    """Repeats the work until an interrupt. Its traceback keeps alive what the interrupted functions used."""
    try:
        signal.setitimer(signal.ITIMER_REAL, random.uniform(1e-6, LONGEST))
        while True:
            work()
    except KeyboardInterrupt as error:
        return error


class Interrupts(unittest.TestCase):
    def setUp(self) -> None:
        self.addCleanup(signal.signal, signal.SIGALRM, signal.signal(signal.SIGALRM, signal.default_int_handler))
        self.store = bestore.open(64)
        self.addCleanup(self.store.close)
        self.node = self.store.new_node()
        self.store.set(self.node, "size", 5)

    def left_pinned(self, work: Callable[[], object]) -> int:
        """Returns how many interrupts left the pass pinned."""
        left = 0
        for _ in range(INTERRUPTS):
            error = interrupt_at_random(work)
            try:
                self.store.pin().unpin()
            except bestore.Pinned:
                left += 1
                self.store.unpin()
            del error
        return left

    def test_with(self) -> None:
        def read() -> None:
            with self.store.pin() as version:
                version.get(self.node, "size")
        self.assertEqual(self.left_pinned(read), 0)

    def test_version_that_stays(self) -> None:
        """The version outlives its `with`, in a variable that the loop keeps."""
        version: Optional[bestore.Version] = None

        def read() -> None:
            nonlocal version
            with self.store.pin() as version:
                pass
        self.assertEqual(self.left_pinned(read), 0)

    def test_change(self) -> None:
        def read(change: bestore.Change) -> None:
            change.get(self.node, "size")
        self.assertEqual(self.left_pinned(lambda: self.store.change(read)), 0)

    def test_while_another_thread_uses_the_pass(self) -> None:
        """An interrupt ends the wait for that thread, which then unpins after its call."""
        other = threading.Thread(target=self.hold)
        version = self.store.pin()
        self.is_held, self.may_go = threading.Event(), threading.Event()
        other.start()
        self.is_held.wait()
        with self.assertRaises(KeyboardInterrupt), version:
            signal.setitimer(signal.ITIMER_REAL, 0.05)
        self.may_go.set()
        other.join()
        self.assertIsNone(self.store._pinned)
        self.assertRaises(bestore.NotPinned, version.get, self.node, "size")

    def hold(self) -> None:
        def call(_: object) -> int:
            self.is_held.set()
            self.may_go.wait()
            return 0
        self.store._call(call)


class WayOut(unittest.TestCase):
    def test_unpin(self) -> None:
        with bestore.open(64) as store, store.another() as other:
            store.unpin()
            version, kept = store.pin(), other.pin()
            store.unpin()
            self.assertRaises(bestore.NotPinned, version.nodes)
            with store.pin() as later:
                version.unpin()
                del version
                self.assertEqual((later.nodes(), kept.nodes()), ([], []))
                store.unpin()
                self.assertRaises(bestore.NotPinned, later.nodes)
            self.assertEqual(kept.nodes(), [])

    def test_in_a_change(self) -> None:
        def leave(change: bestore.Change) -> None:
            change.new()
            store.unpin()
        with bestore.open(64) as store:
            self.assertRaises((bestore.NotPinned, bestore.Nested), store.change, leave)
            self.assertEqual((store.status().entries, store.new_node()), (0, 1))


if __name__ == "__main__":
    unittest.main()
