"""Tests of writes that a client repeats until a server replies. BESTORED names the server program; without it, the tests are
skipped."""

import threading
import time
import unittest

import bestore
from bestore import connected
from servers import BESTORED, PATIENCE, Server


@unittest.skipUnless(BESTORED, "BESTORED names no bestored")
class Repeats(unittest.TestCase):
    """A server is killed and restarted while clients write."""

    def setUp(self):
        self.server = Server("--pages", 256, "--keep", "FOLDER/kept")
        self.addCleanup(self.server.close)

    def start_again(self):
        self.server.kill()
        self.server.start()

    def connect(self, repeat=PATIENCE):
        until = time.monotonic() + PATIENCE
        while True:
            try:
                return self.server.connect(repeat=repeat)
            except (connected.Disconnected, bestore.NoServer):
                # The server was killed before it replied, or hasn't been restarted yet.
                if time.monotonic() > until:
                    raise
                time.sleep(0.002)

    def test_each_write_is_made_once(self):
        """Four threads write with `apply` and `change` while the server is killed six times."""
        writes, done = 24, []

        def write(number):
            with self.connect() as store:
                for count in range(writes):
                    if count % 2:
                        store.apply(bestore.Batch().new_node())
                    else:
                        store.change(lambda change: change.new())
                    done.append(number)

        with self.connect() as store:
            threads = [threading.Thread(target=write, args=[number]) for number in range(4)]
            for thread in threads:
                thread.start()
            for _ in range(6):
                before, until = len(done), time.monotonic() + PATIENCE
                while len(done) == before < 4 * writes and time.monotonic() < until:
                    time.sleep(0.001)
                self.start_again()
            for thread in threads:
                thread.join(PATIENCE)
            self.assertEqual(len(done), 4 * writes)
            made = store.new_node()
            self.assertEqual(made, 4 * writes + 1)

    def test_numbers_of_an_earlier_run(self):
        """If the server restarts between a change's pin and its commit, the change runs again."""
        runs = []

        def change_it(change):
            runs.append(change.number)
            node = change.new()
            if len(runs) == 1:
                self.start_again()
            return node

        with self.connect() as store:
            self.assertEqual(store.change(change_it), 1)
            self.assertEqual(len(runs), 2)
            self.assertEqual(store.new_node(), 2)

    def test_what_would_be_lost_is_not(self):
        """A pin or a watch ends with its connection, so a pass that has either doesn't reconnect."""
        with self.connect() as pinned, self.connect() as watching, self.connect() as other:
            version, watch = pinned.pin(), watching.watch()
            self.start_again()
            for store in pinned, watching:
                with self.assertRaises(connected.Disconnected):
                    store.new_node()
            self.assertEqual(other.new_node(), 1)
            del version, watch

    def test_pin_that_is_lost(self):
        """A version whose connection is gone doesn't read or end a later pin, and keeps writes from being repeated until it is
        unpinned."""
        with self.connect() as store:
            lost = store.pin()
            self.start_again()
            for call in (lost.indices, store.pin, store.new_node, store.pin):
                self.assertRaises(connected.Disconnected, call)
            lost.unpin()
            self.assertEqual(store.new_node(), 1)
            with store.pin() as version:
                self.assertRaises(bestore.NotPinned, lost.indices)
                lost.unpin()
                self.assertEqual(version.nodes(), [1])

    def test_ended_watch(self):
        """A watch that has ended can't be lost, even while the program still refers to it."""
        with self.connect() as closed, self.connect() as refused:
            closed.make_index("size", bestore.INT64)
            with closed.watch() as one:
                pass
            other = refused.watch("size>=0")
            refused.remove_index("size")
            self.assertRaises(bestore.NotCovered, other.wait, PATIENCE)
            self.start_again()
            self.assertEqual([closed.new_node(), refused.new_node()], [1, 2])
            del one, other

    def test_given_up(self):
        """The server isn't back in time."""
        store = self.connect(repeat=0.2)
        self.server.kill()
        with self.assertRaises(connected.Disconnected):
            store.new_node()

    def test_without_it(self):
        """Without `repeat`, a write isn't repeated."""
        store = self.server.connect()
        self.start_again()
        with self.assertRaises(connected.Disconnected):
            store.new_node()

    def test_times(self):
        for repeat in 0, -1:
            with self.assertRaisesRegex(ValueError, "can't be repeated"):
                bestore.connect(self.server.path, repeat=repeat)


if __name__ == "__main__":
    unittest.main()
