"""Tests the checker with histories that each contain one fault, and runs short rounds with real servers. If BESTORED doesn't give
the path of the program bestored, the rounds are skipped. BESTORE_SEED changes the rounds' random choices."""
from __future__ import annotations

import os
import subprocess
import unittest
from dataclasses import replace
from pathlib import Path
from typing import List, Optional
from unittest import mock

from checker import violations
from crowd import Crowd
from faults import KILL, KILL_LEADER, RESTART_DATABASE, Fault
from postgres import Postgres, programs
from record import NO_VALUES, History, Outcome, Read, Snapshot, Values, Write
from rounds import Given, Report, run_round
from servers import FileServers, LogServers, Servers

BESTORED = os.environ.get("BESTORED")
FIRST_COMMIT = 7
"""The commit number before the first batch."""
BATCHES = 50
"""How many batches are written before each of a round's faults."""
CROWD = Crowd(300_000)
CROWDED_PAGES = 131_072


def snapshot(number: int, values: Values) -> Snapshot:
    return Snapshot("a run", FIRST_COMMIT + number, number, values)


def sound() -> History:
    """Returns a history of four batches, one after another, each between two reads. Batch n sets register n to 10 n, and takes
    from second n to n + 0.4."""
    history, values = History(), list(NO_VALUES)
    for number in range(1, 5):
        before = snapshot(number - 1, tuple(values))
        values[number - 1] = 10 * number
        history.writes.append(Write(10 * number, (number,), before, float(number), number + 0.4, Outcome.ACKNOWLEDGED, "a run",
                                    FIRST_COMMIT + number, number))
        history.reads.append(Read(snapshot(number, tuple(values)), number + 0.5, number + 0.6, True))
        history.trail.append(10 * number)
    return history


class Checker(unittest.TestCase):
    """Tests what the checker finds."""

    def check(self, history: History, *texts: str) -> None:
        """Checks that the first violations have these descriptions."""
        found = list(violations(history))
        self.assertEqual(bool(found), bool(texts), found)
        for text in texts:
            self.assertTrue(any(text in it for it in found), found)

    def check_longer(self, value: int, text: str) -> None:
        """Checks that this violation is found when the trail has one more batch, with this value."""
        history = sound()
        history.trail.append(value)
        self.check(history, text)

    def test_sound(self) -> None:
        self.check(sound())
        self.check(History())

    def test_stale_read(self) -> None:
        """A read shows an old snapshot, exactly as it was."""
        history = sound()
        history.reads[3] = replace(history.reads[3], snapshot=history.reads[1].snapshot)
        self.check(history, "a read that saw batch 2 as the last one began when batch 4 was acknowledged or read before")
        history.reads[3] = replace(history.reads[3], is_latest=False)
        self.check(history)

    def test_later_read_is_older(self) -> None:
        """Batch 4 isn't acknowledged. One read shows it, but a later read doesn't."""
        history = sound()
        history.writes[3] = replace(history.writes[3], outcome=Outcome.UNKNOWN, end=None)
        self.check(history)
        history.reads.append(Read(history.reads[2].snapshot, 9.0, 9.1, True))
        self.check(history, "a read that saw batch 3 as the last one began when batch 4")

    def test_torn_read(self) -> None:
        history = sound()
        wrong = history.reads[2].snapshot.values[:2] + history.reads[1].snapshot.values[2:]
        history.reads[2] = replace(history.reads[2], snapshot=snapshot(3, wrong))
        self.check(history, "a read saw (10, 20, 0, 0, 0, 0) after batch 3, and (10, 20, 30, 0, 0, 0) would be right")

    def test_read_of_what_is_not_there(self) -> None:
        history = sound()
        history.reads.append(Read(snapshot(5, NO_VALUES), 9.0, 9.1, True))
        self.check(history, "a snapshot shows batch 5, and there are 4 batches")

    def test_lost_write(self) -> None:
        history = sound()
        del history.trail[3], history.reads[3]
        self.check(history, "value 40 was acknowledged as batch 4, and is lost")
        history.writes[3] = replace(history.writes[3], outcome=Outcome.UNKNOWN)
        self.check(history)

    def test_write_twice(self) -> None:
        self.check_longer(40, "value 40 was written twice, as batch 4 and as batch 5")

    def test_refused_write(self) -> None:
        history = sound()
        history.writes[3] = replace(history.writes[3], outcome=Outcome.REFUSED)
        self.check(history, "value 40 was refused, and is batch 4")

    def test_write_that_nobody_sent(self) -> None:
        self.check_longer(50, "batch 5 has the value 50, which nobody sent")

    def test_number_that_goes_back(self) -> None:
        """The last batch was acknowledged before the first was sent."""
        history = sound()
        history.reads.clear()
        history.writes[3] = replace(history.writes[3], begin=0.1, end=0.2)
        self.check(history, "batch 1, value 10, was sent when batch 4 was acknowledged or read before")
        # A batch that isn't acknowledged may have been written later.
        history.writes[3] = replace(history.writes[3], outcome=Outcome.UNKNOWN)
        self.check(history)

    def test_order_that_differs(self) -> None:
        """Two batches are in the opposite order in the trail."""
        history = sound()
        history.trail[2:] = [40, 30]
        self.check(history, "value 40 was acknowledged as batch 4, and is batch 3", "batch 3 was to be written only on batch 3")

    def test_write_on_another_snapshot(self) -> None:
        history = sound()
        history.writes[3] = replace(history.writes[3], on=history.writes[2].on)
        self.check(history, "batch 4 was to be written only on batch 2")
        history = sound()
        history.writes[3] = replace(history.writes[3], on=snapshot(3, NO_VALUES))
        self.check(history, "the batch of value 40 saw (0, 0, 0, 0, 0, 0) after batch 3")

    def test_query_that_sees_two_states(self) -> None:
        history, crowd = sound(), Crowd(100)
        for place, read in enumerate(history.reads):
            history.reads[place] = replace(read, snapshot=replace(read.snapshot, counts=crowd.counts_after(read.snapshot.number)))
        for write in history.writes:
            write.on = replace(write.on, counts=crowd.counts_after(write.on.number))
        self.assertEqual(list(violations(history, crowd)), [])
        wrong = replace(history.reads[2].snapshot, counts=(51, 6))
        history.reads[2] = replace(history.reads[2], snapshot=wrong)
        self.assertEqual(list(violations(history, crowd)), ["queries counted (51, 6) after batch 3, and (50, 6) would be right"])

    def test_commit_numbers(self) -> None:
        history = sound()
        history.writes[3] = replace(history.writes[3], commit=FIRST_COMMIT + 9)
        self.check(history, f"batch 4 has commit number {FIRST_COMMIT + 9} in run a run, and {FIRST_COMMIT + 4} would be right")
        history.writes[3] = replace(history.writes[3], is_repeated=True)
        self.check(history)


@unittest.skipUnless(BESTORED, "BESTORED names no bestored")
class Rounds(unittest.TestCase):
    """Tests that run short rounds."""

    folder = Path(BESTORED or "").parent

    def run_round(self, servers: Servers, faults: List[Fault], crowd: Optional[Crowd] = None) -> Report:
        """Runs a round in which batches are written before each fault."""
        seed = self.id() + os.environ.get("BESTORE_SEED", "")
        return run_round(servers, Given(seed, faults, BATCHES), seed, 0.01, crowd)

    def check(self, report: Report) -> None:
        """Checks that a round found no fault. On a busy machine, writes may take longer to continue."""
        self.assertEqual([*report.violations, *report.slow(3.0)], [])
        self.assertGreaterEqual(report.count(Outcome.ACKNOWLEDGED), BATCHES * len(report.waits))
        self.assertTrue(report.history.reads)

    def test_server_with_a_file(self) -> None:
        with FileServers(self.folder) as servers:
            self.check(self.run_round(servers, [KILL] * 6))
            self.check(self.run_round(servers, [KILL]))

    def test_server_with_many_nodes(self) -> None:
        """Each snapshot counts half of 300,000 nodes while others exchange some of them."""
        with FileServers(self.folder, pages=CROWDED_PAGES) as servers:
            report = self.run_round(servers, [KILL], CROWD)
            self.assertEqual(report.violations, [])
            self.assertGreaterEqual(report.count(Outcome.ACKNOWLEDGED), BATCHES)
            self.assertTrue(all(write.on.counts for write in report.history.writes))

    def test_servers_with_a_log(self) -> None:
        if programs() is None:
            self.skipTest("PostgreSQL isn't installed")
        if b"--follow" not in subprocess.run([str(BESTORED), "--help"], check=True, stdout=subprocess.PIPE).stdout:
            self.skipTest("the server has been built without a log")
        with Postgres() as postgres, LogServers(self.folder, postgres) as servers:
            self.check(self.run_round(servers, [KILL_LEADER, RESTART_DATABASE, KILL_LEADER]))

    def test_server_that_loses_writes(self) -> None:
        """The server replies before the writes are in its file."""
        with FileServers(self.folder, "--every", "3600000") as servers, mock.patch("clients.PART_READS", 0.0):
            report = self.run_round(servers, [KILL])
            self.assertTrue(any("is lost" in it or "and is batch" in it for it in report.violations), report.violations)


if __name__ == "__main__":
    unittest.main()
