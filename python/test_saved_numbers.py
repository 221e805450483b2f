"""Tests of store files whose entries have the highest possible numbers."""

import bestore
from bestore import saved
from saved_files import Files, sql, three, to_format

LAST = 2**63 - 1


class Numbers(Files):
    def has_entries(self, number: int) -> None:
        """Makes the file say that its state includes the entries up to this number."""
        to_format(self.path, 1)
        sql(self.path, f"UPDATE about SET number = {number} WHERE what = 'entries'")

    def test_writes_end(self) -> None:
        three(self.path)
        saved.open(self.path, 64).close()
        self.has_entries(LAST - 2)
        with saved.open(self.path, 64) as store:
            for number in (LAST - 1, LAST):
                self.assertEqual(store.number_in_file(store.apply(bestore.Batch().new_node())[0]), number)
            self.assertRaises(bestore.CommitsSpent, store.new_node)
        with saved.open(self.path, 64) as store:
            with store.pin() as version:
                self.assertEqual(version.nodes(), [1, 2, 3, 4, 5])
            self.assertRaises(bestore.CommitsSpent, store.new_node)
        self.assertEqual(self.refusal().place, f"entry {LAST}")

    def test_limit_of_the_caller(self) -> None:
        """A lower limit from the caller still applies."""
        three(self.path)
        saved.open(self.path, 64).close()
        self.has_entries(LAST - 2)
        with saved.open(self.path, 64, commits=1) as store:
            store.new_node()
            self.assertRaises(bestore.CommitsSpent, store.new_node)

    def test_nothing_left(self) -> None:
        saved.open(self.path, 64).close()
        self.has_entries(LAST)
        refused = self.refusal()
        self.assertIsInstance(refused, saved.TooLarge)
        self.assertEqual(refused.place, f"entry {LAST}")
        self.assertIsInstance(refused.__cause__, bestore.CommitsSpent)
