"""Tests of writes that depend on reads: `change`, `apply_if`, and the functions built on them."""

import functools
import sys
import threading
import unittest
from unittest import mock

import bestore

WRITERS, ROUNDS = 4, 60


def counted(store, name="count"):
    """Creates a node with a counter at 0."""
    node = store.new_node()
    store.set(node, name, 0)
    return node


class Changes(unittest.TestCase):
    def test_makes_and_reads(self):
        with bestore.open(64, 1, 100) as store:
            store.make_index("MAIL:from", bestore.STRING)

            def file(change):
                first, second = change.new(), change.new()
                change[first]["MAIL:from"] = "Ada"
                change[second].update({"MAIL:from": "Bob", "size": 5})
                self.assertEqual((change.number, change.room, first in change, second + 1 in change), (1, 59, True, False))
                self.assertEqual(repr(change), "<change at commit 1>")
                return first, second
            self.assertEqual((store.change(file), store.committed), ((1, 2), 2))
            with store.pin() as version:
                self.assertEqual((version.next_node, version.query('MAIL:from=="*"')), (3, [1, 2]))
                self.assertEqual(version.attributes(2), {"MAIL:from": "Bob", "size": 5})

    def test_reads_its_own_operations(self):
        with bestore.open(64, 1, 100) as store:
            store.apply(bestore.Batch().new_node().set(1, "a", 1).set(1, "b", 2).new_node().set(2, "a", 3))

            def edit(change):
                one = change[1]
                one["a"] += 10
                del one["b"]
                one["c"] = bestore.UInt32(7)
                self.assertEqual((dict(one), len(one)), ({"a": 11, "c": 7}, 2))
                self.assertEqual((change.get(1, "a"), change.get(1, "b"), change.kind(1, "c")), (11, None, bestore.UINT32))
                self.assertEqual(change.attributes(1, kinds=True)["c"], (7, bestore.UINT32))
                with self.assertRaises(KeyError):
                    del one["b"]
                change.remove(2)
                self.assertEqual((2 in change, change.get(2, "a"), change.nodes()), (False, None, [1, 2]))
                with self.assertRaises(bestore.NoNode):
                    change.attributes(2)
                made = change.new()
                self.assertEqual((change.get(made, "a"), dict(change[made]), made in change), (None, {}, True))
                change.remove(made)
                self.assertFalse(made in change)
            store.change(edit)
            with store.pin() as version:
                self.assertEqual((list(version), version.attributes(1)), ([1], {"a": 11, "c": 7}))

    def test_only_reads(self):
        with bestore.open(64, 1, 100) as store:
            counted(store)
            self.assertEqual(store.change(lambda change: change.get(1, "count")), 0)
            self.assertEqual((store.status().entries, store.status().oldest), (2, None))

    def test_again_when_another_write_came(self):
        with bestore.open(64, 2, 100) as store, store.another() as other:
            node, seen = counted(store), []

            def add(change):
                if len(seen) < 3:
                    other.set(node, "count", 10 * (len(seen) + 1))
                seen.append(change.get(node, "count"))
                change.set(node, "count", seen[-1] + 1)
                return len(seen)
            self.assertEqual((store.change(add), seen), (4, [0, 10, 20, 30]))
            with store.pin() as version:
                self.assertEqual(version.get(node, "count"), 31)

    def test_too_many_attempts(self):
        with bestore.open(64, 2, 100) as store, store.another() as other:
            node = counted(store)

            def disturbed(change):
                other.new_node()
                change.set(node, "count", 1)
            with self.assertRaises(bestore.TooManyAttempts) as fault:
                store.change(disturbed, attempts=5)
            conflict = fault.exception.__cause__
            self.assertEqual((fault.exception.attempts, conflict.expected, conflict.found), (5, 6, 7))
            self.assertEqual(str(fault.exception), "another write came first at each of 5 attempts; shorten the function, or allow more time (within) or more attempts")
            with store.pin() as version:
                self.assertEqual(version.get(node, "count"), 0)

    def test_fault_of_the_function(self):
        with bestore.open(64, 1, 100) as store:
            def fail(change):
                change.new()
                raise ZeroDivisionError
            with self.assertRaises(ZeroDivisionError):
                store.change(fail)
            self.assertEqual((store.status().entries, store.status().oldest, store.new_node()), (0, None, 1))

    def test_refused(self):
        with bestore.open(64, 1, 100) as store:
            with self.assertRaises(bestore.NoNode):
                store.change(lambda change: change.set(9, "a", 1))
            with self.assertRaises(bestore.BadCount):
                store.change(lambda change: [change.new() for _ in range(65)])
            self.assertEqual(store.status().entries, 0)
            self.assertEqual(store.change(lambda change: [change.new() for _ in range(64)]), list(range(1, 65)))

    def test_unpinned_by_its_function(self):
        with bestore.open(64, 3, 100) as store, store.another() as other:
            node, seen = counted(store), []

            def unpins(change, pins):
                seen.append(change.get(node, "count"))
                change.set(node, "count", 5)
                change.unpin()
                other.set(node, "count", 6)
                if pins:
                    seen.append(store.pin())
            for pins in (False, True):
                with self.assertRaises(bestore.Nested) as fault:
                    store.change(lambda change: unpins(change, pins))
            self.assertIn("a change's function wrote through the change's own pass, or unpinned it", str(fault.exception))
            self.assertEqual(seen[:2], [0, 6])
            seen.pop().unpin()
            with store.pin() as version:
                self.assertEqual((version.get(node, "count"), version.number), (6, 4))

    def test_wrong_use(self):
        with bestore.open(64, 1, 100) as store:
            for write in (store.new_node, lambda: store.change(lambda change: change.new()), lambda: store.set(1, "a", 1)):
                with self.assertRaises((bestore.Nested, bestore.Pinned)):
                    store.change(lambda change: write())
            with store.pin(), self.assertRaises(bestore.Pinned):
                store.change(lambda change: change.new())
            kept = store.change(lambda change: change)
            for use in (kept.new, lambda: kept.set(1, "a", 1), lambda: kept.get(1, "a")):
                with self.assertRaises(bestore.NotPinned):
                    use()
            self.assertEqual(store.status().entries, 0)

    def test_functions_that_a_call_doesnt_run(self):
        async def wait(change):
            change.new()

        def generate(change):
            yield change.new()

        async def generate_later(change):
            yield change.new()
        with bestore.open(64) as store:
            for function in wait, generate, generate_later, functools.partial(wait), functools.partial(functools.partial(generate)):
                with self.assertRaisesRegex(TypeError, "is async or a generator, .* a plain function"):
                    store.change(function)
            self.assertEqual((store.status().entries, store.change(lambda change: change.new())), (0, 1))

    def test_indices(self):
        with bestore.open(64, 1, 100) as store:
            def begin(change):
                change.make_index("size", bestore.INT32)
                change[change.new()]["size"] = bestore.Int32(5)
            store.change(begin)

            def turn(change):
                with self.assertRaises(bestore.WrongKind):
                    change[1]["size"] = 5
                change.remove_index("size")
                change[1]["size"] = 5
            store.change(turn)
            with store.pin() as version:
                self.assertEqual((version.indices(), version.kind(1, "size")), ({}, bestore.INT64))


class Conditions(unittest.TestCase):
    def test_apply_if(self):
        with bestore.open(64, 2, 100) as store, store.another() as other:
            batch = bestore.Batch().new_node()
            self.assertEqual((store.apply_if(0, batch), store.committed), ((1, [1]), 1))
            other.new_node()
            with self.assertRaises(bestore.Conflict) as conflict:
                store.apply_if(1, batch)
            self.assertEqual((conflict.exception.expected, conflict.exception.found, conflict.exception.number), (1, 2, 76))
            self.assertEqual(str(conflict.exception), "the journal's length isn't what the write expects (2, not 1); "
                             "read again, and base the write on that")
            self.assertEqual((store.apply_if(2, batch), store.status().entries), ((3, [3]), 3))
            for number in (-1, 2**64 + 3, 3 - 2**64):
                with self.assertRaises(bestore.Conflict) as conflict:
                    store.apply_if(number, batch)
                self.assertEqual((conflict.exception.expected, conflict.exception.found), (number, 3))

    def test_apply_if_takes_only_a_number(self):
        """None isn't the condition that always holds, and text isn't compared with every number there is."""
        with bestore.open(64, 2, 100) as store:
            for number in None, "0", 0.0:
                self.assertRaises(TypeError, store.apply_if, number, bestore.Batch().new_node())
            self.assertEqual(store.status().entries, 0)
            self.assertEqual(store.apply_if(bestore.Int64(0), bestore.Batch().new_node()), (1, [1]))

    def test_new_nodes(self):
        with bestore.open(1024, 1, 100) as store:
            self.assertEqual((store.new_nodes(0), store.new_nodes(150), store.status().entries), ([], list(range(1, 151)), 3))
            with self.assertRaises(ValueError):
                store.new_nodes(-1)


class Kinds(unittest.TestCase):
    def test_classes(self):
        with bestore.open(64, 1, 100) as store:
            store.new_node()
            for cls, kind, value in [
                (bestore.Int32, bestore.INT32, -(2**31)), (bestore.Int64, bestore.INT64, -(2**63)),
                (bestore.UInt32, bestore.UINT32, 2**32 - 1), (bestore.UInt64, bestore.UINT64, 2**64 - 1),
            ]:
                store.set(1, kind.name, cls(value))
                self.assertEqual((cls(value), cls(value) + 1, cls.kind, str(cls(5))), (value, value + 1, kind, "5"))
                for outside in (2**64, -(2**63) - 1):
                    with self.assertRaises(bestore.NoValue):
                        cls(outside)
                with store.pin() as version:
                    self.assertEqual((version.kind(1, kind.name), version.get(1, kind.name)), (kind, value))
            store.set(1, "said", bestore.Int32(5), bestore.UINT64)
            with store.pin() as version:
                kinds = version.kind(1, "said"), version.kind(1, "none"), version.kind(2, "said")
                self.assertEqual(kinds, (bestore.UINT64, None, None))
                self.assertEqual(version.typed(1, "said"), (5, bestore.UINT64))
                self.assertEqual(version.attributes(1, kinds=True)["INT32"], bestore.Typed(-(2**31), bestore.INT32))

    def test_wrong_kind(self):
        """A value whose index has another kind is refused, and the message names both kinds."""
        with bestore.open(64, 1, 100) as store:
            store.make_index("size", bestore.INT32)
            store.make_index("name", bestore.STRING)
            store.new_node()
            for name, value, kind, index in [
                ("size", (5,), "INT64", "INT32"), ("size", (bestore.UInt32(5),), "UINT32", "INT32"), ("size", ("5",), "STRING", "INT32"),
                ("size", (b"5",), "RAW", "INT32"), ("size", ("5", bestore.MIME), "MIME", "INT32"), ("name", (5,), "INT64", "STRING"),
                ("name", (b"ann",), "RAW", "STRING"), ("name", ("text/plain", bestore.MIME), "MIME", "STRING"),
            ]:
                with self.subTest(name=name, value=value), self.assertRaises(bestore.WrongKind) as fault:
                    store.change(lambda change: change.set(1, name, *value))
                self.assertEqual((fault.exception.name, fault.exception.kind, fault.exception.index_kind), (name, kind, index))
                self.assertEqual(str(fault.exception), f'the index "{name}" takes values of kind {index}, and this one is {kind}: '
                                 f"set it as {index}, or no query finds it")
            for name, value in (("name", 5), ("size", "a text")):
                with self.assertRaises(bestore.WrongKind):
                    store.change(lambda change: change[1].update({name: value}))
            store.change(lambda change: change.set(1, "size", "a text"), check_kinds=False)
            store.change(lambda change: change.set(1, "other", b"any kind"))
            for value in ((bestore.Int32(7),), (8, bestore.INT32)):
                store.change(lambda change: change.set(1, "size", *value))
                with store.pin() as version:
                    self.assertEqual(version.query("size>=7"), [1])


class Reindexing(unittest.TestCase):
    def test_sets_again(self):
        with bestore.open(1024, 1, 1000) as store:
            for node in store.new_nodes(200):
                store.set(node, "size", node)
            store.set(7, "size", 7, bestore.INT32)
            store.remove_node(9)
            store.make_index("size", bestore.INT64)
            store.set(3, "size", 1000)
            with store.pin() as version:
                self.assertEqual((version.query("size>0"), version.pairs("size")), ([3], 1))
            self.assertEqual((store.reindex("size"), store.reindex("size")), (197, 0))
            with store.pin() as version:
                self.assertEqual(version.query("size>0"), [node for node in range(1, 201) if node not in (7, 9)])
                self.assertEqual((version.query("size==1000"), version.kind(7, "size")), ([3], bestore.INT32))
            with self.assertRaises(bestore.NoIndex):
                store.reindex("name")

    def test_beside_a_writer(self):
        """A value that another pass sets in the meantime isn't overwritten."""
        with bestore.open(4096, 2, 100000) as store, store.another() as other:
            nodes = store.new_nodes(100)
            for node in nodes:
                store.set(node, "size", 0)
            store.make_index("size", bestore.INT64)

            def write():
                for number in range(1, 4):
                    for node in nodes:
                        other.set(node, "size", number)
            running = threading.Thread(target=write)
            running.start()
            store.reindex("size")
            running.join()
            with store.pin() as version:
                self.assertEqual(version.query("size==3"), nodes)


class Writers(unittest.TestCase):
    """Four threads create nodes with two attributes, adding 1 to a shared counter each time. They switch as often as possible."""

    def setUp(self):
        self.addCleanup(sys.setswitchinterval, sys.getswitchinterval())
        sys.setswitchinterval(1e-6)

    def run_writers(self, write):
        with bestore.open(4096, WRITERS + 1, 1000000) as store:
            counter, faults = counted(store), []
            passes = [store.another() for _ in range(WRITERS)]

            def work(user):
                try:
                    for number in range(ROUNDS):
                        write(user, counter, f"{user.number}.{number}")
                except bestore.Error as error:
                    faults.append(error)
            running = [threading.Thread(target=work, args=(user,)) for user in passes]
            for thread in running:
                thread.start()
            for thread in running:
                thread.join()
            self.assertEqual(faults, [])
            with store.pin() as version:
                nodes = [version.attributes(node) for node in version if node != counter]
                mixed = sum(attributes.get("from") != attributes.get("by") or not attributes for attributes in nodes)
                return mixed, WRITERS * ROUNDS - version.get(counter, "count"), len(nodes)

    def test_change(self):
        def write(user, counter, name):
            def file(change):
                node = change.new()
                change[node].update({"from": name, "by": name})
                change[counter]["count"] += 1
            user.change(file)
        self.assertEqual(self.run_writers(write), (0, 0, WRITERS * ROUNDS))

    def test_guess(self):
        """Guessing the next node number mixes nodes up. A plain `set` of a value that depends on a read loses increments."""
        def write(user, counter, name):
            with user.pin() as version:
                node, count = version.next_node, version.get(counter, "count")
            user.apply(bestore.Batch().new_node().set(node, "from", name))
            user.apply(bestore.Batch().set(node, "by", name).set(counter, "count", count + 1))
        mixed = lost = 0
        for _ in range(10):
            if mixed == 0 or lost == 0:
                found = self.run_writers(write)
                mixed, lost = mixed + found[0], lost + found[1]
                self.assertEqual(found[2], WRITERS * ROUNDS)
        if mixed == 0 or lost == 0:
            print(f"with guesses {mixed} nodes were mixed up and {lost} increments lost: one of the races didn't happen this time")


class AtFull(unittest.TestCase):
    def fill(self, store):
        """Writes until no page is free, while another pass is pinned."""
        with self.assertRaises(bestore.Full):
            for _ in range(1000):
                store.apply(bestore.Batch().new_node(), tries=1)

    def test_waits_for_another_pass(self):
        with bestore.open(16, 2, 10000) as store, store.another() as reader:
            version = reader.pin()
            self.fill(store)
            timer = threading.Timer(0.1, version.unpin)
            timer.start()
            node = store.new_node()
            timer.join()
            self.assertIsNone(store.status().oldest)
            reader_version = reader.pin()
            self.fill(store)
            timer = threading.Timer(0.1, reader_version.unpin)
            timer.start()
            self.assertGreater(store.change(lambda change: change.new()), node)
            timer.join()

    def test_never_for_itself(self):
        with bestore.open(16, 2, 10000) as store, store.another() as other, store.pin():
            self.fill(other)
            with mock.patch("time.sleep", side_effect=AssertionError("it waits for itself")), self.assertRaises(bestore.Full):
                store.new_node()

    def test_really_full(self):
        with bestore.open(8, 2, 10000) as store, self.assertRaises(bestore.Full) as full:
            for _ in range(1000):
                store.new_nodes(64)
        self.assertIsNotNone(full.exception.least)

    def test_waits_no_longer_than_that(self):
        with bestore.open(16, 2, 10000) as store, store.another() as reader, reader.pin():
            self.fill(store)
            with mock.patch("time.monotonic", side_effect=range(100)), mock.patch("time.sleep") as sleep, self.assertRaises(bestore.Full):
                store.apply(bestore.Batch().new_node(), within=20)
            self.assertEqual(sleep.call_count, 20)
            self.assertLessEqual(max(call.args[0] for call in sleep.call_args_list), 0.001)


if __name__ == "__main__":
    unittest.main()
