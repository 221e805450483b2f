"""Runs the cases in tests/changes.txt, which specify what a change does in each language."""

import os
import unittest

import bestore

CASES = os.path.join(os.path.dirname(os.path.abspath(__file__)), "..", "tests", "changes.txt")


def cases():
    """Returns the lines of each case, by title."""
    found = {}
    with open(CASES, encoding="utf-8") as file:
        for line in file:
            words = line.split()
            if words[:1] == ["case"]:
                lines = found[" ".join(words[1:])] = []
            elif words and words[0] != "#":
                lines.append(words)
    return found


def value_of(kind, text):
    """Converts a string to a value of this kind. LONG64 stands for a string of 64 bytes."""
    if text.startswith("LONG"):
        text = "x" * int(text[4:])
    if kind in ("STRING", "MIME"):
        return text
    return text.encode() if kind == "RAW" else int(text)


def collect(target, words):
    """Adds an operation to a change, or writes it through a pass."""
    what, *rest = words
    if what == "new":
        node = target.new() if isinstance(target, bestore.Change) else target.new_node()
        assert node == int(rest[0]), node
    elif what == "remove":
        target.remove(int(rest[0]))
    elif what == "set":
        kind = bestore.Kind[rest[2]]
        target.set(int(rest[0]), str(value_of("STRING", rest[1])), value_of(rest[2], rest[3]), kind)
    elif what == "unset":
        target.unset(int(rest[0]), rest[1])
    elif what == "index":
        target.make_index(rest[0], bestore.Kind[rest[1]])
    else:
        assert what == "unindex", what
        target.remove_index(rest[0])


class Case:
    """A store, and the steps that a case's lines take on it."""

    def __init__(self, test, store, other):
        self.test, self.store, self.other = test, store, other

    def run(self, lines):
        left = iter(lines)
        for words in left:
            if words[0] == "begin":
                inner = []
                for words in left:
                    if words[0] == "end":
                        break
                    inner.append(words)
                self.change(inner, words[1:])
            elif words[0] == "found":
                with self.store.pin() as version:
                    self.test.assertEqual(version.query(words[1]), [int(word) for word in words[2:]])
            elif words[0] == "entries":
                self.test.assertEqual(self.store.status().entries, int(words[1]))
            else:
                self.test.assertEqual(words[0], "write")
                collect(self.other, words[1:])

    def change(self, lines, end):
        """Runs the lines in a change with a single attempt."""
        numbers = []

        def function(change):
            for words in lines:
                self.step(change, words)
            numbers.append(change.number + (change.room < 64))
        try:
            self.store.change(function, attempts=1)
        except (bestore.Refusal, bestore.TooManyAttempts) as error:
            refusal = error.__cause__ if isinstance(error, bestore.TooManyAttempts) else error
            self.test.assertEqual(["!", bestore.ErrorNumber(refusal.number).name], end)
        else:
            self.test.assertEqual([str(number) for number in numbers], end)
            with self.store.pin() as version:
                self.test.assertEqual(version.number, self.store.status().entries)

    def step(self, change, words):
        """Runs a line inside a change."""
        if words[0] == "write":
            collect(self.other, words[1:])
        elif words[0] == "fill":
            while 64 - change.room < int(words[1]):
                change.new()
        elif words[0] == "get":
            typed = change.typed(int(words[1]), words[2])
            expected = None if words[3] == "none" else (value_of(*words[3:]), bestore.Kind[words[3]])
            self.test.assertEqual(typed, expected, words)
            self.test.assertEqual(change.get(int(words[1]), words[2]), None if expected is None else expected[0])
        elif words[0] == "any_kind":
            change._snapshot._take_any_kind()
        elif "!" in words:
            self.refused(change, words[:words.index("!")], words[words.index("!") + 1:])
        else:
            collect(change, words)

    def refused(self, change, words, error):
        """Checks that an operation is refused and that the change doesn't collect it."""
        before = change.room
        with self.test.assertRaises(bestore.Error, msg=words) as fault:
            collect(change, words)
        if isinstance(fault.exception, bestore.WrongKind):
            self.test.assertEqual(["WRONG_KIND", fault.exception.index_kind], error, words)
        else:
            self.test.assertEqual([bestore.ErrorNumber(fault.exception.number).name], error, words)
        self.test.assertEqual(change.room, before)


class Cases(unittest.TestCase):
    def test_cases(self):
        for text, lines in cases().items():
            with self.subTest(text), bestore.open(256, 2, 1000) as store, store.another() as other:
                Case(self, store, other).run(lines)


if __name__ == "__main__":
    unittest.main()
