"""Tests of programs that run both with a store in this process and with a server's. BESTORED names the server program; without it,
the tests are skipped."""

import os
import subprocess
import sys
import tempfile
import unittest

import bestore
from servers import BESTORED, Server

HERE = os.path.dirname(os.path.abspath(__file__))
EXAMPLES = os.path.join(HERE, "..", "examples", "python")

FOLLOWED = """
import bestore, threading
def main():
    with bestore.open() as store, bestore.prepare("MAIL:status==New && size<5") as live:
        store.apply(bestore.Batch().make_index("MAIL:status", bestore.STRING).make_index("size", bestore.INT32))
        found, seen = set(), 0
        def write(user):
            for number in range(60):
                def file(change):
                    letter = change.new()
                    change[letter].update({"MAIL:status": "New", "size": bestore.Int32(number % 7)})
                    if number % 3 == 0:
                        change[letter]["MAIL:status"] = "Read"
                    return letter
                letter = user.change(file)
                if number % 5 == 0:
                    user.remove_node(letter)
            user.close()
        writer = threading.Thread(target=write, args=(store.another(),))
        writer.start()
        is_over = False
        while not is_over:
            is_over = not writer.is_alive()
            with store.pin() as version:
                came, went = version.refresh(live)
                assert found.isdisjoint(came) and found.issuperset(went)
                found = found.union(came).difference(went)
                assert sorted(found) == version.query_prepared(live)
        for entry in store.journal_from(seen):
            print(entry.number, *entry.operations)
        print(sorted(found), version)
        try:
            store.set(1000, "size", 1)
        except bestore.NoNode as error:
            print(type(error), error)
main()
"""

FOLDER_READ = """
import os, pathlib, sys, time
import bestore
from bestore_queries.folder import INDICES, FolderReader
store = bestore.open(64, 3)
for name, kind in INDICES.items():
    store.make_index(name, kind)
reader = FolderReader(store.another(), sys.argv[1], 0.01)
reader.start()
query, names = bestore.prepare('name=="*.txt" && size>2'), {}
def follow(count):
    until = time.monotonic() + 30
    while len(names) != count and time.monotonic() < until:
        with store.pin() as version:
            came, went = version.refresh(query)
            names.update((node, version[node]["name"]) for node in came)
        for node in went:
            del names[node]
    print(sorted(names.values()))
follow(3)
pathlib.Path(sys.argv[1], "d.txt").write_text("four")
follow(4)
pathlib.Path(sys.argv[1], "a.txt").write_text("1")
follow(3)
os.unlink(os.path.join(sys.argv[1], "b.txt"))
follow(2)
reader.end()
print(reader.fault, reader.left_out)
"""


@unittest.skipUnless(BESTORED, "BESTORED names no bestored")
class Programs(unittest.TestCase):
    """Programs give the same output with a store in this process and, with one line changed, with a server's."""

    def run_program(self, folder, text, *arguments):
        path = os.path.join(folder, "program.py")
        with open(path, "w", encoding="utf-8") as file:
            file.write(text)
        environment = dict(os.environ, PYTHONPATH=os.pathsep.join([folder, EXAMPLES, HERE]))
        run = subprocess.run([sys.executable, "-W", "error", path, *arguments], stdout=subprocess.PIPE, timeout=120, check=True,
                             env=environment)
        return run.stdout.decode()

    def changed(self, text, opened, path):
        """Replaces the call in the first line that opens a store with `connect`."""
        self.assertIn(opened, text)
        return text.replace(opened, f"bestore.connect({path!r})", 1)

    def run_both_ways(self, text, opened):
        with tempfile.TemporaryDirectory() as folder, Server("--passes", 3) as server:
            server.connect().close()
            printed = self.run_program(folder, text)
            self.assertEqual(self.run_program(folder, self.changed(text, opened, server.path)), printed)
        return printed

    def test_examples(self):
        for name, opened in [("first.py", "bestore.open()"), ("counter.py", "bestore.open()")]:
            with open(os.path.join(EXAMPLES, name), encoding="utf-8") as file:
                self.assertTrue(self.run_both_ways(file.read(), opened))

    def test_unread(self):
        """The example for watches prints changes that another program writes."""
        with Server() as server, server.connect() as store:
            store.make_index("MAIL:status", bestore.STRING)
            words = [sys.executable, "-W", "error", os.path.join(EXAMPLES, "unread.py"), server.path]
            environment = dict(os.environ, PYTHONPATH=HERE)
            with subprocess.Popen(words, stdout=subprocess.PIPE, universal_newlines=True, env=environment) as program:
                store.change(lambda change: change[change.new()].update({"MAIL:status": "New"}))
                self.assertEqual(program.stdout.readline(), "came [1] went []\n")
                store.set(1, "MAIL:status", "Read")
                self.assertEqual(program.stdout.readline(), "came [] went [1]\n")
                program.kill()

    def test_followed(self):
        self.assertIn("\n73 NewNode(", self.run_both_ways(FOLLOWED, "bestore.open()"))

    def test_journal_and_another_store(self):
        """The program prints its pass's number. A server's only client gets the same number as a store's only pass in this
        process."""
        with open(os.path.join(EXAMPLES, "follow.py"), encoding="utf-8") as file:
            text = file.read()
        opened = "bestore.open(passes=1)"
        with tempfile.TemporaryDirectory() as folder, Server("--passes", 1) as server:
            server.connect().close()
            printed = self.run_program(folder, text)
            self.assertEqual(self.run_program(folder, self.changed(text, opened, server.path)), printed)

    def test_folder(self):
        """A live query follows files that a second pass writes."""
        printed = []
        for is_changed in (False, True):
            with tempfile.TemporaryDirectory() as folder, Server("--pages", 64) as server:
                server.connect().close()
                files = os.path.join(folder, "files")
                os.mkdir(files)
                for name in ("a.txt", "b.txt", "c.txt", "c.c"):
                    with open(os.path.join(files, name), "w", encoding="utf-8") as file:
                        file.write("some text")
                text = self.changed(FOLDER_READ, "bestore.open(64, 3)", server.path) if is_changed else FOLDER_READ
                printed.append(self.run_program(folder, text, files))
        self.assertEqual(printed[0], printed[1])
        self.assertEqual(printed[0].splitlines()[-2:], ["['c.txt', 'd.txt']", "None 0"])


if __name__ == "__main__":
    unittest.main()
