"""Tests of starting the window: its command line, and failure to start its own server."""

from __future__ import annotations

import os
import stat
import subprocess
import sys
import tempfile
import unittest
from typing import Tuple
from unittest import mock

from bestore_queries import desktop
from bestore_queries.own_server import CannotStart, kept_path
from bestore_queries.sources import ServerSource, size_for

from common import HAS_TK, OnDisplay, write


def run(*words: str, display: bool = True) -> Tuple[int, str]:
    """Runs the command, and returns its status and what it wrote to standard error."""
    environment = {name: value for name, value in os.environ.items() if display or name != "DISPLAY"}
    done = subprocess.run([sys.executable, "-m", "bestore_queries", *words], stdout=subprocess.DEVNULL, stderr=subprocess.PIPE,
                          env=environment, timeout=60)
    return done.returncode, done.stderr.decode()


class CommandLine(unittest.TestCase):
    def test_words(self) -> None:
        self.assertEqual(run("--help"), (0, ""))
        for words in (["--socket", "a", "--folder", "b"], ["--none"], ["a", "b"], ["--dark", "--light"]):
            self.assertEqual(run(*words)[0], 2)

    @unittest.skipUnless(HAS_TK, "python3 has no Tk")
    def test_no_display(self) -> None:
        status, said = run("--folder", "/", display=False)
        self.assertEqual((status, said.startswith("bestore-queries: no display")), (1, True), said)


class OnItsDisplay(OnDisplay):
    def test_no_folder(self) -> None:
        self.assertEqual(run("--folder", "/none"), (1, "bestore-queries: /none isn't a folder\n"))

    def test_no_size(self) -> None:
        status, said = run("--folder", "/", "--geometry", "wide")
        self.assertEqual((status, "bad geometry" in said), (1, True), said)


class OwnServer(unittest.TestCase):
    def setUp(self) -> None:
        place = tempfile.TemporaryDirectory()
        self.addCleanup(place.cleanup)
        self.folder = place.name
        changed = {"PATH": self.folder, "BESTORE_SOCKET": f"{self.folder}/socket", "XDG_DATA_HOME": f"{self.folder}/data"}
        patched = mock.patch.dict(os.environ, changed)
        patched.start()
        self.addCleanup(patched.stop)

    def test_no_program(self) -> None:
        with self.assertRaisesRegex(CannotStart, "no server listens at .*/socket, and the program bestored isn't installed"):
            ServerSource()

    def test_program_that_ends(self) -> None:
        program = os.path.join(self.folder, "bestored")
        write(program, "#!/bin/sh\necho the file is held >&2\nexit 1\n")
        os.chmod(program, stat.S_IRWXU)
        with self.assertRaisesRegex(CannotStart, "bestored ended at once: the file is held"):
            ServerSource()

    def test_paths(self) -> None:
        self.assertEqual(kept_path(), f"{self.folder}/data/bestore/store.bestore")


class Desktop(unittest.TestCase):
    """What the desktop says about dark windows, as far as its programs can be asked."""

    def prefers_dark(self, *programs: Tuple[str, str], **variables: str) -> bool:
        """Returns what is found with these programs, each of which has a name and prints a text."""
        with tempfile.TemporaryDirectory() as folder:
            for name, text in programs:
                write(os.path.join(folder, name), f"#!/bin/sh\n{text}\n")
                os.chmod(os.path.join(folder, name), stat.S_IRWXU)
            bus = {"DBUS_SESSION_BUS_ADDRESS": "unix:path=/none", "PATH": folder, "GTK_THEME": "", "XDG_RUNTIME_DIR": folder, **variables}
            with mock.patch.dict(os.environ, bus):
                return desktop.prefers_dark()

    def test_asked(self) -> None:
        portal, settings = ("gdbus", "echo '(<<uint32 1>>,)'"), ("gsettings", "echo \"'prefer-dark'\"")
        light = ("gdbus", "echo '(<<uint32 0>>,)'")
        fails = ("gdbus", "echo '(<<uint32 1>>,)'; exit 1")
        for programs, is_dark in [((portal,), True), ((settings,), True), ((light, settings), True), ((light,), False), ((), False),
                                  ((fails,), False), ((("gdbus", "exit 1"), ("gsettings", "echo default")), False)]:
            self.assertEqual(self.prefers_dark(*programs), is_dark, programs)

    def test_not_asked(self) -> None:
        """A theme that is chosen by a variable counts, and without a bus nothing is asked."""
        portal = ("gdbus", "echo '(<<uint32 1>>,)'")
        for theme, is_dark in (("Adwaita:dark", True), ("Arc-Dark", True), ("Adwaita", False)):
            self.assertEqual(self.prefers_dark(portal, GTK_THEME=theme), is_dark, theme)
        self.assertFalse(self.prefers_dark(portal, DBUS_SESSION_BUS_ADDRESS=""))

    def test_no_reply(self) -> None:
        with mock.patch.object(desktop, "PATIENCE", 0.05):
            self.assertFalse(self.prefers_dark(("gdbus", "exec /bin/sleep 20"), ("gsettings", "exec /bin/sleep 20")))


class Sizes(unittest.TestCase):
    def test_size(self) -> None:
        """A folder's store has room for a third more files, but never more than a store can have."""
        for files in (0, 1, 1_000, 15_000, 60_000, 500_000):
            self.assertTrue(max(8, files * 1.1 * 1.3) <= size_for(files) <= 16_777_216, size_for(files))
        self.assertEqual(size_for(10**9), 16_777_216)


if __name__ == "__main__":
    unittest.main()
