"""Tests of a server's socket: where it is, who may own the server, and how long connecting takes."""

import contextlib
import errno
import os
import socket
import tempfile
import unittest
from unittest import mock

import bestore
from bestore import _connection
from bestore.connected import SocketPath
from test_broken_servers import HELLO, PATIENCE, Fake, line

ANOTHER = 65534  # a user that runs nothing here


@contextlib.contextmanager
def variables(**named):
    """Sets the environment variables that determine the socket's path: these and no others."""
    with mock.patch.dict(os.environ):
        for name in "BESTORE_SOCKET", "XDG_RUNTIME_DIR":
            os.environ.pop(name, None)
        os.environ.update({name: value for name, value in named.items() if value is not None})
        yield


class Paths(unittest.TestCase):
    def test_each_variable_may_be_set_empty_relative_or_missing(self):
        folder = "/run/user/7/bestore/socket"
        for named, runtime, path, is_named in [
            ("/a", "/run/user/7", "/a", True), ("/a", "run", "/a", True), ("/a", "", "/a", True), ("/a", None, "/a", True),
            ("a", "/run/user/7", "a", True), ("a", None, "a", True),
            ("", "/run/user/7", folder, False), ("", "", "/tmp/bestore-7/socket", False),
            (None, "/run/user/7", folder, False), (None, "run/user/7", "/tmp/bestore-7/socket", False),
            (None, "", "/tmp/bestore-7/socket", False), (None, None, "/tmp/bestore-7/socket", False),
        ]:
            with variables(BESTORE_SOCKET=named, XDG_RUNTIME_DIR=runtime), mock.patch.object(os, "geteuid", lambda: 7):
                with self.subTest(BESTORE_SOCKET=named, XDG_RUNTIME_DIR=runtime):
                    self.assertEqual(SocketPath.find(), SocketPath(path, is_named))
                    for option in "b", b"b":
                        self.assertEqual(SocketPath.find(option), SocketPath("b", True))
        self.assertEqual((str(SocketPath("a", True)), os.fspath(SocketPath("a", False))), ("a", "a"))

    def test_connect(self):
        with Fake() as fake, variables(BESTORE_SOCKET=fake.path), bestore.connect() as store:
            self.assertEqual(store.path, fake.path)


class Users(unittest.TestCase):
    """At a default path, the server must belong to the same user or to root."""

    @contextlib.contextmanager
    def default(self, fake, user):
        """Places `fake` at the default path, as if this user ran it."""
        with tempfile.TemporaryDirectory() as folder, variables(XDG_RUNTIME_DIR=folder):
            os.mkdir(os.path.join(folder, "bestore"))
            path = os.path.join(folder, "bestore", "socket")
            os.symlink(fake.path, path)
            with mock.patch.object(_connection, "peer_user", lambda connected: user):
                yield path

    def test_another_user(self):
        own = os.geteuid()
        with Fake() as fake, self.default(fake, own + 1) as path:
            with self.assertRaises(bestore.OtherUser) as fault:
                bestore.connect()
            error = fault.exception
            self.assertEqual((error.path, error.server_user, error.user, fake.asked), (path, own + 1, own, []))
            self.assertIsInstance(error, PermissionError)
            self.assertEqual(str(error), f"{path}: the server runs as user {own + 1}, and has to run as user {own} or as root; "
                             "BESTORE_SOCKET or a parameter can name the socket of a server that you trust")
            with variables(BESTORE_SOCKET=path):
                bestore.connect().close()
            bestore.connect(path).close()

    def test_no_permission(self):
        refused = PermissionError(errno.EACCES, os.strerror(errno.EACCES))
        with mock.patch.object(_connection, "_connects", side_effect=refused), self.assertRaises(bestore.NoServer) as fault:
            bestore.connect("p")
        self.assertEqual(str(fault.exception), "p: no server can be reached: Permission denied; only the server's own user and root "
                         "may connect")

    def test_no_descriptor(self):
        spent = OSError(errno.EMFILE, os.strerror(errno.EMFILE))
        with mock.patch.object(_connection.socket, "socket", side_effect=spent), self.assertRaises(bestore.NoServer) as fault:
            bestore.connect("p")
        self.assertEqual(str(fault.exception), "p: no server can be reached: Too many open files; close some files, or allow more with "
                         "`ulimit -n`")

    def test_long_path(self):
        for path, advice in ("p" * 107, "start it with `bestored --background`"), ("p" * 108, "a socket's path can have up to 107 bytes"):
            with self.assertRaises(bestore.NoServer) as fault:
                bestore.connect(path)
            self.assertTrue(str(fault.exception).endswith(f"; {advice}"), fault.exception)

    def test_own_user_and_root(self):
        for user in os.geteuid(), 0:
            with Fake([line(2, HELLO)]) as fake, self.default(fake, user), bestore.connect() as store:
                store._check_process()

    def test_another_pass(self):
        with Fake() as fake, self.default(fake, os.geteuid()), bestore.connect() as store:
            with mock.patch.object(_connection, "peer_user", lambda connected: os.geteuid() + 1):
                self.assertRaises(bestore.OtherUser, store.another)

    def test_user_of_a_server(self):
        with Fake() as fake, socket.socket(socket.AF_UNIX) as connected:
            connected.connect(fake.path)
            self.assertEqual(_connection.peer_user(connected), os.geteuid())

    @unittest.skipUnless(os.geteuid() == 0, "only root can start a server as another user")
    def test_process_of_another_user(self):
        with socket.socket(socket.AF_UNIX) as listening, tempfile.TemporaryDirectory() as folder:
            path = os.path.join(folder, "socket")
            listening.bind(path)
            ready, is_ready = os.pipe()
            child = os.fork()
            if child == 0:
                os.setuid(ANOTHER)
                listening.listen()
                os.write(is_ready, b"1")
                os._exit(0)
            os.waitpid(child, 0)
            self.assertEqual(os.read(ready, 1), b"1")
            os.close(ready)
            os.close(is_ready)
            with socket.socket(socket.AF_UNIX) as connected:
                connected.connect(path)
                self.assertEqual(_connection.peer_user(connected), ANOTHER)


class Times(unittest.TestCase):
    """Connecting to a server that accepts no connections and has room for only one pending connection."""

    def setUp(self):
        folder = tempfile.TemporaryDirectory()
        self.addCleanup(folder.cleanup)
        self.path = os.path.join(folder.name, "socket")
        self.listening = socket.socket(socket.AF_UNIX)
        self.addCleanup(self.listening.close)
        self.listening.bind(self.path)
        self.listening.listen(0)
        self.waiting = socket.socket(socket.AF_UNIX)
        self.addCleanup(self.waiting.close)
        self.waiting.connect(self.path)

    def test_connecting_ends(self):
        with self.assertRaises(bestore.TimedOut) as fault:
            bestore.connect(self.path, timeout=0.05)
        self.assertEqual(str(fault.exception), f"{self.path}: the server accepted no connection within 0.05 seconds")
        self.assertFalse(fault.exception.may_be_done)

    def test_connecting_waits(self):
        """Connecting succeeds once the server has accepted the previous connection."""
        pause = mock.Mock(side_effect=lambda seconds: self.listening.accept()[0].close())
        with mock.patch.object(_connection.time, "sleep", pause):
            connected = _connection._socket_to(self.path, PATIENCE)
        self.addCleanup(connected.close)
        self.assertEqual((connected.getpeername(), pause.call_count), (self.path, 1))


if __name__ == "__main__":
    unittest.main()
