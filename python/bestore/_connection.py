"""A connection to a server: requests and replies of one line each, and the lines that the server pushes in between."""

from __future__ import annotations

import errno
import os
import select
import socket
import struct
import time
from contextlib import suppress
from typing import Callable, NoReturn, Optional, Tuple, Type, TypeVar
from weakref import WeakSet

from ._connected_errors import (
    BrokenConnection, Disconnected, LineTooLong, NoServer, OtherUser, ProtocolError, TimedOut, error_of)
from ._socket_path import SocketPath
from ._wire import JSON, MOST_BYTES, MOST_BYTES_OF_A_REPLY, decode_line, encode_request
from .errors import Error

_Result = TypeVar("_Result")

_ROOM = 1 << 16  # how many bytes are received at a time
_AGAIN = 0.01  # seconds between attempts to connect
_LONGEST = 2_000_000.0  # seconds; the system's clocks don't go much further, so a longer timeout means no limit
_LONGEST_PATH = 107  # bytes in a socket's path
_CLOSED = "the server closed the connection"
_INTERRUPTED = "an earlier call was interrupted"
_CLOSING = ("LineTooLong", "Timeout")  # errors after which the server closes the connection


def _limited(timeout: Optional[float]) -> Optional[float]:
    """Returns a timeout in the form that system calls accept. Raises a ValueError if it isn't a number."""
    if timeout != timeout:
        raise ValueError(f"a timeout can't be {timeout} seconds")
    return None if timeout is None or timeout > _LONGEST else timeout


def _socket_to(path: str, timeout: Optional[float]) -> socket.socket:
    """Returns a connected socket. The timeout for connecting, and for each later call on the socket, is `timeout` seconds."""
    try:
        connected = socket.socket(socket.AF_UNIX, socket.SOCK_STREAM)
    except OSError as error:
        raise _no_server(path, error) from error
    try:
        connected.settimeout(timeout)
        until = None if timeout is None else time.monotonic() + timeout
        while not _connects(connected, path):
            if until is not None and time.monotonic() > until:
                raise TimedOut(path, f"the server accepted no connection within {timeout:g} seconds")
            time.sleep(_AGAIN)
    except OSError as error:
        connected.close()
        if isinstance(error, TimedOut):
            raise
        raise _no_server(path, error) from error
    except BaseException:
        connected.close()
        raise
    return connected


def _no_server(path: str, error: OSError) -> NoServer:
    """Returns the error for a server that can't be reached, for a reason that the system gave."""
    reason = error.strerror or str(error)
    if isinstance(error, PermissionError):
        return NoServer(path, reason, "only the server's own user and root may connect")
    if error.errno in (errno.EMFILE, errno.ENFILE):
        return NoServer(path, reason, "close some files, or allow more with `ulimit -n`")
    if len(os.fsencode(path)) > _LONGEST_PATH:
        return NoServer(path, reason, f"a socket's path can have up to {_LONGEST_PATH} bytes")
    return NoServer(path, reason)


def _connects(connected: socket.socket, path: str) -> bool:
    """Connects, unless the server's queue of pending connections is full. Returns whether it connected."""
    try:
        connected.connect(path)
    except BlockingIOError:
        return False
    return True


def peer_user(connected: socket.socket) -> int:
    """Returns the user that the server was running as when it began to listen."""
    credentials = struct.Struct("iII")  # the process, the user and the group
    user: int = credentials.unpack(connected.getsockopt(socket.SOL_SOCKET, socket.SO_PEERCRED, credentials.size))[1]
    return user


def _check_user(connected: socket.socket, path: str) -> None:
    """Raises `OtherUser` if the server runs neither as this process's user nor as root."""
    server, user = peer_user(connected), os.geteuid()
    if server not in (user, 0):
        connected.close()
        raise OtherUser(path, server, user)


def _can_receive(connected: socket.socket, until: Optional[float], bell: Optional[socket.socket] = None) -> bool:
    """Waits for data until the time `until`, or forever if `until` is None, or until `bell` has something to read. Returns whether
    data can be received."""
    polled, own = select.poll(), connected.fileno()
    polled.register(own, select.POLLIN)
    if bell is not None:
        polled.register(bell, select.POLLIN)
    found = polled.poll(None if until is None else max(until - time.monotonic(), 0) * 1000)
    return own in dict(found)


class Connection:
    """A connection, used for one call at a time. If a call is interrupted or a line can't be read, there is no way to know
    which line comes next, so the connection is closed. An interrupt that comes while nothing is arriving leaves the connection
    open."""

    def __init__(self, path: SocketPath, timeout: Optional[float], take_push: Callable[[JSON], None]) -> None:
        self.path, self._timeout, self._take_push = path.path, _limited(timeout), take_push
        self._socket: Optional[socket.socket] = _socket_to(self.path, self._timeout)
        if not path.is_named:
            _check_user(self._socket, self.path)
        self._reason = "the connection is closed"  # why there is no socket
        self._last = 0  # the number of the last request
        self._received, self._searched = bytearray(), 0  # the received bytes, and how many of them contain no line end
        self._bell: Optional[Tuple[socket.socket, socket.socket]] = None  # connected sockets, by which other threads end a wait
        self._is_rung = False
        _open.add(self)

    @property
    def is_open(self) -> bool:
        """Whether calls can be made."""
        return self._socket is not None

    def fileno(self) -> int:
        """Returns the socket's descriptor."""
        return self._live_socket().fileno()

    def _live_socket(self) -> socket.socket:
        if self._socket is None:
            raise Disconnected(self.path, self._reason)
        return self._socket

    def close(self) -> None:
        """Ends the connection, even if a forked child has a copy of the socket."""
        if self._socket is not None:
            with suppress(OSError):
                self._socket.shutdown(socket.SHUT_RDWR)
            self.drop("the connection is closed")

    def drop(self, reason: str) -> None:
        """Closes only this process's socket."""
        dropped, self._socket, self._reason = self._socket, None, reason
        bell, self._bell = self._bell, None
        for used in (dropped, *(bell or ())):
            if used is not None:
                used.close()

    def _fail(self, error: Exception, may_be_done: bool = False) -> NoReturn:
        """Closes the connection, and raises an error that states the reason."""
        failed: Type[BrokenConnection] = Disconnected
        if isinstance(error, socket.timeout) and self._timeout is not None:
            failed, reason = TimedOut, f"no reply within {self._timeout:g} seconds"
        elif isinstance(error, EOFError):
            reason = str(error)
        elif isinstance(error, (BrokenPipeError, ConnectionResetError)):
            reason = _CLOSED
        elif isinstance(error, (OSError, ValueError)) and self._socket is None:
            reason = self._reason  # a signal handler has closed the connection during the call
        elif isinstance(error, OSError):
            reason = f"the connection failed: {error}"
        else:
            failed, reason = ProtocolError, f"the server sent a line that doesn't follow the protocol: {error}"
        self.drop(reason)
        raise failed(self.path, reason, may_be_done) from (None if reason == _CLOSED or failed is TimedOut else error)

    def ask(self, command: str, parameters: JSON, read: Callable[[JSON], _Result], is_write: bool = False,
            query: Optional[str] = None) -> _Result:
        """Sends a request, and returns what `read` returns for the reply. `query` is the text to show in errors."""
        connected = self._live_socket()
        self._last += 1
        line = encode_request(self._last, command, parameters)
        if len(line) > MOST_BYTES:
            raise LineTooLong(self.path, len(line))
        is_sent = False
        try:
            with suppress(BrokenPipeError, ConnectionResetError):  # the server may have said why it closed the connection
                connected.sendall(line)
                is_sent = True
            reply = self._reply(connected, query)
            if "ok" in reply:
                return read(reply["ok"])
        except Error as error:  # the server sends this error before it closes the connection
            self.drop(str(error))
            raise
        except (OSError, EOFError, ArithmeticError, LookupError, TypeError, ValueError) as error:
            self._fail(error, is_write and is_sent)
        except BaseException:
            self.drop(_INTERRUPTED)
            raise
        raise error_of(self.path, reply["error"], query)

    def _reply(self, connected: socket.socket, query: Optional[str]) -> JSON:
        """Returns the reply to the last request. Also handles lines that are pushed before the reply."""
        until, is_late = None if self._timeout is None else time.monotonic() + self._timeout, False
        while True:
            line = self._take_line()
            while line is None:
                if is_late and not _can_receive(connected, until):  # the first receive waits by itself
                    raise socket.timeout
                line, is_late = self._receive(connected.recv(_ROOM)), True
            reply = decode_line(line)
            if reply.get("id") == self._last and ("ok" in reply or isinstance(reply.get("error"), dict)):
                return reply
            self._take_other(reply, query)

    def _receive(self, received: bytes) -> Optional[bytes]:
        """Buffers the received bytes, and returns a line if one is complete."""
        if not received:
            raise EOFError(f"{_CLOSED} within a line" if self._received else _CLOSED)
        if not self._received and received.find(b"\n") == len(received) - 1:
            return received
        self._received += received
        return self._take_line()

    def _take_line(self) -> Optional[bytes]:
        """Returns the next line, if it has been received."""
        if not self._received:
            return None
        end = self._received.find(b"\n", self._searched) + 1
        if end == 0:
            self._searched = len(self._received)
            if self._searched > MOST_BYTES_OF_A_REPLY:
                raise ValueError("it is too long")
            return None
        line = bytes(memoryview(self._received)[:end])
        del self._received[:end]
        self._searched = 0
        return line

    def _take_other(self, line: JSON, query: Optional[str]) -> None:
        """Handles a line that isn't the reply to the last request: a pushed line, or an error after which the server closes the
        connection."""
        if "id" not in line and isinstance(line.get("watch"), int):
            self._take_push(line)
            return
        error = line.get("error")
        if line.get("id", 0) is not None or not isinstance(error, dict):
            raise ValueError("it isn't a reply to this request")
        if error.get("name") in _CLOSING:
            raise EOFError(f"{_CLOSED}: {error.get('message')}")
        raise error_of(self.path, error, query)

    def ring(self) -> None:
        """Ends another thread's wait for pushes, or its next one, so that the thread looks at what has changed here."""
        self._is_rung = True  # set first, because that thread makes the bell first
        bell = self._bell
        if bell is not None:
            with suppress(OSError):  # it has been rung often enough, or is closed
                bell[1].send(b"\0", socket.MSG_DONTWAIT)

    def _can_be_pushed(self, connected: socket.socket, until: Optional[float]) -> bool:
        """Waits for data, like `_can_receive`, or until another thread rings."""
        if self._bell is None and (until is None or until > time.monotonic()):
            with suppress(OSError):  # without it, no other thread can end the wait
                self._bell = socket.socketpair()
        bell = None if self._bell is None else self._bell[0]
        can = _can_receive(connected, 0 if self._is_rung else until, bell)
        self._is_rung = False
        if bell is not None and not can:
            with suppress(OSError):  # it wasn't rung
                bell.recv(_ROOM, socket.MSG_DONTWAIT)
        return can

    def receive_pushes(self, timeout: Optional[float]) -> bool:
        """Handles the lines that were pushed. If there are none, waits up to `timeout` seconds, or forever if `timeout` is
        None, or until another thread rings. Returns whether a line arrived."""
        connected = self._live_socket()
        timeout = _limited(timeout)
        until = None if timeout is None else time.monotonic() + timeout
        is_idle = False
        try:
            line = self._take_line()
            while line is None:
                is_idle = True
                if not self._can_be_pushed(connected, until):
                    return False
                is_idle = False
                line = self._receive(connected.recv(_ROOM))
            while line is not None:
                self._take_other(decode_line(line), None)
                line = self._take_line()
        except Error as error:
            self.drop(str(error))
            raise
        except (OSError, EOFError, ArithmeticError, LookupError, TypeError, ValueError) as error:
            self._fail(error)
        except BaseException:
            if not is_idle:
                self.drop(_INTERRUPTED)
            raise
        return True


_open: "WeakSet[Connection]" = WeakSet()


def _drop_in_child() -> None:
    """In a forked child, closes the child's copies of the sockets, so that the server notices when the parent closes the originals."""
    for connection in list(_open):
        connection.drop("the connection belongs to the process that this one was forked from")


os.register_at_fork(after_in_child=_drop_in_child)
