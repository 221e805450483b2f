"""Errors from connections to a server."""

from __future__ import annotations

from dataclasses import dataclass
from typing import Dict, Optional, Tuple

from . import _saved_errors
from ._surface import SERVER_MEANINGS, ErrorClass, ErrorNumber
from .errors import BadCursor, Error, NotCovered, NotReached, Refusal, _OfPath, refusal


class ServerError(_OfPath):
    """The base class for connection errors, except for errors that the library also has."""


@dataclass(eq=False, repr=False)
class NoServer(ServerError, ConnectionError):
    """No server can be reached through the socket. The system's error is in `__cause__`."""

    error_class = ErrorClass.GONE
    _summary = "no server can be reached: {reason}; {advice}"

    reason: str
    advice: str = "start it with `bestored --background`"
    """What would be right."""


@dataclass(eq=False, repr=False)
class OtherUser(ServerError, PermissionError):
    """The server at a default path runs neither as the effective user nor as root. Nothing was sent to this server."""

    _summary = (
        "the server runs as user {server_user}, and has to run as user {user} or as root; BESTORE_SOCKET or a parameter can name the "
        "socket of a server that you trust")

    server_user: int
    """The user that the server runs as."""
    user: int
    """The effective user of this process."""


@dataclass(eq=False, repr=False)
class BrokenConnection(ServerError):
    """The connection failed and has been closed. Every later call on its pass raises `Disconnected`."""

    error_class = ErrorClass.GONE

    reason: str
    may_be_done: bool = False
    """Whether the call was a write that the server may have applied. If not, nothing was written."""

    @property
    def summary(self) -> str:
        return f"{self.reason}; the write may or may not have been made" if self.may_be_done else self.reason


class Disconnected(BrokenConnection, ConnectionError):
    """The server closed the connection or terminated, or an earlier call broke the connection."""


class TimedOut(BrokenConnection, TimeoutError):
    """The server didn't accept the connection or reply in time."""


class ProtocolError(BrokenConnection):
    """The server sent a line that violates the protocol, or uses a different version of the protocol."""


@dataclass(eq=False, repr=False)
class LineTooLong(ServerError):
    """The request was not sent, because it is larger than 1 MiB."""

    _summary = "a request can have up to 1 MiB, and this one has {length} bytes; write or ask less at a time"

    length: int
    """The size of the request in bytes."""


@dataclass(eq=False, repr=False)
class Unavailable(ServerError):
    """The call isn't available through a server."""

    _summary = "`{call}` can't be called through a server; only a store in this process has it"

    call: str
    """The name of the call."""


class ServerRefusal(ServerError):
    """The server refused a request for a reason that isn't a library error, and did nothing."""

    _summary = "{message}"

    def __init__(self, path: str, name: str, message: str, error_class: Optional[ErrorClass] = None) -> None:
        super().__init__(path)
        self.args += name, message
        self.name = name
        """The error's name in the protocol."""
        self.message = message
        self.error_class = error_class or _class_of(name)


# surface.toml: exceptions
class BadRequest(ServerRefusal):
    """"""


class Expired(ServerRefusal):
    """The snapshot expired, because it was kept too long. Pin again."""


class NoWatch(ServerRefusal):
    """The watch has ended."""


class TooManyWatches(ServerRefusal):
    """The connection already has the maximum number of watches."""


class TooManyCopies(ServerRefusal):
    """Too many clients are reading copies of snapshots."""


class NoClient(ServerRefusal):
    """No client with this number is connected."""


class NotKept(ServerRefusal):
    """The server keeps no file."""


class NoLog(ServerRefusal):
    """The server doesn't use a log."""


class NotLeader(ServerRefusal):
    """The server follows another server. Send the write there instead."""


class NotAllowed(ServerRefusal):
    """The server belongs to another user."""


class PushesLost(ServerRefusal):
    """Pushes for a watch waited too long and were dropped."""


class Unexpected(ServerRefusal):
    """The server reported an error without a name."""


_REFUSALS = {kind.__name__: kind for kind in (
    BadRequest, Expired, NoClient, NoLog, NoWatch, NotAllowed, NotKept, NotLeader, PushesLost,
    TooManyCopies, TooManyWatches, Unexpected,
)}
# surface.toml: end


def _class_of(name: str) -> ErrorClass:
    """Returns the class of one of the server's own errors. If the error is unknown, the same request is assumed to fail again
    later."""
    known = SERVER_MEANINGS.get(name)
    return ErrorClass.MINE if known is None else known.error_class


def _said_class(details: Dict[str, object]) -> Optional[ErrorClass]:
    """Returns the class that the server reports, if this package knows that class."""
    said = details.get("class")
    return next((it for it in ErrorClass if it.value == said), None)


# For each library error, by number: the detail reported with the error, and what the call's list contains.
_CARRIED: Dict[int, Tuple[str, Optional[str]]] = {
    ErrorNumber.BUSY: ("pass", None), ErrorNumber.FULL: ("oldest", None), ErrorNumber.CONFLICT: ("found", None),
    ErrorNumber.SYNTAX: ("offset", None), ErrorNumber.BAD_PATTERN: ("offset", None),
    ErrorNumber.NAME_LENGTH: ("operation", "operation"), ErrorNumber.DATA_LENGTH: ("operation", "operation"),
    ErrorNumber.HAS_NUL: ("operation", "operation"),
}


def _number(details: Dict[str, object], key: str) -> Optional[int]:
    """Returns a number from an error's details."""
    found = details.get(key)
    return found if isinstance(found, int) else None


def _of_library(number: int, details: Dict[str, object], query: Optional[str]) -> Refusal:
    """Returns the library error with this number."""
    key, listed = _CARRIED.get(number, ("", None))
    carried = details.get(key)
    refused = refusal(number, carried if isinstance(carried, int) else None, query, listed)
    refused.error_class = _said_class(details) or refused.error_class
    if isinstance(refused, NotCovered):
        missing = details.get("missing")
        refused.offset, refused.missing = _number(details, "offset"), missing if isinstance(missing, str) else None
    if isinstance(refused, BadCursor):
        refused.reason = str(details.get("message"))
    return refused


def error_of(path: str, details: Dict[str, object], query: Optional[str] = None) -> Error:
    """Returns the exception for an error in the protocol's format. `query` is the text of the query that was run."""
    number, name, message = details.get("number"), str(details.get("name")), str(details.get("message"))
    if isinstance(number, int):
        return _of_library(number, details, query)
    if name == "NotReached":
        return NotReached(_number(details, "expected") or 0, _number(details, "found") or 0)
    if name == "Protocol":
        return ProtocolError(path, f"{message}; it knows {details.get('known')}")
    refused = _REFUSALS.get(name, ServerRefusal)(path, name, message, _said_class(details))
    if name not in ("NotSaved", "Stopped"):
        return refused
    error = _saved_errors.NotSaved(path, None, message) if name == "NotSaved" else _saved_errors.Stopped(path, message)
    error.__cause__, error.error_class = refused, refused.error_class
    return error
