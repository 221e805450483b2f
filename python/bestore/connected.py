"""A server's store, with the classes of a store in this process.

    with bestore.connect(path) as store:
        ...

The server is bestored, described in docs/SERVER.md. A pass is a connection. Use these passes, versions, changes, batches and
prepared queries just like those of `bestore.open`.

**What differs.** A call takes a round trip. The server itself retries on `Busy` and `Full`, so `tries` has no effect,
and `within` only on a change. The
server revokes a snapshot that is kept too long; reading that snapshot then raises `Expired`. `another` may be called in any
thread. `finish`, `meet`, `witness` and `join` raise `Unavailable`. There are two more calls, `flush` and `compact`. `watch` waits
for other clients' writes.

**Errors** are the library's. Connection errors are subclasses of `ServerError`. Once a connection is broken, all later calls on
its pass raise `Disconnected`, and you have to connect again. If the call that broke the connection was a write, `may_be_done`
says whether the write may have been applied.

**A forked child** has no connection: calls on its parent's passes raise `Forked`. The child can make its own connection.
"""

from __future__ import annotations

import base64
import math
import operator
import os
import threading
import time
from contextlib import suppress
from functools import partial
from typing import Any, Callable, Dict, Iterable, Iterator, List, NamedTuple, Optional, Tuple, TypeVar, Union
from uuid import uuid4
from weakref import WeakValueDictionary, ref

from ._asked_query import AskedQuery
from ._connected_change import ConnectedChange
from ._connected_errors import (
    BrokenConnection, Disconnected, Expired, LineTooLong, NoServer, NotAllowed, NotKept, NoWatch, OtherUser, ProtocolError,
    ServerError, ServerRefusal, TimedOut, TooManyWatches, Unavailable)
from ._connected_queries import MOST_NAMES, QueriedVersion
from ._connected_watch import ConnectedWatch
from ._connection import Connection
from ._journal import line_of
from ._refreshes import refreshed_by_all
from ._saved_errors import NotSaved, Stopped
from ._socket_path import SocketPath
from ._waits import Waits
from ._wire import (
    JSON, PROTOCOL, operations_of, read_comparisons, read_entry, read_indices, read_nodes, read_row, read_value)
from .errors import (
    BadCount, Closed, Error, Forked, NameLength, NoAttribute, NoNode, NoPass, NotPinned, NotReached, Pinned, TooLong, encoded,
    encoded_query)
from .change import Change
from .handles import LockOwner
from .nodes import node_number
from .operations import MOST_OPERATIONS, NEW, Batch
from .queries import Prepared
from .store import ATTEMPTS, CHANGE_WITHIN, TRIES, WITHIN, Entry, Held, Pass, Status, Witness
from .values import RANGES, Kind, Typed, Value
from .watches import Changes, Watch

__all__ = [
    "BrokenConnection", "Changes", "ConnectedPass", "ConnectedVersion", "ConnectedWatch", "Disconnected", "Expired", "LineTooLong",
    "NoServer", "NoWatch", "NotAllowed", "NotKept", "OtherUser", "ProtocolError", "Server", "ServerError", "ServerRefusal",
    "SocketPath", "TimedOut", "TooManyWatches", "Unavailable", "Watch", "connect",
]

_Result = TypeVar("_Result")

TIMEOUT = 60.0
"""The default timeout for connecting, and for each reply, in seconds."""
_AGAIN = 0.05  # seconds after which a write is repeated
_PAUSE = 0.01  # seconds between looks at whether another thread has ended a watch that is closed here
_MOST_WAITED = 30.0  # seconds that the server waits per request
_MOST_NODES = 1 << 14  # nodes in a request for columns, so that its line isn't too long


class Server(NamedTuple):
    """What a server reports about itself."""

    version: str
    """The version of bestored."""
    library: str
    """The version of the server's library."""
    run: str
    """A string that is different each time the server starts. Commit numbers then start over."""
    kept: str
    """When the server saves writes in its file: `each` for at each write, `every` for at intervals, or `no` if there is no
    file."""
    pages: int
    passes: int
    """How many clients may be connected at the same time."""
    commits: int
    watches: int
    """How many watches a pass may have."""


def _read_server(hello: JSON) -> Tuple[Server, int]:
    """Returns what the server reports about itself, and the number of the pass."""
    limits = hello["limits"]
    server = Server(
        hello["server"], hello["library"], hello["run"], hello["kept"], limits["pages"], limits["passes"], limits["commits"],
        limits["watches"])
    return server, hello["pass"]


class ConnectedVersion(QueriedVersion):
    """A version of a server's store. Each read takes a round trip, or several if the reply has several pages."""

    _is_pinned = False

    def __init__(self, user: ConnectedPass) -> None:
        self._user = user
        try:
            self._number, self._next = user._pin(self)
        except BaseException:
            self.unpin()  # which does nothing unless the pin was interrupted
            raise

    @property
    def number(self) -> int:
        return self._number

    def __del__(self) -> None:
        if self._is_pinned:
            self._user._leave()

    def unpin(self) -> None:
        user = self._user
        if not user._is_dead:
            with user._lock:
                if self._is_pinned:
                    self._is_pinned = False
                    user._unpin()

    def _ask(self, command: str, parameters: JSON, read: Callable[[JSON], _Result], query: Optional[str] = None) -> _Result:
        """Makes a call on the pass, if the pass still has this pin and not a newer one."""
        user = self._user
        user._check_process()
        with user._lock:
            if not self._is_pinned:
                raise NotPinned()
            return user._ask(command, parameters, read, query=query)

    @property
    def next_node(self) -> int:
        if not self._is_pinned:
            raise NotPinned()
        self._user._check_process()
        return self._next

    def refresh(self, prepared: Prepared) -> Tuple[List[int], List[int]]:
        """Works as in a version of a store in this process, up to this version. All nodes that match the query are sent through
        the socket, and remain in the program's memory until the query is closed. With `ConnectedPass.watch`, only the changes
        are sent."""
        return refreshed_by_all(prepared, self)

    def indices(self) -> Dict[str, Kind]:
        return self._ask("indices", {}, read_indices)

    def listing(self) -> Iterator[bytes]:
        more: Optional[int] = 0
        while more is not None:
            batches, more = self._ask("state", {"from": more}, _read_state)
            for batch in batches:
                if not self._is_pinned:
                    raise NotPinned()
                yield batch

    def column(self, nodes: Iterable[int], name: str) -> List[Optional[Value]]:
        return self.columns(nodes, [name])[0]

    def columns(self, nodes: Iterable[int], names: Iterable[str]) -> List[List[Optional[Value]]]:
        asked, wanted = [_asked_node(node) for node in nodes], [_asked_name(name) for name in names]
        columns: List[List[Optional[Value]]] = [[] for _ in wanted]
        for first in range(0, len(wanted), MOST_NAMES):
            part = slice(first, first + MOST_NAMES)
            self._fill(columns[part], asked, wanted[part])
        return columns

    def _fill(self, columns: List[List[Optional[Value]]], nodes: List[int], names: List[str]) -> None:
        """Appends the values of all nodes to the columns with these names."""
        done = 0
        while done < len(nodes):
            rows = self._first_rows(nodes[done:done + _MOST_NODES], names)
            for column, values in zip(columns, zip(*rows)):
                column += values
            done += len(rows)

    def _first_rows(self, nodes: List[int], names: List[str]) -> List[List[Optional[Value]]]:
        """Returns the values of the first nodes in this list, for as many nodes as fit in one reply."""
        def read(ok: JSON) -> List[List[Optional[Value]]]:
            rows = [read_row(row) for row in ok["rows"]]
            if not 1 <= len(rows) <= len(nodes) or any(len(row) != len(names) for row in rows):
                raise ValueError("it doesn't have the rows of these nodes")
            return rows
        try:
            return self._ask("columns", {"nodes": nodes, "names": names}, read)
        except LineTooLong:
            raise NameLength() from None

    def _read(self, node: int, name: str) -> Typed:
        _asked_name(name)
        try:
            value = self._ask("get", {"node": _node_number(node), "name": name}, _read_attribute)
        except LineTooLong:
            raise NameLength() from None
        if value is None:
            raise NoAttribute()
        return value

    def _listed(self, node: int) -> Dict[str, Typed]:
        try:
            return self._ask("attributes", {"node": _node_number(node)}, _read_attributes)
        except NoNode as error:
            error.nodes = (node,)
            raise

    def _nodes_from(self, first: int, room: int) -> List[int]:
        return self._ask("nodes", {"from": first, "limit": room}, lambda ok: read_nodes(ok["nodes"]))


def _node_number(node: int) -> int:
    """Returns a node's number, after checking that it fits in 64 bits."""
    number = node_number(node)
    if number not in RANGES[Kind.UINT64]:
        raise NoNode(number)
    return number


def _asked_node(node: int) -> int:
    """Returns a node's number in the form that requests use. If the number doesn't fit in 64 bits, returns 0, which no node
    has."""
    number = node_number(node)
    return number if number in RANGES[Kind.UINT64] else 0


def _asked_name(name: str) -> str:
    """Returns a name in the form that requests use. Raises `NotUTF8` if the name contains half of a surrogate pair."""
    if not isinstance(name, str):
        raise TypeError(f"{name!r} isn't a name: a name is a str")
    encoded(name)
    return name


def _read_state(ok: JSON) -> Tuple[List[bytes], Optional[int]]:
    return [base64.b64decode(batch, validate=True) for batch in ok["batches"]], ok.get("more")


def _read_attribute(ok: JSON) -> Optional[Typed]:
    value = ok["value"]
    return None if value is None else read_value(value)


def _read_attributes(ok: JSON) -> Dict[str, Typed]:
    return {name: read_value(value) for name, value in ok["attributes"].items()}


def _read_pin(ok: JSON) -> Tuple[int, int]:
    return int(ok["commit"]), int(ok["next"])


def _read_status(ok: JSON) -> Status:
    oldest = ok["oldest"]
    held = None if oldest is None else Held(oldest["snapshot"], oldest["pass"])
    return Status(ok["pages"], ok["free"], ok["retired"], ok["entries"], ok["commits"], held)


def _read_journal(ok: JSON) -> Tuple[List[Entry], Optional[int]]:
    return [read_entry(entry) for entry in ok["entries"]], ok.get("more")


def _take_push(watches: "WeakValueDictionary[int, ConnectedWatch]", push: JSON) -> None:
    """Passes a push to its watch, if the watch still exists. The connection holds no reference to the pass, so an unreferenced
    pass is freed immediately."""
    watch = watches.get(push["watch"])
    if watch is not None:
        watch._take(push)


class ConnectedPass(LockOwner, Pass):
    """A pass of a server's store, which is a connection. Calls from several threads wait for each other, so give each thread
    its own pass."""

    _changing: Optional[int] = None  # the thread that is running a change's function

    def __init__(self, path: SocketPath, timeout: Optional[float], run: Optional[str] = None, repeat: Optional[float] = None,
                 confirmed: bool = False) -> None:
        self._connection: Optional[Connection] = None
        super().__init__()
        self._committed = 0
        self._is_asking = self._has_pin = self._is_left = self._is_closed = False
        self._last_pinned: Optional[ref[ConnectedVersion]] = None
        self._watches: "WeakValueDictionary[int, ConnectedWatch]" = WeakValueDictionary()
        self._ended: List[int] = []  # watches that are gone here and that the server still has
        self.path = path.path
        """The server's socket."""
        self._socket_path = path
        self._timeout, self._repeat, self._confirmed = timeout, repeat, confirmed
        self._connect()
        if run is not None and self.server.run != run:
            self.close()
            raise Disconnected(self.path, "the server was restarted")

    def _connect(self) -> None:
        """Connects, and asks the server to describe itself."""
        connection = Connection(self._socket_path, self._timeout, partial(_take_push, self._watches))
        with self._lock:
            if self._is_closed:  # by another thread, while this one repeats a write
                connection.close()
                raise Closed()
            self._connection, self._has_pin = connection, False
            greeting = {"protocol": PROTOCOL, "confirmed": True} if self._confirmed else {"protocol": PROTOCOL}
            try:
                self.server, self._number = self._ask("hello", greeting, _read_server)
            except BaseException:
                connection.close()
                raise

    def _until_answered(self, call: Callable[[], _Result], has_token: bool) -> _Result:
        """Makes a call. If the program asked for repeats, retries the call when the connection fails or the server temporarily
        can't save writes. Doesn't retry if the pass would lose a pin or a watch with the old connection, or if something may
        have been written, unless the call has a token by which the server recognises its repeats."""
        until = time.monotonic() + (self._repeat or 0)
        uncertain: Optional[Error] = None  # says that an attempt may have written something
        while True:
            try:
                return call()
            except (BrokenConnection, NoPass, NotSaved, Stopped) as error:
                if isinstance(error, NotSaved) or isinstance(error, BrokenConnection) and error.may_be_done:
                    uncertain = error
                if not self._repeats or uncertain is not None and not has_token or not self._may_repeat(until):
                    if uncertain is None or uncertain is error:
                        raise
                    raise uncertain from error

    @property
    def _repeats(self) -> bool:
        """Whether writes are repeated, and the pass would lose neither a pin nor a watch with its connection."""
        return self._repeat is not None and not self._has_pin and not self._watches

    def _may_repeat(self, until: float) -> bool:
        """Waits a moment, and connects if necessary. Returns whether the pass is connected before time runs out."""
        while time.monotonic() < until:
            time.sleep(min(_AGAIN, max(until - time.monotonic(), 0)))
            if self._is_open:
                return True
            with suppress(NoServer, BrokenConnection, NoPass):
                self._connect()
                return True
        return False

    def __repr__(self) -> str:
        return f"<pass {self._number} of the server at {self.path}>"

    def _ask(self, command: str, parameters: JSON, read: Callable[[JSON], _Result], is_write: bool = False,
             query: Optional[str] = None) -> _Result:
        """Makes a call. Raises `Closed` if the pass is closed."""
        if self._is_dead:
            raise Forked()
        with self._lock:
            connection = self._begin()
            try:
                self._is_asking = True
                return connection.ask(command, parameters, read, is_write, query)
            finally:
                self._is_asking = False  # cleared here, because an interrupt may keep the call from being made
                self._unpin_left()

    def _begin(self) -> Connection:
        """Returns the connection for one call."""
        if self._connection is None or self._is_closed:
            raise Closed()
        if self._is_asking:
            raise RuntimeError("a call on this pass was made during another one, such as by a signal handler")
        return self._connection

    @property
    def _is_open(self) -> bool:
        """Whether calls can be made."""
        connection = self._connection
        return not self._is_closed and connection is not None and connection.is_open

    def _pin(self, version: ConnectedVersion) -> Tuple[int, int]:
        """Pins the pass for a version. Returns the commit number and the next node."""
        self._check_process()
        with self._lock:
            self._unpin_left()
            if self._has_pin:
                self._begin().fileno()  # raises the connection's error if that pin was lost with it
                raise Pinned()
            self._last_pinned = ref(version)
            self._has_pin = version._is_pinned = True  # set first, because an interrupt may come after the reply
            try:
                return self._ask("pin", {}, _read_pin)
            except Error:
                self._has_pin = version._is_pinned = False
                raise

    def _unpin(self) -> None:
        """Unpins the pass. Ending the connection would have the same effect."""
        self._has_pin = False
        if self._is_open:
            with suppress(BrokenConnection, Closed, NotPinned):  # an interrupted pin may not have been sent
                self._ask("unpin", {}, lambda ok: None)

    def _leave(self) -> None:
        """Takes over the pin from a version that is being destroyed. Python may collect the version at any point, even during a
        call on this pass; that call then unpins the pass when it ends."""
        if not self._is_dead:
            self._is_left = True
            self._unpin_left()

    def _unpin_left(self) -> None:
        while self._is_left and self._lock.acquire(blocking=False):
            try:
                if self._is_asking:
                    return
                if self._is_left:
                    self._is_left = False
                    self._unpin()
            finally:
                self._lock.release()

    @property
    def number(self) -> int:
        self._check_process()
        return self._number

    @property
    def _is_changing(self) -> bool:
        return self._changing == threading.get_ident()

    @_is_changing.setter
    def _is_changing(self, is_changing: bool) -> None:
        self._changing = threading.get_ident() if is_changing else None

    def another(self) -> ConnectedPass:
        """Returns a pass of the same store for another thread, which is a new connection. Any thread may call this. Raises
        `NoPass` if the server has reached its maximum number of clients, `NoServer`, `Disconnected` if the server has been
        restarted since, or `Closed` if this pass is closed."""
        self._check_process()
        if self._is_closed:
            raise Closed()
        return ConnectedPass(self._socket_path, self._timeout, self.server.run, self._repeat, self._confirmed)

    def close(self) -> None:
        """Closes the connection if it is open, which returns the pass. The store remains on the server. If another thread is
        waiting for a watch of this pass, its wait ends with `Closed`."""
        if self._connection is not None and not self._is_dead:
            self._is_closed = True
            self._ring()
            with self._lock:
                connection, self._connection = self._connection, None
                if connection is not None:  # unless another thread has closed it meanwhile
                    connection.close()

    def finish(self) -> str:
        """Raises `Unavailable`, because only the server closes its store."""
        self._check_process()
        raise Unavailable(self.path, "finish")

    def meet(self) -> int:
        """Raises `Unavailable`, because a server's pass has seen whatever is in its replies."""
        self._check_process()
        raise Unavailable(self.path, "meet")

    def witness(self) -> Witness:
        """Raises `Unavailable`, because a server's pass has seen whatever is in its replies."""
        self._check_process()
        raise Unavailable(self.path, "witness")

    def join(self, witness: Witness) -> int:
        """Raises `Unavailable`, like `witness`. Use `reach` to wait for a commit number."""
        self._check_process()
        raise Unavailable(self.path, "join")

    def pin(self) -> ConnectedVersion:
        return ConnectedVersion(self)

    def unpin(self) -> None:
        version = None if self._last_pinned is None else self._last_pinned()
        if version is not None:
            version.unpin()

    def change(self, function: Callable[[Change], _Result], attempts: int = ATTEMPTS, *, check_kinds: bool = True,
               tries: int = TRIES, within: float = CHANGE_WITHIN) -> _Result:
        def run() -> _Result:
            # The server itself retries on Busy and Full.
            return super(ConnectedPass, self).change(function, attempts, check_kinds=check_kinds, tries=1, within=within)
        return self._until_answered(run, has_token=False)

    def _begin_change(self, check_kinds: bool) -> Change:
        return ConnectedChange(self.pin(), check_kinds)

    def _commit(self, change: Change) -> int:
        batch = change._collected()
        change.unpin()
        return self.apply_if(change.number, batch)[0]

    def _write(self, batch: Batch, waits: Waits, expected: Optional[int]) -> Tuple[int, List[int]]:
        if not 1 <= len(batch) <= MOST_OPERATIONS:
            raise BadCount()
        parameters: JSON = {"operations": operations_of(batch)}
        if expected is not None:
            parameters["expected"] = expected if expected in RANGES[Kind.UINT64] else 2**64 - 1  # a number that no journal has
        has_token = self._repeat is not None
        if has_token:
            parameters["token"] = uuid4().hex
            if expected is not None:
                parameters["run"] = self.server.run

        def read(ok: JSON) -> Tuple[int, List[int]]:
            nodes = read_nodes(ok["nodes"])[::-1]
            return int(ok["commit"]), [nodes.pop() if kind == NEW else 0 for kind, *_ in batch._parts()]
        try:
            return self._until_answered(lambda: self._ask("batch", parameters, read, is_write=True), has_token)
        except LineTooLong:
            batch.to_bytes()  # raises an error if the batch isn't valid
            raise

    def journal(self, tries: int = TRIES, *, within: float = WITHIN) -> str:
        return "".join(map(line_of, self.journal_from()))

    def journal_from(self, number: int = 0, tries: int = TRIES, *, within: float = WITHIN) -> Iterator[Entry]:
        """Yields the journal entries after the first `number` entries, up to the last entry that exists when the last page is
        read. So `store.journal_from(version.number)` yields what was written after a snapshot. Each round trip reads a page of
        a few thousand entries."""
        more: Optional[int] = max(operator.index(number), 0)
        while more is not None and more < 2**64:
            entries, more = self._ask("journal", {"from": more}, _read_journal)
            yield from entries

    def status(self, tries: int = TRIES, *, within: float = WITHIN) -> Status:
        return self._ask("status", {}, _read_status)

    def reach(self, number: int, within: float = 5) -> int:
        """Works as for a store in this process. The server waits, and the request is repeated before its reply would time out."""
        wanted = min(max(operator.index(number), 0), 2**64 - 1)
        most = _MOST_WAITED if self._timeout is None else min(self._timeout / 2, _MOST_WAITED)
        until = time.monotonic() + within
        while True:
            left = max(until - time.monotonic(), 0)
            try:
                return self._reach(wanted, min(left, most))
            except NotReached:
                if left <= most:
                    raise

    def _reach(self, wanted: int, within: float) -> int:
        """Makes the server wait once."""
        return self._ask("reach", {"commit": wanted, "within": math.ceil(within * 1000)}, lambda ok: int(ok["commit"]))

    def flush(self) -> None:
        """Returns once everything written before the call is in the server's file. Raises `NotKept` if the server has no file,
        `Stopped` or `NotSaved`."""
        self._ask("flush", {}, lambda ok: None)

    def compact(self) -> None:
        """Writes the current snapshot into the server's file, replacing the file's state and entries. The errors are those of `flush`."""
        self._ask("compact", {}, lambda ok: None)

    def prepare(self, text: str) -> Prepared:
        encoded_query(text)
        try:
            compared = self._ask("text", {"query": text}, read_comparisons, query=text)
        except LineTooLong:
            raise TooLong(query=text) from None
        return AskedQuery(text, (one.name for one in compared))

    def watch(self, query: Optional[str] = None) -> ConnectedWatch:
        """Works as for a store in this process, but the server pushes the changes. Raises a `QueryError` or `TooManyWatches`."""
        return ConnectedWatch(self, query)

    def fileno(self) -> int:
        """Returns the socket's descriptor, for `select` and event loops. The descriptor is readable when something was pushed
        for a watch. Before you wait for this, call `Watch.wait(0)` until it returns None, because lines that were already
        received don't make the descriptor readable."""
        self._check_process()
        with self._lock:
            if self._connection is None or self._is_closed:
                raise Closed()
            return self._connection.fileno()

    def _ring(self) -> None:
        """Ends another thread's wait for a push."""
        connection = self._connection
        if connection is not None:
            connection.ring()

    def _receive(self, timeout: Optional[float]) -> bool:
        """Waits for a push, or until another thread rings. Returns whether one arrived."""
        connection = self._begin()
        try:
            self._is_asking = True
            return connection.receive_pushes(timeout)
        finally:
            self._is_asking = False
            self._unpin_left()

    def _end_closed(self, number: int) -> None:
        """Ends a watch that has been closed here. If a thread is waiting for a push, that thread keeps the lock, and ends the watch
        instead. It may be this thread, which a signal handler has interrupted."""
        while number in self._ended:
            self._ring()
            if self._lock.acquire(timeout=_PAUSE):
                try:
                    if self._is_open and not self._is_asking:
                        self._end_watches()
                    return
                finally:
                    self._lock.release()

    def _end_watches(self) -> None:
        """Ends the watches that are closed or no longer referenced. A signal handler may do the same at any moment."""
        while True:
            number = next(reversed(self._ended), None)
            if number is None:
                return
            with suppress(NoWatch):
                self._ask("unwatch", {"watch": number}, lambda ok: None)
            with suppress(ValueError):  # a signal handler has ended it meanwhile
                self._ended.remove(number)


def connect(path: Union[str, bytes, "os.PathLike[Any]", None] = None, timeout: Optional[float] = TIMEOUT,
            repeat: Optional[float] = None, confirmed: bool = False) -> ConnectedPass:
    """Connects to the server at this socket, or at the socket that `SocketPath.find` finds, and returns a pass. Use it like the
    pass that `open` returns; `help(bestore.connected)` explains the differences.

    `timeout` is the timeout for connecting, and for each reply, in seconds; None means no limit. When it expires, the call
    raises `TimedOut`, and the connection is closed.

    `repeat` lets writes survive a restart of the server. If a write's reply doesn't arrive, or if the server temporarily can't
    save the write, the write is sent again for up to `repeat` seconds, on a new connection if necessary. The write is applied
    only once. `change` runs its function again. A write isn't repeated while the pass is pinned or has watches, because a new
    connection would have neither the pin nor the watches. Numbers for `apply_if` are valid only in the server run that `server.run` names.

    With `confirmed`, a read returns only once everything that it shows is in the server's file or log, and raises `NotSaved` if it
    can't be. Otherwise, a read may show a write that is lost when the server is killed or another server takes over its log.

    Raises `NoServer`; `OtherUser` if the socket wasn't named explicitly and the server runs neither as the effective user nor as root;
    `NoPass` if the server has reached its maximum number of clients; `NotAllowed` if the server refuses this user;
    `ProtocolError` or `TimedOut`; and a ValueError unless `timeout` and `repeat` are above 0."""
    if timeout is not None and not timeout > 0:
        raise ValueError(f"a timeout can't be {timeout} seconds; give more than 0")
    if repeat is not None and not repeat > 0:
        raise ValueError(f"writes can't be repeated for {repeat} seconds; give more than 0")
    return ConnectedPass(SocketPath.find(path), timeout, repeat=repeat, confirmed=confirmed)
