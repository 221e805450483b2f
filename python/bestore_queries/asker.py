"""The thread that runs queries for a window, reads the hits, and writes attributes. The window sends requests to the thread and
takes its reports. Neither waits for the other."""

from __future__ import annotations

import queue
import threading
import time
import traceback
from collections import deque
from contextlib import suppress
from typing import Deque, Dict, Iterable, List, Mapping, NamedTuple, Optional, Sequence, Set, Union

import bestore
from bestore.language import comparisons
from bestore.pages import Order

from . import columns, find
from .places import PLACE_NAMES, Places
from .sorted_hits import Hit, Node
from .sources import LiveAnswer, Session, Source, reason_of

SLICE = 1_000   # hits to read from one snapshot
REPORTED = 100  # hits in one report, so that the window spends little time on it
FEW = 100       # hits to read individually, without running the query again
PAUSE = 0.2     # seconds between checks for new writes
RETRY = 1.0     # seconds between attempts to open the store
NAMED = 20      # hits whose attribute names are reported
COUNTING = 1.0  # seconds between counts of all nodes
CHECKING = 1.0  # seconds between checks whether the store still replies
LOOKED_AT = 65_536  # nodes to read in order to find a name, which limits how long that takes
MOST_NAMES = 64     # names to look for, because a request can't have more
ENDING = 5.0    # seconds to wait for the thread to end


class Begin(NamedTuple):
    """The first hits of an order that an index provides."""

    order: Order
    most: int
    """The number of hits to report: the visible hits and a few more."""


class Sort(NamedTuple):
    """A request: report the first hits of the followed query, in this order."""

    turn: int
    begin: Begin


class Ask(NamedTuple):
    """A request: run this query, and follow it."""

    turn: int
    """A number that every report about the query contains."""
    text: str
    names: Sequence[str]
    """The attributes to read for each hit."""
    begin: Optional[Begin] = None
    """The hits to report before all others."""


class Write(NamedTuple):
    """A request: set an attribute, or remove the attribute if the text is empty."""

    node: Node
    name: str
    text: str
    shown: Optional[bestore.Value]
    """The value that the window shows. If the store now has a different value, nothing is written."""


class Opened(NamedTuple):
    """A report: the store has been opened."""

    indices: Mapping[str, bestore.Kind]


class Lost(NamedTuple):
    """A report: the store isn't available. It will be reopened as soon as it is available again."""

    reason: str


class Accepted(NamedTuple):
    """A report: the query is being followed."""

    turn: int
    hints: List[bestore.Hint]


class Refused(NamedTuple):
    """A report: the query isn't being followed, or is no longer being followed."""

    turn: int
    error: bestore.Error
    indices: Mapping[str, bestore.Kind]


class Named(NamedTuple):
    """A report: the attributes that the first hits have."""

    turn: int
    names: List[str]


class Unknown(NamedTuple):
    """A report: the query finds nothing, and neither an index nor a node has these names that are in it."""

    turn: int
    names: List[str]


class First(NamedTuple):
    """A report: the first hits in an order that an index provides."""

    turn: int
    order: Order
    hits: List[Hit]


class Came(NamedTuple):
    """A report: hits that are new, or whose attributes have changed."""

    turn: int
    hits: List[Hit]


class Went(NamedTuple):
    """A report: nodes that are no longer hits."""

    turn: int
    nodes: List[Node]


class Counted(NamedTuple):
    """A report: the number of hits, the number of hits that haven't been read yet, and the number of nodes that a query could
    find."""

    turn: int
    hits: int
    waiting: int
    all: int


class Written(NamedTuple):
    """A report: the write was made, or the reason why the write failed."""

    write: Write
    fault: Optional[str]


Report = Union[Opened, Lost, Accepted, Refused, Named, Unknown, First, Came, Went, Counted, Written]


class NotWritten(Exception):
    """A write wasn't made, for the reason given in the message."""


class _Following:
    """A query being followed: its hits, the hits that haven't been read yet, and the last snapshot for which the hits are
    known."""

    def __init__(self, ask: Ask, live: LiveAnswer) -> None:
        self.ask, self.live = ask, live
        self.known: Set[Node] = set()
        self.reported: Set[Node] = set()
        self._ahead: List[Node] = []  # hits reported from a snapshot that is newer than the answer
        self.waiting: Dict[Node, None] = {}
        self.gone: List[Node] = []  # hits that have left but haven't been reported yet
        self.seen: Optional[int] = None  # the commit number of the last snapshot
        self.is_named = False
        self.is_checked = False  # whether the query has found something, or its names have been looked for

    def refresh(self, version: bestore.Version, changed: Iterable[Node]) -> None:
        """Advances to a snapshot in which these nodes' attributes may have changed."""
        came, went = self.live.refresh(version)
        self.seen = version.number
        self.known.difference_update(went)
        self.known.update(came)
        gone = {node for node in (*went, *self._ahead) if node in self.reported and node not in self.known}
        self._ahead = []
        self.gone += sorted(gone)
        self.reported -= gone
        for node in went:
            self.waiting.pop(node, None)
        self.waiting.update(dict.fromkeys(came))
        self.waiting.update(dict.fromkeys(node for node in changed if node in self.known))

    def report_first(self, hits: List[Hit]) -> None:
        """Records that the first hits in an order have been reported, from a separate snapshot."""
        self._ahead += [hit.node for hit in hits]
        self.reported.update(self._ahead)

    def reports(self, hits: List[Hit]) -> List[Report]:
        """Returns the reports that are due now that these hits have been read. Hits that left come first, because one of them
        may have returned."""
        turn, gone, self.gone = self.ask.turn, self.gone, []
        for hit in hits:
            del self.waiting[hit.node]
            self.reported.add(hit.node)
        parts = [hits[first:first + REPORTED] for first in range(0, len(hits), REPORTED)]
        return [*([Went(turn, gone)] if gone else []), *(Came(turn, part) for part in parts)]

    def read(self, version: bestore.Version, names: Sequence[str]) -> Dict[Node, List[Optional[bestore.Value]]]:
        """Reads these attributes of the next waiting hits."""
        nodes = list(self.waiting)[:SLICE]
        if len(nodes) <= FEW:
            found = version.columns(nodes, names)
            return {node: [column[place] for column in found] for place, node in enumerate(nodes)}
        rows = version.rows(self.ask.text, names, nodes[0], SLICE)
        return {node: values for node, values in rows if node in self.waiting}


def _names(ask: Ask) -> List[str]:
    """Returns the attributes that the window needs for each hit."""
    return list(dict.fromkeys([*ask.names, *PLACE_NAMES]))


def unknown_names(query: str, version: bestore.Version) -> List[str]:
    """Returns the names in a query that neither an index nor any of the first nodes has, so that they are probably mistyped. Reads nodes until
    one has the name, so call it only if the query finds nothing."""
    indices, first, count = version.indices(), 0, 0
    names = list(dict.fromkeys(it.name for it in comparisons(query) if it.name not in indices))[:MOST_NAMES]
    while names and count < LOOKED_AT:
        nodes = version.nodes(first, SLICE)
        columns_of_names = version.columns(nodes, names)
        names = [name for name, values in zip(names, columns_of_names) if all(value is None for value in values)]
        if len(nodes) < SLICE:
            break
        first, count = nodes[-1] + 1, count + len(nodes)
    return names


class _Requests:
    """The window's requests: its latest query, and the writes that haven't been made yet."""

    def __init__(self) -> None:
        self._came = threading.Condition()
        self._ask: Optional[Ask] = None
        self._sort: Optional[Sort] = None
        self._writes: Deque[Write] = deque()
        self._is_ended = False

    def put(self, request: Union[Ask, Sort, Write, None]) -> None:
        """Enqueues a request. None ends the requests."""
        with self._came:
            if isinstance(request, Ask):
                self._ask, self._sort = request, None
            elif isinstance(request, Sort):
                self._sort = request
            elif request is not None:
                self._writes.append(request)
            else:
                self._is_ended = True
            self._came.notify()

    def put_back(self, write: Write) -> None:
        """Requeues a write that wasn't made, at the front of the queue."""
        with self._came:
            self._writes.appendleft(write)

    def wait(self, timeout: float) -> None:
        """Waits up to this many seconds if nothing is queued."""
        with self._came:
            self._came.wait_for(lambda: self._ask or self._sort or self._writes or self._is_ended, timeout)

    def take_ask(self) -> Optional[Ask]:
        """Removes and returns the query, if there is one."""
        with self._came:
            ask, self._ask = self._ask, None
            return ask

    def take_sort(self) -> Optional[Sort]:
        """Removes and returns the order whose first hits are requested, if there is one."""
        with self._came:
            sort, self._sort = self._sort, None
            return sort

    def take_write(self) -> Optional[Write]:
        """Removes and returns the first write, if there is one."""
        with self._came:
            return self._writes.popleft() if self._writes else None


class Asker(threading.Thread):
    """Runs queries on a source. The window calls `send` and reads `reports`."""

    def __init__(self, source: Source) -> None:
        super().__init__(name="asker", daemon=True)
        self._source = source
        self._requests = _Requests()
        self.reports: "queue.Queue[Report]" = queue.Queue(100)
        self._ended = threading.Event()
        self._following: Optional[_Following] = None
        self._indices: Mapping[str, bestore.Kind] = {}
        self._places = Places()
        self._store: Optional[str] = None  # the last store that was open
        self._has_news = False
        self._all, self._counted_at, self._checked_at = 0, 0.0, 0.0
        self._waits_since: Optional[float] = None  # when the store was last asked for something, until it has replied

    @property
    def waits_for(self) -> float:
        """How many seconds the thread has been waiting for the store, or 0 if it isn't waiting."""
        since = self._waits_since  # read once, because the thread sets it
        return 0.0 if since is None else time.monotonic() - since

    def send(self, request: Union[Ask, Sort, Write]) -> None:
        """Sends a request. A query replaces an earlier query that hasn't been run yet."""
        self._requests.put(request)

    def end(self) -> None:
        """Ends the thread, without waiting long for a server that doesn't reply."""
        self._ended.set()
        self._requests.put(None)
        if self.is_alive():
            self.join(ENDING)

    def run(self) -> None:
        while not self._ended.is_set():
            try:
                self._open_and_serve()
            except Exception as error:  # if the thread ended, the window would stay as it is
                if not isinstance(error, bestore.Error):
                    with suppress(OSError):  # the terminal may be gone
                        traceback.print_exc()
                self._report(Lost(reason_of(error)))
                self._waits_since = None
                self._ended.wait(RETRY)

    def _open_and_serve(self) -> None:
        self._waits_since = time.monotonic()
        session = self._source.open()
        try:
            self._serve(session)
        finally:
            self._following = None
            session.close()

    def _report(self, *reports: Report) -> None:
        """Reports to the window once it has taken the earlier reports."""
        self._waits_since = None
        for report in reports:
            while not self._ended.is_set():
                try:
                    self.reports.put(report, timeout=0.1)
                    break
                except queue.Full:
                    continue
        self._waits_since = time.monotonic()

    def _serve(self, session: Session) -> None:
        """Carries out the window's requests, and follows the query."""
        self._places, self._counted_at = Places(), 0.0
        self._check_store(session.store)
        with session.user.pin() as version:
            self._indices = version.indices()
        self._report(Opened(self._indices))
        while not self._ended.is_set():
            is_busy = self._following is not None and (self._following.waiting or self._following.seen is None)
            self._waits_since = None
            self._requests.wait(0 if is_busy else PAUSE)
            self._waits_since = time.monotonic()
            self._check(session)
            for write in iter(self._requests.take_write, None):
                self._write(session, write)
            ask = self._requests.take_ask()
            if ask is not None:
                self._ask(session, ask)
            sort = self._requests.take_sort()
            if sort is not None and self._following is not None:
                self._sort(session, self._following, sort)
            if self._following is not None:
                self._step(session, self._following)

    def _check(self, session: Session) -> None:
        """Checks at intervals whether the store still replies, since a store without news is otherwise asked for nothing."""
        if time.monotonic() >= self._checked_at + CHECKING:
            session.check()
            self._checked_at = time.monotonic()

    def _check_store(self, store: str) -> None:
        """Rejects the pending writes if their nodes belong to another store."""
        if self._store not in (None, store):
            for write in iter(self._requests.take_write, None):
                self._report(Written(write, "there is a different store now"))
        self._store = store

    def _ask(self, session: Session, ask: Ask) -> None:
        """Follows a query instead of the previous query. The previous query may have many hits, which are freed only after the
        new query's first hits have been reported."""
        try:
            first = self._report_first(session, ask, ask.begin)
            self._follow_nothing()
            live = session.begin(ask.text)
            with session.user.pin() as version:
                self._indices = version.indices()
                hints = version.hints(ask.text)
        except bestore.BrokenConnection:
            raise
        except bestore.Error as error:
            self._report(Refused(ask.turn, error, self._indices))
        else:
            self._following = _Following(ask, live)
            self._following.report_first(first)
            self._report(Accepted(ask.turn, hints))

    def _follow_nothing(self) -> None:
        if self._following is not None:
            self._following.live.close()
            self._following = None

    def _sort(self, session: Session, following: _Following, sort: Sort) -> None:
        """Reports the first hits in another order."""
        if sort.turn == following.ask.turn:
            following.report_first(self._report_first(session, following.ask, sort.begin))
            self._has_news = True

    def _report_first(self, session: Session, ask: Ask, begin: Optional[Begin]) -> List[Hit]:
        """Reads and reports the first hits in an order. After an error, no hits are reported, and the window sorts all hits
        once it has received them."""
        if begin is None:
            return []
        names, (by, descending), hits = _names(ask), begin.order, []  # type: List[str], Order, List[Hit]
        try:
            with session.user.pin() as version:
                rows = version.rows(ask.text, names, most=begin.most, by=by, descending=descending)
                hits = [self._hit(version, node, names, values) for node, values in rows]
        except bestore.BrokenConnection:
            raise
        except bestore.Error:
            pass
        self._report(First(ask.turn, begin.order, hits))
        return hits

    def _step(self, session: Session, following: _Following) -> None:
        """Advances to the current snapshot, and reads hits from it."""
        self._has_news = session.has_news() or self._has_news or following.seen is None
        if not self._has_news and not following.waiting:
            return
        try:
            with session.user.pin() as version:
                reports = self._follow(session, following, version)
        except bestore.Expired:
            return  # the server ended the snapshot, so the next step gets a new one
        except bestore.BrokenConnection:
            raise
        except bestore.Error as error:
            self._following = None
            following.live.close()
            self._report(Refused(following.ask.turn, error, self._indices))
        else:
            self._report(*reports)

    def _follow(self, session: Session, following: _Following, version: bestore.Version) -> List[Report]:
        """Returns the reports that are due from a snapshot. If this raises, the next call returns the same reports again."""
        turn = following.ask.turn
        if version.number != following.seen:
            following.refresh(version, self._changed(session, following, version))
        hits = self._read(following, version) if following.waiting else []
        reports: List[Report] = []
        if hits and not following.is_named:
            reports.append(Named(turn, sorted({name for hit in hits[:NAMED] for name in version.attributes(hit.node)})))
        if not following.is_checked and not following.known:
            unknown = unknown_names(following.ask.text, version)
            reports += [Unknown(turn, unknown)] if unknown else []
        following.is_checked = True
        count = self._count(version)
        following.is_named, self._has_news = bool(hits) or following.is_named, False
        reports += following.reports(hits)
        return [*reports, Counted(turn, len(following.known), len(following.waiting), count)]

    def _changed(self, session: Session, following: _Following, version: bestore.Version) -> Iterable[Node]:
        """Returns the hits whose attributes were set since the last snapshot. If a folder's attributes were set, any hit may be
        affected, because it may be in that folder."""
        if following.seen is None or not following.known:
            return []
        written = session.written(following.seen, version)
        if written is None or self._places.forget(written):
            self._places = Places()
            return list(following.known)
        return written

    def _read(self, following: _Following, version: bestore.Version) -> List[Hit]:
        """Reads the next unread hits, with the attributes that the window needs, and returns them."""
        names = _names(following.ask)
        return [self._hit(version, node, names, values) for node, values in following.read(version, names).items()]

    def _hit(self, version: bestore.Version, node: Node, names: Sequence[str], values: Sequence[Optional[bestore.Value]]) -> Hit:
        """Returns a node with these attributes, and the path of its file."""
        attributes = {name: value for name, value in zip(names, values) if value is not None}
        self._places.locate(version, attributes)
        return Hit(node, attributes)

    def _count(self, version: bestore.Version) -> int:
        """Returns how many nodes a query could find. The nodes are counted only at intervals."""
        if time.monotonic() >= self._counted_at + COUNTING:
            everything = find.everything(self._indices)
            self._all = version.count(everything) if everything else 0
            self._counted_at = time.monotonic()
        return self._all

    def _write(self, session: Session, write: Write) -> None:
        """Makes a write. If the store becomes unavailable first, the write waits until the store is available again."""
        fault: Optional[str] = None
        try:
            session.user.change(lambda change: self._set(change, write))
        except bestore.ProtocolError as error:  # the same write might cause this error again
            self._report(Written(write, str(error)))
            raise
        except bestore.BrokenConnection as error:
            if error.may_be_done:
                self._report(Written(write, str(error)))
            else:
                self._requests.put_back(write)
            raise
        except (NotWritten, columns.NotAValue, bestore.Error) as error:
            fault = str(error)
        except Exception as error:
            self._report(Written(write, reason_of(error)))
            raise
        self._report(Written(write, fault))

    def _set(self, change: bestore.Change, write: Write) -> None:
        """Writes an attribute if it still has the value that the window shows."""
        if write.node not in change:
            raise NotWritten("it is gone")
        typed = change.typed(write.node, write.name)
        if (None if typed is None else typed.value) != write.shown:
            now = "removed it" if typed is None else f"set it to “{columns.text_of(typed.value)}”"
            raise NotWritten(f"another program has {now} in the meantime")
        if write.text:
            kind = self._indices.get(write.name) or (bestore.STRING if typed is None else typed.kind)
            change.set(write.node, write.name, columns.typed_value(write.name, write.text, kind), kind)
        elif typed is not None:
            change.unset(write.node, write.name)
