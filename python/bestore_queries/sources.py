"""The store that a window queries: a server's, or one in this process with a folder's files."""

from __future__ import annotations

import math
from abc import ABC, abstractmethod
from contextlib import ExitStack
from typing import List, NamedTuple, Optional, Set, Tuple

import bestore
from bestore.connected import ConnectedPass, SocketPath, Watch

from . import own_server
from .folder import INDICES, FolderReader, files_below
from .own_server import MOST_PAGES
from .sorted_hits import Node

MANY = 5_000           # the maximum number of journal entries to read in order to find what was set
PAGES_OF_A_FILE = 1.1    # for a file with five attributes, all indexed
GROWTH = 1.3           # how much growth to allow for, as a multiple of the files at the start


def reason_of(error: BaseException) -> str:
    """Returns what an error says, or its class if it says nothing."""
    return str(error) or type(error).__name__


class Condition(NamedTuple):
    """A source's state, for the line below the list."""

    text: str
    is_fault: bool = False


class LiveAnswer(ABC):
    """A query whose changes can be read."""

    @abstractmethod
    def refresh(self, version: bestore.Version) -> Tuple[List[Node], List[Node]]:
        """Returns the nodes that joined and the nodes that left between the last call and this version. The first time, all nodes join."""

    @abstractmethod
    def close(self) -> None:
        """Ends the query."""


class Session(ABC):
    """An open store. All its calls are made by one thread."""

    user: bestore.Pass
    store: str = ""
    """Sessions with the same string have the same nodes."""

    @abstractmethod
    def begin(self, text: str) -> LiveAnswer:
        """Runs a query. Raises a `bestore.QueryError` if the store can't answer the query."""

    @abstractmethod
    def has_news(self) -> bool:
        """Returns whether something may have been written since the last call."""

    def check(self) -> None:
        """Returns once the store has replied. A store in this process always replies."""

    def written(self, since: int, version: bestore.Version) -> Optional[Set[Node]]:
        """Returns the nodes whose attributes were set after this commit, up to a snapshot, or None if there is too much to read,
        or if the server has freed some of it."""
        if not 0 <= version.number - since <= MANY:
            return None
        nodes: Set[Node] = set()
        try:
            for entry in self.user.journal_from(since) if since < version.number else ():
                if entry.number > version.number:
                    break
                nodes.update(it.node for it in entry.operations if isinstance(it, (bestore.SetAttribute, bestore.UnsetAttribute)))
        except bestore.Expired:
            return None
        return nodes

    def close(self) -> None:
        """Closes the store."""
        self.user.close()


class Source(ABC):
    """What a window opens: a store that may have to be reopened."""

    title: str
    """The name in the window's title."""

    @abstractmethod
    def open(self) -> Session:
        """Opens the store. Raises a `bestore.Error` if the store isn't available."""

    @property
    @abstractmethod
    def condition(self) -> Condition:
        """The source's current state."""

    def silence(self, seconds: int) -> str:
        """Returns what to tell the user if the store hasn't replied for this long. Nothing if it is in this process: it is searching."""
        return ""

    def close(self) -> None:
        """Ends everything that belongs only to this window."""


class _Prepared(LiveAnswer):
    """A query on a store in this process."""

    def __init__(self, user: bestore.Pass, text: str) -> None:
        self._query = bestore.prepare(text)
        with user.pin() as version:
            version.explain(text)  # raises the query's error, if it has one in this store

    def refresh(self, version: bestore.Version) -> Tuple[List[Node], List[Node]]:
        return version.refresh(self._query)

    def close(self) -> None:
        self._query.close()


class _Watched(LiveAnswer):
    """A query on a server's store. The server pushes the changes."""

    def __init__(self, user: ConnectedPass, text: str) -> None:
        bestore.prepare(text).close()
        self._watch: Watch = user.watch(text)

    def refresh(self, version: bestore.Version) -> Tuple[List[Node], List[Node]]:
        return self._watch.refresh()

    def close(self) -> None:
        self._watch.close()


class _FolderSession(Session):
    def __init__(self, user: bestore.Pass) -> None:
        self.user = user

    def begin(self, text: str) -> LiveAnswer:
        return _Prepared(self.user, text)

    def has_news(self) -> bool:
        return True


class _ServerSession(Session):
    def __init__(self, user: ConnectedPass) -> None:
        self.user, self._connected = user, user
        if user.server.kept != "each":  # another run of the server may create different nodes
            self.store = user.server.run
        self._commits = user.watch()

    def begin(self, text: str) -> LiveAnswer:
        return _Watched(self._connected, text)

    def has_news(self) -> bool:
        return self._commits.wait(0) is not None

    def check(self) -> None:
        self._connected.status()


def size_for(files: int) -> int:
    """Returns how many pages a store needs for this many files plus some growth, or the most that a store can have."""
    return min(4096 + math.ceil(files * PAGES_OF_A_FILE * GROWTH), MOST_PAGES)


class FolderSource(Source):
    """A store in this process with a folder's files. The store is created when it is first opened, with room for the files that
    exist then."""

    def __init__(self, folder: str, pages: Optional[int] = None, pause: float = 1.0) -> None:
        self.title, self._folder, self._pages, self._pause = folder, folder, pages, pause
        self._store: Optional[bestore.Pass] = None
        self.reader: Optional[FolderReader] = None
        """The folder's reader, once the store has been opened."""

    def open(self) -> Session:
        if self._store is None:
            self._begin()
        assert self._store is not None
        return _FolderSession(self._store.another())

    def _begin(self) -> None:
        """Creates the store and starts its reader. If that fails, nothing is left of them, so the next call begins again."""
        pages = self._pages if self._pages is not None else size_for(sum(1 for _ in files_below(self._folder)))
        with ExitStack() as opened:
            store = opened.enter_context(bestore.open(pages, 3))
            for name, kind in INDICES.items():
                store.make_index(name, kind)
            reader = FolderReader(opened.enter_context(store.another()), self._folder, self._pause)
            reader.start()
            opened.pop_all()
        self._store, self.reader = store, reader

    @property
    def condition(self) -> Condition:
        reader = self.reader
        if reader is None:
            return Condition("reading the folder")
        if reader.fault is not None:
            return Condition(f"The folder is no longer followed: {reason_of(reader.fault)}", True)
        if reader.is_gone:
            return Condition(f"The folder {self._folder} can't be read; the list shows what was in it", True)
        if reader.left_out:
            return Condition(
                f"The store is full: {len(reader):,} files are in, and {reader.left_out:,} aren't. Open the window again, and it "
                "makes room for all", True)
        return Condition("following the folder" if reader.rounds else "reading the folder")

    def close(self) -> None:
        if self.reader is not None:
            self.reader.end()
        if self._store is not None:
            self._store.close()


class ServerSource(Source):
    """A server's store. If no server is named and none is listening, a server is started."""

    def __init__(self, path: Optional[str] = None) -> None:
        self._server: Optional[own_server.OwnServer] = None
        self.path = SocketPath.find(path)
        if path is None and not own_server.listens(self.path):
            self._server = own_server.OwnServer(self.path)
        self.title = "files" if self._server is None else "files on its own server"

    def open(self) -> Session:
        user = bestore.connect(self.path)
        assert isinstance(user, ConnectedPass)
        try:
            return _ServerSession(user)
        except BaseException:
            user.close()
            raise

    @property
    def condition(self) -> Condition:
        return Condition(f"following {self.path}")

    def silence(self, seconds: int) -> str:
        return f"The server at {self.path} hasn't replied for {seconds} seconds. Still waiting for it"

    def close(self) -> None:
        if self._server is not None:
            self._server.close()
