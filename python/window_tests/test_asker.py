"""Tests of the thread that runs queries, without a window."""

from __future__ import annotations

import unittest
from typing import Dict, List, Optional, Sequence, Type
from unittest import mock

import bestore
from bestore_queries import asker
from bestore.local import LocalPass
from bestore.pages import Order
from bestore_queries.asker import (
    Accepted, Ask, Asker, Begin, Came, Counted, First, Lost, Opened, Refused, Sort, Unknown, Went, Write, Written, unknown_names)
from bestore_queries.sources import LiveAnswer, ServerSource, Session, _FolderSession, _ServerSession

import servers
from common import PATIENCE, MadeSource, file_of, files_store, wait_for


class Asking(unittest.TestCase):
    def setUp(self) -> None:
        self.store = files_store()
        self.addCleanup(self.store.close)
        self.names: Dict[int, str] = {}
        self.others: List[asker.Report] = []
        self.count: Optional[Counted] = None
        self.asker = Asker(MadeSource(self.store))
        self.addCleanup(self.asker.end)

    def start(self, query: str, names: Sequence[str] = ("name",), begin: Optional[Begin] = None) -> None:
        self.asker.start()
        self.asker.send(Ask(1, query, names, begin))

    def file(self, name: str, size: int = 1) -> int:
        return file_of(self.store, name=name, size=size)

    def take(self) -> Dict[int, str]:
        """Returns what a window would be showing by now."""
        while not self.asker.reports.empty():
            report = self.asker.reports.get()
            if isinstance(report, Came):
                self.names.update({hit.node: str(hit.attributes["name"]) for hit in report.hits})
            elif isinstance(report, Went):
                for node in report.nodes:
                    del self.names[node]
            elif isinstance(report, Counted):
                self.count = report
            else:
                self.others.append(report)
            if isinstance(report, First):
                self.names.update({hit.node: str(hit.attributes["name"]) for hit in report.hits})
        return self.names

    def becomes(self, *names: str) -> None:
        self.assertTrue(wait_for(lambda: sorted(self.take().values()) == sorted(names)), self.names)

    def has(self, kind: Type[object]) -> bool:
        self.take()
        return any(isinstance(it, kind) for it in self.others)

    def test_follows(self) -> None:
        nodes = [self.file(name) for name in "abc"]
        self.start("size==1")
        self.becomes("a", "b", "c")
        self.assertEqual([type(it) for it in self.others[:2]], [Opened, Accepted])
        self.store.set(nodes[0], "name", "z")
        self.store.set(nodes[1], "size", 2)
        self.store.remove_node(nodes[2])
        self.file("d")
        self.becomes("z", "d")
        self.store.set(nodes[1], "size", 1)
        self.becomes("z", "d", "b")
        self.assertTrue(wait_for(lambda: self.take() is not None and self.count == Counted(1, 3, 0, 3)), self.count)

    def test_unknown_names(self) -> None:
        """Each name is looked for in all nodes, page by page, and reported only if the query finds nothing."""
        last = [self.file(f"{number}") for number in range(5)][-1]
        self.store.set(last, "last", "x")
        query = "size>0 && (last==y || lost==y || lost==z || Last>1 || size>5)"
        with mock.patch.object(asker, "SLICE", 2):
            with self.store.pin() as version:
                self.assertEqual(unknown_names(query, version), ["lost", "Last"])
                with mock.patch.object(asker, "LOOKED_AT", 4):
                    self.assertEqual(unknown_names(query, version), ["last", "lost", "Last"])
            self.start(query)
            self.assertTrue(wait_for(lambda: self.has(Unknown)))
            self.assertEqual([it for it in self.others if isinstance(it, Unknown)], [Unknown(1, ["lost", "Last"])])
            self.asker.send(Ask(2, "size>0 || size<0 && lost==y", ["name"]))
            self.becomes(*"01234")
        self.assertEqual(sum(isinstance(it, Unknown) for it in self.others), 1)

    def firsts(self) -> List[List[int]]:
        """Returns the nodes in each report of first hits."""
        self.take()
        return [[hit.node for hit in it.hits] for it in self.others if isinstance(it, First)]

    def test_first_hits_of_an_order(self) -> None:
        """An order's first hits come before all others. Another order's come as soon as it is requested."""
        nodes = [self.file(name, size) for name, size in [("a", 1), ("b", 3), ("c", 2), ("d", 3)]]
        self.start("size>0", begin=Begin(Order("size", True), 2))
        self.becomes("a", "b", "c", "d")
        self.assertEqual([type(it) for it in self.others[:3]], [Opened, First, Accepted])
        self.assertEqual(self.firsts(), [[nodes[3], nodes[1]]])
        self.asker.send(Sort(2, Begin(Order("size"), 9)))  # belongs to a query that isn't being followed
        self.asker.send(Sort(1, Begin(Order("size"), 3)))
        self.assertTrue(wait_for(lambda: len(self.firsts()) == 2))
        self.assertEqual(self.firsts()[1], [nodes[0], nodes[2], nodes[1]])

    def test_first_hit_that_goes_at_once(self) -> None:
        """A first hit that is gone by the time of the answer, or that joined and left in between, is reported as gone."""
        node, begin = self.file("a"), _FolderSession.begin
        self.file("b")

        def late(session: _FolderSession, text: str) -> LiveAnswer:
            self.store.remove_node(node)
            return begin(session, text)
        with mock.patch.object(_FolderSession, "begin", late):
            self.start("size==1", begin=Begin(Order("size"), 2))
            self.becomes("b")
        self.assertEqual(self.firsts()[0][0], node)
        step, ghosts = Asker._step, []  # type: object, List[int]

        def between(asking: Asker, session: Session, following: asker._Following) -> None:
            if not ghosts:
                with self.store.another() as other:
                    ghosts.append(file_of(other, name="ghost", size=1))
                    asking._sort(session, following, Sort(1, Begin(Order("size", True), 1)))
                    other.remove_node(ghosts[0])
            step(asking, session, following)  # type: ignore[operator]
        with mock.patch.object(Asker, "_step", between):
            self.assertTrue(wait_for(lambda: bool(ghosts)))
        self.file("c")
        self.becomes("b", "c")
        self.assertEqual(self.firsts()[-1], ghosts)

    def test_first_hits_of_no_index(self) -> None:
        """The hits arrive even if no index has their order."""
        self.file("a")
        self.start("size==1", begin=Begin(Order("none"), 2))
        self.becomes("a")
        self.assertEqual(self.firsts(), [[]])

    def test_more_than_the_journal_is_read_for(self) -> None:
        """After many writes, all hits are read again."""
        node = self.file("a")
        with mock.patch("bestore_queries.sources.MANY", 3):
            self.start("size==1")
            self.becomes("a")
            batch = bestore.Batch().set(node, "name", "b")
            for _ in range(9):
                self.store.apply(batch)
            self.becomes("b")

    def test_snapshot_that_is_taken_back(self) -> None:
        """Whatever fails in one step is done in a later one, so nothing is lost."""
        nodes = [self.file(name) for name in "ab"]
        self.start("size==1")
        self.becomes("a", "b")
        reading = asker.Asker._read
        fails = iter([True] * 5)

        def expired(*given: object) -> object:
            if next(fails, False):
                raise bestore.Expired("", "Expired", "")
            return reading(*given)  # type: ignore[arg-type]
        with mock.patch.object(asker.Asker, "_read", expired):
            self.store.apply(bestore.Batch().remove_node(nodes[0]).set(nodes[1], "name", "z"))
            self.file("c")
            self.becomes("z", "c")
            self.assertIsNone(next(fails, None))

    def test_refuses(self) -> None:
        self.file("a")
        for query in ("size<", "none==1", 'name=="[a"'):
            self.setUp()
            self.start(query)
            self.assertTrue(wait_for(lambda: self.has(Refused)))

    def test_writes(self) -> None:
        node = self.file("a")
        self.start("size==1")
        self.becomes("a")
        for write, fault in [
            (Write(node, "BEOS:TYPE", "x", None), None),
            (Write(node, "BEOS:TYPE", "y", None), "another program has set it to “x” in the meantime"),
            (Write(node, "BEOS:TYPE", "", "x"), None),
            (Write(node, "BEOS:TYPE", "", "x"), "another program has removed it in the meantime"),
            (Write(node, "BEOS:TYPE", "", None), None), (Write(999, "BEOS:TYPE", "x", None), "it is gone"),
            (Write(node, "size", "much", 1), "“much” isn't a whole number"),
            (Write(node, "n" * 64, "x", None), "a name is empty or has more than 63 bytes"),
        ]:
            self.others.clear()
            self.asker.send(write)
            self.assertTrue(wait_for(lambda: self.has(Written)))
            self.assertIn(Written(write, fault), self.others)

    def test_store_that_is_not_there(self) -> None:
        no_server = mock.patch.object(MadeSource, "open", side_effect=bestore.NoServer("x", "y"))
        with no_server, mock.patch.object(asker, "RETRY", 0.01):
            self.asker.start()
            self.assertTrue(wait_for(lambda: self.has(Lost)))
        self.assertTrue(wait_for(lambda: self.has(Opened)))

    def test_store_without_memory(self) -> None:
        """An error that isn't the connection's is reported too, and the store is opened again."""
        self.file("a")
        pin, errors = LocalPass.pin, [bestore.NoMemory()]

        def failing(user: LocalPass) -> bestore.Version:
            if errors:
                raise errors.pop()
            return pin(user)
        with mock.patch.object(LocalPass, "pin", failing), mock.patch.object(asker, "RETRY", 0.01):
            self.start("size==1")
            self.becomes("a")
        self.assertEqual([it for it in self.others if isinstance(it, Lost)], [Lost(str(bestore.NoMemory()))])

    def test_error_of_another_program(self) -> None:
        """An error that isn't the package's doesn't end the thread either, even if it can't be printed."""
        node = self.file("a")
        no_terminal = mock.patch.object(asker.traceback, "print_exc", side_effect=OSError("Input/output error"))
        with mock.patch.object(asker, "RETRY", 0.01), no_terminal as printed:
            with mock.patch.object(MadeSource, "open", side_effect=RuntimeError("can't start new thread")):
                self.asker.start()
                self.assertTrue(wait_for(lambda: self.has(Lost)))
            self.assertTrue(wait_for(lambda: self.has(Opened)))
            with mock.patch.object(Asker, "_set", side_effect=MemoryError):
                self.asker.send(Write(node, "BEOS:TYPE", "x", None))
                self.assertTrue(wait_for(lambda: self.has(Written)))
            self.asker.send(Ask(1, "size==1", ("name",)))
            self.becomes("a")
        self.assertEqual(self.reported(), [Written(Write(node, "BEOS:TYPE", "x", None), "MemoryError")])
        self.assertIn(Lost("can't start new thread"), self.others)
        self.assertTrue(printed.called)

    def breaks(self, *errors: Optional[bestore.Error]) -> "mock._patch[object]":
        """Makes the next writes end with these errors instead of being made. For None, the write is made."""
        change, left = bestore.Pass.change, list(errors)

        def broken(user: bestore.Pass, *given: object) -> object:
            error = left.pop(0) if left else None
            if error is not None:
                raise error
            return change(user, *given)  # type: ignore[arg-type]
        return mock.patch.object(bestore.Pass, "change", broken)

    def written(self, *errors: Optional[bestore.Error], count: int) -> List[Written]:
        """Requests three writes together, some of which end with these errors, and returns `count` reports about them."""
        self.nodes = [self.file(name) for name in "abc"]
        for node in self.nodes:
            self.asker.send(Write(node, "BEOS:TYPE", "x", None))
        with mock.patch.object(asker, "RETRY", 0.01), self.breaks(*errors):
            self.start("size==1")
            self.becomes("a", "b", "c")
            self.assertTrue(wait_for(lambda: self.take() is not None and len(self.reported()) >= count))
        return self.reported()

    def reported(self) -> List[Written]:
        return [it for it in self.others if isinstance(it, Written)]

    def types(self) -> List[object]:
        with self.store.pin() as version:
            return version.column(self.nodes, "BEOS:TYPE")

    def test_writes_of_a_store_that_goes(self) -> None:
        """If a write certainly wasn't made, it and the writes after it are made once the store is back."""
        reports = self.written(None, bestore.Disconnected("p", "gone"), bestore.TimedOut("p", "late"), count=3)
        self.assertEqual([(it.write.node, it.fault) for it in reports], [(node, None) for node in self.nodes])
        self.assertEqual((self.types(), self.has(Lost)), (["x"] * 3, True))

    def test_write_that_may_be_made(self) -> None:
        """A write that may have been made is reported and not repeated. The same goes for one that caused a protocol error,
        which it might cause again."""
        for error in (bestore.Disconnected("p", "gone", True), bestore.ProtocolError("p", "junk")):
            with self.subTest(error=error):
                self.setUp()
                reports = self.written(error, count=3)
                self.assertEqual([it.write.node for it in reports], self.nodes)
                self.assertTrue(str(reports[0].fault).startswith(str(error)))
                self.assertEqual(([it.fault for it in reports[1:]], self.types()), ([None, None], [None, "x", "x"]))

    def test_writes_of_another_store(self) -> None:
        """A write for one store isn't made in another that replaces it, because that store's nodes are different."""
        opened, stores = MadeSource.open, iter("12")

        def open_another(source: MadeSource) -> Session:
            session = opened(source)
            session.store = next(stores)
            return session
        with mock.patch.object(MadeSource, "open", open_another):
            reports = self.written(bestore.Disconnected("p", "gone"), count=3)
        self.assertEqual({it.fault for it in reports}, {"there is a different store now"})
        self.assertEqual(self.types(), [None] * 3)

    def test_stores_of_servers(self) -> None:
        """If a server saves its nodes, they are the same in its next run."""
        for kept, store in [("each", ""), ("every", "r"), ("no", "r")]:
            user = mock.Mock(server=mock.Mock(kept=kept, run="r"))
            self.assertEqual(_ServerSession(user).store, store)


@unittest.skipUnless(servers.BESTORED, "BESTORED names no bestored")
class OverServer(unittest.TestCase):
    def reports(self, *options: object) -> List[Written]:
        """Returns the reports about two writes that are sent between killing the server and restarting it."""
        with servers.Server(*options) as server:
            with server.connect() as store:
                nodes = store.new_nodes(2)
            asking = Asker(ServerSource(server.path))
            self.addCleanup(asking.end)
            asking.start()
            self.assertIsInstance(asking.reports.get(timeout=PATIENCE), Opened)
            server.kill()
            for node in nodes:
                asking.send(Write(node, "BEOS:TYPE", "x", None))
            self.assertIsInstance(asking.reports.get(timeout=PATIENCE), Lost)
            server.start()
            found: List[asker.Report] = []
            while sum(isinstance(it, Written) for it in found) < 2:
                found.append(asking.reports.get(timeout=PATIENCE))
            asking.end()
        return [it for it in found if isinstance(it, Written)]

    def test_writes(self) -> None:
        """The writes are made in the next run if it has the same nodes."""
        self.assertEqual([it.fault for it in self.reports("--keep", "FOLDER/file")], [None, None])
        self.assertEqual([it.fault for it in self.reports()], ["there is a different store now"] * 2)

    def test_entries_that_were_freed(self) -> None:
        """If the server has freed entries that haven't been read, all hits are read again."""
        with servers.Server("--pages", 512, "--journal", 1) as server, server.connect() as store:
            store.make_index("size", bestore.INT64)
            node, names = file_of(store, name="a", size=1), []  # type: int, List[object]
            read = store.committed
            asking = Asker(ServerSource(server.path))
            self.addCleanup(asking.end)
            asking.start()
            asking.send(Ask(1, "size==1", ("name",)))

            def shown(name: str) -> bool:
                while not asking.reports.empty():
                    report = asking.reports.get()
                    if isinstance(report, Came):
                        names.extend(hit.attributes["name"] for hit in report.hits)
                return names[-1:] == [name]

            def is_freed() -> bool:
                store.set(node, "name", "b")
                try:
                    return not any(store.journal_from(read))
                except bestore.Expired:
                    return True
            self.assertTrue(wait_for(lambda: shown("a")))
            with mock.patch.object(_ServerSession, "has_news", return_value=False):
                self.assertTrue(wait_for(is_freed))
            self.assertTrue(wait_for(lambda: shown("b")))
            asking.end()


if __name__ == "__main__":
    unittest.main()
