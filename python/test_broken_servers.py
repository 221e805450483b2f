"""Tests of connections to servers that violate the protocol or drop the connection."""

import contextlib
import json
import os
import pickle
import shutil
import signal
import socket
import sys
import tempfile
import threading
import time
import unittest
from unittest import mock

import bestore
from bestore import _connected_watch, _connection, connected, saved

PATIENCE = 30  # seconds that anything may take on a busy machine

HELLO = {
    "protocol": 2, "server": "0", "library": "0", "run": "r", "pass": 5, "kept": "no",
    "limits": {"pages": 8, "passes": 1, "commits": 1, "operations": 64, "line": 1 << 20, "watches": 32},
}


class Fake:
    """A server that responds to each request as a test specifies: by sending bytes, by pausing for some seconds, or, for None,
    by closing the connection."""

    def __init__(self, *answers, hello=None):
        self.folder = tempfile.mkdtemp(prefix="bestored-")
        self.path = os.path.join(self.folder, "socket")
        self.listening = socket.socket(socket.AF_UNIX)
        self.listening.bind(self.path)
        self.listening.listen()
        self.is_ended, self.asked, self.answers = False, [], [[line(1, HELLO)] if hello is None else hello, *answers]
        self.thread = threading.Thread(target=self.serve)
        self.thread.start()

    def serve(self):
        """Serves one connection after another until the test ends."""
        while True:
            connection, _ = self.listening.accept()
            with connection, connection.makefile("rb") as requests, contextlib.suppress(ConnectionError):
                if self.is_ended:
                    return
                self.asked = []
                self.answer(connection, requests)

    def answer(self, connection, requests):
        for answer in self.answers:
            request = requests.readline()
            if not request:
                return
            self.asked.append(json.loads(request))
            for part in answer:
                if part is None:
                    return
                if isinstance(part, float):
                    time.sleep(part)
                else:
                    connection.sendall(part)
        requests.readline()

    def connect(self, timeout=PATIENCE):
        """Connects, and retries if the first reply is late because the machine is busy."""
        until = time.monotonic() + PATIENCE
        while True:
            try:
                return bestore.connect(self.path, timeout)
            except bestore.TimedOut:
                if time.monotonic() > until:
                    raise

    def __enter__(self):
        return self

    def __exit__(self, *_):
        self.is_ended = True
        with socket.socket(socket.AF_UNIX) as last:
            last.connect(self.path)
            self.thread.join()
        self.listening.close()
        shutil.rmtree(self.folder)


def line(number, ok):
    return json.dumps({"id": number, "ok": ok}).encode() + b"\n"


def push(commit, created, removed, **others):
    pushed = {"watch": 1, "commit": commit, "created": created, "removed": removed, **others}
    return json.dumps(pushed).encode() + b"\n"


class Broken(unittest.TestCase):
    """Servers that violate the protocol or drop the connection."""

    def fault(self, call, answer, timeout=PATIENCE):
        """Returns the error that a call raises. Afterwards the connection can't be used."""
        with Fake(answer) as fake, fake.connect(timeout) as store:
            with self.assertRaises(bestore.Error) as fault:
                call(store)
            with self.assertRaises(bestore.Disconnected) as later:
                store.new_node()
            self.assertFalse(later.exception.may_be_done)
            return fault.exception

    def test_closed(self):
        for answer, reason in [([None], ""), ([b'{"id":2,"o', None], " within a line")]:
            fault = self.fault(bestore.Pass.new_node, answer)
            self.assertEqual((type(fault), fault.reason), (bestore.Disconnected, "the server closed the connection" + reason))
            self.assertTrue(fault.may_be_done)

    def test_junk(self):
        for junk in (b"hello\n", b"\n", b"[1]\n", b"\xff\xfe\n", b"[" * 100_000 + b"\n", b'{"id":7,"ok":{}}\n', b'{"ok":{}}\n',
                     b'{"id":2}\n', b'{"id":2,"ok":{"commit":1,"nodes":[]}}\n', b'{"id":2,"ok":[]}\n', b'{"id":2,"error":5}\n',
                     b'{"id":2,"ok":{"commit":1e999,"nodes":[1]}}\n', b'{"watch":"a"}\n', b'{"id":null}\n', b"{" * (3 << 20)):
            fault = self.fault(bestore.Pass.new_node, [junk])
            self.assertEqual((type(fault), fault.may_be_done), (bestore.ProtocolError, True), junk[:40])
            self.assertIn("doesn't follow the protocol", str(fault))

    def test_values(self):
        for value in ("1.5", "[]", "{}", "true", '{"int32":"x"}', '{"date":1}', '{"raw":"A"}', '{"int32":1,"int64":1}'):
            with Fake([line(2, {"commit": 0, "next": 1})], [b'{"id":3,"ok":{"value":%s}}\n' % value.encode()]) as fake:
                with bestore.connect(fake.path) as store, store.pin() as version, self.assertRaises(bestore.ProtocolError):
                    version.get(1, "k")

    def test_no_reply(self):
        for answer in ([], [b'{"id":2,"ok":'], [b"{", *[0.05, b" "] * 20]):
            fault = self.fault(bestore.Pass.new_node, answer, timeout=0.2)
            self.assertEqual((type(fault), fault.may_be_done), (bestore.TimedOut, True))
        self.assertFalse(self.fault(lambda store: store.status(), [], timeout=0.2).may_be_done)

    def test_refused(self):
        for name, error in [("NoPass", bestore.NoPass), ("NotAllowed", bestore.NotAllowed), ("Timeout", bestore.Disconnected)]:
            refused = {"name": name, "message": "why", **({"number": 68} if name == "NoPass" else {})}
            with Fake(hello=[json.dumps({"id": None, "error": refused}).encode() + b"\n", None]) as fake:
                with self.assertRaises(error):
                    bestore.connect(fake.path)
        unknown = b'{"id":1,"error":{"name":"Protocol","message":"why","known":[2]}}\n'
        for answer, error in [([None], bestore.Disconnected), ([line(1, {})], bestore.ProtocolError), ([], bestore.TimedOut),
                              ([unknown], bestore.ProtocolError)]:
            with Fake(hello=answer) as fake, self.assertRaises(error):
                bestore.connect(fake.path, timeout=0.2)

    def test_errors_of_the_server(self):
        for name, error, said in [
            ("NotSaved", bestore.NotSaved, "the write is not saved: why"), ("Stopped", bestore.Stopped, "saving has failed: why"),
            ("NotKept", bestore.NotKept, "why"), ("Other", bestore.ServerRefusal, "why"),
        ]:
            answer = {"id": 2, "error": {"name": name, "message": "why"}}
            with Fake([json.dumps(answer).encode() + b"\n"], [line(3, {"commit": 1, "nodes": [1]})]) as fake:
                with bestore.connect(fake.path) as store:
                    with self.assertRaises(error) as fault:
                        store.flush()
                    self.assertEqual(str(fault.exception), f"{fake.path}: {said}")
                    self.assertEqual(store.new_node(), 1)

    def test_classes_of_the_server(self):
        for refused, error, error_class in [
            ({"name": "Busy", "number": 1}, bestore.Busy, "RETRY"), ({"name": "Expired"}, bestore.Expired, "GONE"),
            ({"name": "TooManyWatches"}, bestore.TooManyWatches, "FULL"), ({"name": "NotLeader"}, bestore.NotLeader, "GONE"),
            ({"name": "Stopped"}, saved.Stopped, "GONE"), ({"name": "Stopped", "class": "full"}, saved.Stopped, "FULL"),
            ({"name": "Later"}, bestore.ServerRefusal, "MINE"), ({"name": "Later", "class": "retry"}, bestore.ServerRefusal, "RETRY"),
            ({"name": "Full", "number": 11, "class": "of later"}, bestore.Full, "FULL"),
            ({"name": "NotReached", "expected": 2, "found": 1}, bestore.NotReached, "RETRY"),
        ]:
            answer = {"id": 2, "error": {**refused, "message": "why"}}
            with Fake([json.dumps(answer).encode() + b"\n"]) as fake, bestore.connect(fake.path) as store:
                with self.assertRaises(error) as fault:
                    store.flush()
                self.assertEqual(fault.exception.error_class, bestore.ErrorClass[error_class], refused)

    def test_pages(self):
        with Fake([line(2, {"commit": 0, "next": 1})], [line(3, {"commit": 0, "count": 5, "nodes": [1, 2], "more": 4})],
                  [line(4, {"commit": 0, "count": 3, "nodes": [4, 6], "more": 9})],
                  [line(5, {"commit": 0, "count": 1, "nodes": [9]})], [line(6, {})]) as fake:
            with bestore.connect(fake.path) as store, store.pin() as version:
                self.assertEqual(version.query("k==1"), [1, 2, 4, 6, 9])
            self.assertEqual([it["query"] for it in fake.asked if "query" in it], [
                {"query": "k==1"}, {"query": "k==1", "from": 4, "uncounted": True}, {"query": "k==1", "from": 9, "uncounted": True}])

    def test_columns(self):
        """Rows may arrive in several replies. Each reply has rows only for requested nodes."""
        pinned = [line(2, {"commit": 0, "next": 1})]
        with Fake(pinned, [line(3, {"commit": 0, "rows": [[1, "a"], [2, None]]})], [line(4, {"commit": 0, "rows": [[3, "c"]]})],
                  [line(5, {})]) as fake, fake.connect() as store:
            with store.pin() as version:
                self.assertEqual(version.columns([7, 8, 9], ["k", "name"]), [[1, 2, 3], ["a", None, "c"]])
            self.assertEqual([it["columns"]["nodes"] for it in fake.asked if "columns" in it], [[7, 8, 9], [9]])
        for rows in [], [[1, 2]] * 3, [[1, 2], [1]], [[1], [1]], [[1, True]], 5, [5]:
            with Fake(pinned, [line(3, {"commit": 0, "rows": rows})]) as fake, fake.connect() as store:
                with self.subTest(rows=rows), store.pin() as version, self.assertRaises(bestore.ProtocolError):
                    version.columns([1, 2], ["k", "name"])

    def test_pushes_between_replies(self):
        """Pushes may arrive before a reply, right after it in the same bytes, or in pieces."""
        with Fake(
            [line(2, {"watch": 1, "commit": 1, "nodes": [1], "more": True}) + push(1, [2], [])],
            [push(2, [3], [1])[:20], 0.02, push(2, [3], [1])[20:] + line(3, {"commit": 3, "nodes": [9]}) + push(3, [1], [2])[:9],
             0.02, push(3, [1], [2])[9:]],
            [push(4, [5], [3], more=True), line(4, {"watch": 1, "commit": 4, "created": [6], "removed": [], "more": True})],
            [line(5, {"watch": 1, "commit": 5, "created": [], "removed": [6]})], [line(6, {})],
        ) as fake, bestore.connect(fake.path) as store, store.watch("k==1") as watch:
            self.assertEqual(watch.wait(PATIENCE), ([1, 2], []))
            self.assertEqual((store.new_node(), watch.commit), (9, 1))
            while watch._last < 3:
                self.assertTrue(store._receive(PATIENCE))
            self.assertEqual((watch.wait(0), watch.commit), (([3], [2]), 3))
            self.assertEqual((watch.refresh(), watch.commit), (([5], [3]), 5))


    def test_push_at_once(self):
        """A new watch receives a push even if the push arrives while the same call ends a dropped version's pin."""
        read_first, pinned = connected.ConnectedWatch._read_first, []

        def forget_and_read(watch, ok):
            pinned.clear()
            return read_first(watch, ok)
        for last, seen in [(push(2, [2], [1]), ([2], [])), (push(2, [], [], error={"name": "NoWatch", "message": "why"}), ([1], []))]:
            with Fake([line(2, {"commit": 0, "next": 1})], [line(3, {"watch": 1, "commit": 1, "nodes": [1]})],
                      [last + line(4, {})]) as fake, fake.connect() as store:
                pinned.append(store.pin())
                with mock.patch.object(connected.ConnectedWatch, "_read_first", forget_and_read):
                    watch = store.watch("k==1")
                self.assertEqual(("unpin" in fake.asked[-1], watch.commit), (True, 1))
                self.assertEqual((watch.wait(0), watch.commit), (seen, 2))
                if "error" in json.loads(last):
                    self.assertRaises(bestore.NoWatch, watch.wait, 0)


    def test_more_nodes_than_the_server_has_room_for(self):
        """A page has 512 words, and each node takes at least one, so a push with more nodes is an error."""
        for pushed, error in [(push(2, list(range(8 * 512)), []), None), (push(2, list(range(8 * 512 + 1)), []), bestore.ProtocolError),
                              (push(2, [], list(range(8 * 512 + 1))), bestore.ProtocolError)]:
            with Fake([line(2, {"watch": 1, "commit": 1, "nodes": []}) + pushed]) as fake, fake.connect() as store:
                watch = store.watch("k==1")
                if error is None:
                    self.assertEqual(watch.wait(PATIENCE), (list(range(8 * 512)), []))
                    continue
                with self.assertRaisesRegex(error, "the server pushed more nodes than its 8 pages have room for"):
                    watch.wait(PATIENCE)
                self.assertRaises(bestore.Disconnected, store.new_node)

    def reach(self, within, times, *answers):
        """Returns the result of `reach`, how long it asked the server to wait each time, and what it raised. The clock shows
        `times`."""
        clock = mock.Mock(monotonic=mock.Mock(side_effect=times))
        with Fake(*([json.dumps({"id": number, **answer}).encode() + b"\n"] for number, answer in enumerate(answers, 2))) as fake:
            with fake.connect(timeout=PATIENCE) as store:
                store._timeout = 2
                raised = reached = None
                with mock.patch.object(connected, "time", clock):
                    try:
                        reached = store.reach(7, within)
                    except bestore.Error as error:
                        raised = error
                self.assertTrue(store._is_open)
                return reached, [it["reach"] for it in fake.asked[1:]], raised

    def test_reach(self):
        """`reach` asks the server repeatedly, so that each reply arrives within the connection's timeout."""
        later = {"error": {"name": "NotReached", "message": "why", "expected": 7, "found": 5}}
        reached, asked, raised = self.reach(2.5, [10, 10, 11, 12], later, later, later)
        self.assertEqual((reached, [it["within"] for it in asked]), (None, [1000, 1000, 500]))
        self.assertEqual((type(raised), raised.expected, raised.found), (bestore.NotReached, 7, 5))
        reached, asked, raised = self.reach(float("inf"), range(9), later, later, {"ok": {"commit": 8}})
        self.assertEqual((reached, asked, raised), (8, [{"commit": 7, "within": 1000}] * 3, None))
        for within in (0, -1):
            self.assertEqual(self.reach(within, [10, 10], {"ok": {"commit": 8}})[1], [{"commit": 7, "within": 0}])


class Interrupt:
    """Raises KeyboardInterrupt once, as a signal might: at the start of one of the package's functions, or at a line of one
    that takes pushes."""

    files = {_connected_watch.__file__, _connection.__file__, connected.__file__}
    taking = {it.__code__ for it in (
        _connection.Connection.receive_pushes, _connection.Connection._can_be_pushed, _connection._can_receive,
        _connection.Connection._take_line,
        _connection.Connection._receive, _connection.Connection._take_other, connected.ConnectedWatch._take)}

    def __init__(self, place):
        self.left = place  # how many places to pass before raising

    def __enter__(self):
        sys.settrace(self.trace)

    def __exit__(self, *_):
        sys.settrace(None)

    def trace(self, frame, event, _):
        if frame.f_code.co_filename in self.files and event == "call" or frame.f_code in self.taking and event == "line":
            self.left -= 1
            if self.left < 0:
                raise KeyboardInterrupt
        return self.trace


class Interrupted(unittest.TestCase):
    """Calls that an exception interrupts at every possible place."""

    answers = {1: {1}, 2: {2}, 3: {3, 4}, 4: {5}}  # the watched query's answer at each commit number
    pushes = push(2, [2], [1]) + push(3, [3], [2], more=True) + push(3, [4], []), push(4, [5], [3, 4])

    def fake(self):
        first, last = self.pushes
        return Fake([line(2, {"watch": 1, "commit": 1, "nodes": [1]}), 0.002, first + last[:9], 0.002, last[9:]])

    def waits(self, place):
        """Waits for pushes, with an interrupt at this place. Returns whether that happened, and whether the connection is still
        open."""
        found, was_interrupted = set(), False
        with self.fake() as fake, fake.connect() as store, store.watch("k==1") as watch:
            while watch.commit < 4 or not found:
                try:
                    with contextlib.nullcontext() if was_interrupted else Interrupt(place):
                        changes = watch.wait(PATIENCE)
                except KeyboardInterrupt:
                    was_interrupted = True
                except bestore.Disconnected:
                    break
                else:
                    self.assertIsNotNone(changes, f"what was pushed is lost by an interrupt at place {place}")
                    found = found.union(changes.created).difference(changes.removed)
                    self.assertEqual(found, self.answers[watch.commit], place)
            return was_interrupted, store._is_open

    def test_waits(self):
        """After an interrupt, either all pushes are still read, or the connection is closed."""
        kept, place, was_interrupted = [], 0, True
        while was_interrupted:
            was_interrupted, is_open = self.waits(place)
            kept.append(is_open)
            place += 1
        self.assertIn(True, kept[:-1])
        self.assertIn(False, kept)

    def test_asks(self):
        """After an interrupt, the pass either works or is disconnected."""
        place, was_interrupted = 0, True
        while was_interrupted:
            was_interrupted = False
            with Fake([line(2, {})], [line(3, {"commit": 1, "nodes": [1]})]) as fake, fake.connect() as store:
                try:
                    with Interrupt(place):
                        store.flush()
                except KeyboardInterrupt:
                    was_interrupted = True
                with contextlib.suppress(bestore.Disconnected):
                    store.flush()
            place += 1

    def test_a_handler_that_raises(self):
        """If a push handler raises, the pass is disconnected, even if the system raises the same error."""
        with self.fake() as fake, fake.connect(timeout=None) as store, store.watch("k==1") as watch:
            store._connection._take_push = lambda push: self.fail_by(TimeoutError("by a handler"))
            watch.wait(0)
            with self.assertRaises(bestore.Disconnected) as fault:
                watch.wait(PATIENCE)
            self.assertIn("by a handler", str(fault.exception))

    def fail_by(self, error):
        raise error


class Closing(unittest.TestCase):
    """A pass or a watch that one thread closes while another one uses it."""

    watched = [line(2, {"watch": 1, "commit": 1, "nodes": []})]

    def closes(self, close):
        """Closes something while another thread waits for a watch, whose wait has to end."""
        with Fake(self.watched, [line(3, {})]) as fake, fake.connect() as store:
            watch, errors = store.watch("k==1"), []

            def wait():
                try:
                    watch.wait()
                except bestore.Error as error:
                    errors.append(type(error))
            waiting, closing = threading.Thread(target=wait), threading.Thread(target=close, args=(store, watch))
            waiting.start()
            while not store._is_asking:
                time.sleep(0.001)
            closing.start()
            closing.join(5)
            was_closed = not closing.is_alive()
            if not was_closed:
                store._connection._socket.shutdown(socket.SHUT_RDWR)
            for thread in (closing, waiting):
                thread.join()
            self.assertEqual((was_closed, errors), (True, [bestore.Closed]))
            return store._is_open

    def test_waits(self):
        self.assertTrue(self.closes(lambda store, watch: watch.close()))
        self.assertFalse(self.closes(lambda store, watch: store.close()))

    def test_beside_a_wait_for_another_watch(self):
        """Closing a watch doesn't wait until another thread's wait for another watch of the pass ends, and that wait goes on."""
        other = [line(3, {"watch": 2, "commit": 1, "nodes": []})]
        with Fake(self.watched, other, [line(4, {}) + push(2, [2], [])]) as fake, fake.connect() as store:
            watch, closed, found = store.watch("k==1"), store.watch("k==2"), []
            waiting = threading.Thread(target=lambda: found.append(watch.wait(PATIENCE)))
            closing = threading.Thread(target=closed.close)
            waiting.start()
            while not store._is_asking:
                time.sleep(0.001)
            closing.start()
            closing.join(5)
            was_closed = not closing.is_alive()
            if not was_closed:
                store._connection._socket.shutdown(socket.SHUT_RDWR)
            for thread in (closing, waiting):
                thread.join()
            self.assertEqual((was_closed, found, fake.asked[-1]), (True, [([2], [])], {"id": 4, "unwatch": {"watch": 2}}))

    def test_watch_closed_by_a_signal(self):
        """A signal handler can close the watch for which its thread waits."""
        with Fake(self.watched, [line(3, {})]) as fake, fake.connect() as store:
            watch = store.watch("k==1")
            self.addCleanup(signal.signal, signal.SIGALRM, signal.signal(signal.SIGALRM, lambda *_: watch.close()))
            signal.setitimer(signal.ITIMER_REAL, 0.05)
            self.assertRaises(bestore.Closed, watch.wait, PATIENCE)
            self.assertEqual((store._is_open, fake.asked[-1]), (True, {"id": 3, "unwatch": {"watch": 1}}))

    def test_watches_closed_at_any_moment(self):
        """A signal handler can close a watch at any moment of the call that ends another one."""
        ends, place, is_reached = connected.ConnectedPass._end_watches.__code__, 0, True
        answers = [line(3, {"watch": 2, "commit": 1, "nodes": []})], *([line(number, {})] for number in (4, 5, 6))
        while is_reached:
            with Fake(self.watched, *answers) as fake, fake.connect() as store:
                watch, other, left = store.watch("k==1"), store.watch("k==2"), [place]

                def trace(frame, *_):
                    if frame.f_code is ends:
                        left[0] -= 1
                        if left[0] == -1:
                            other.close()
                    return trace
                sys.settrace(trace)
                try:
                    watch.close()
                finally:
                    sys.settrace(None)
                is_reached = left[0] < 0
                self.assertEqual((store._ended, store._is_open), ([], True), place)
            place += 1

    def test_other_waits_go_on(self):
        """If another thread ends a wait for a watch that is still open, it goes on, and nothing that was pushed is missed."""
        with Fake([*self.watched, 0.4, push(2, [2], []), 0.05, push(3, [3], [])], [line(3, {})]) as fake, fake.connect() as store:
            with store.watch("k==1") as watch:
                begun = time.monotonic()
                store._ring()
                self.assertIsNone(watch.wait(0.05))
                self.assertGreaterEqual(time.monotonic() - begun, 0.05)
                ringing = threading.Timer(0.02, store._ring)
                ringing.start()
                self.assertEqual(watch.wait(PATIENCE), ([2], []))
                ringing.join()
                self.assertTrue(_connection._can_receive(store._connection._socket, time.monotonic() + PATIENCE))
                store._ring()
                self.assertEqual(watch.wait(0), ([3], []))

    def test_closed_by_a_signal(self):
        """A signal handler can close a pass while a call on it waits."""
        for call in (lambda store, watch: watch.wait(PATIENCE), lambda store, watch: store.status()):
            with Fake(self.watched, []) as fake, fake.connect() as store:
                self.addCleanup(signal.signal, signal.SIGALRM, signal.signal(signal.SIGALRM, lambda *_: store.close()))
                watch = store.watch("k==1")
                signal.setitimer(signal.ITIMER_REAL, 0.05)
                with self.assertRaises((bestore.Disconnected, bestore.Closed)) as fault:
                    call(store, watch)
                if isinstance(fault.exception, bestore.Disconnected):  # the call had begun before the signal came
                    self.assertEqual(str(fault.exception), f"{fake.path}: the connection is closed")
                self.assertRaises(bestore.Closed, watch.wait, 0)

    def test_closed_just_before_it_waits(self):
        """A signal handler closes the pass after the call has looked at the connection."""
        can_receive = _connection._can_receive

        def closed(*given):
            store.close()
            return can_receive(*given)
        with Fake(self.watched) as fake, fake.connect() as store:
            watch = store.watch("k==1")
            with mock.patch.object(_connection, "_can_receive", closed), self.assertRaises(bestore.Disconnected) as fault:
                watch.wait(PATIENCE)
            self.assertEqual(str(fault.exception), f"{fake.path}: the connection is closed")

    def test_closed_while_it_repeats(self):
        """A pass that is closed while another thread repeats a write on it stays closed."""
        with Fake([None]) as fake, bestore.connect(fake.path, repeat=1) as store:
            clock = mock.Mock(monotonic=time.monotonic, sleep=lambda seconds: store.close())
            with mock.patch.object(connected, "time", clock), self.assertRaises(bestore.Closed):
                store.new_node()
            self.assertIsNone(store._connection)

    def test_no_number_of_seconds(self):
        with Fake(self.watched, [line(3, {})]) as fake, fake.connect() as store, store.watch("k==1") as watch:
            with self.assertRaisesRegex(ValueError, "a timeout can't be nan seconds"):
                watch.wait(float("nan"))
            self.assertIsNone(watch.wait(0))


class Repeated(unittest.TestCase):
    def test_change_that_may_be_made(self):
        """A change whose write may have been made doesn't run again, though its function began a watch, so that the write wasn't
        repeated."""
        runs = []

        def watch(change):
            runs.append(store.watch("k==1"))
            change.new()
        with Fake([line(2, {"commit": 0, "next": 1})], [line(3, {"watch": 1, "commit": 0, "nodes": []})], [line(4, {})], [None]) as fake:
            with bestore.connect(fake.path, repeat=1) as store, self.assertRaises(bestore.Disconnected) as fault:
                store.change(watch)
        self.assertEqual((len(runs), fault.exception.may_be_done), (1, True))

    def test_change_whose_watch_would_be_lost(self):
        """A change whose function began a watch doesn't run again on a new connection, which wouldn't have the watch."""
        watches = []

        def watch(change):
            watches.append(store.watch("k==1"))
            change.new()
        with Fake([line(2, {"commit": 0, "next": 1})], [line(3, {"watch": 1, "commit": 0, "nodes": []})], [None]) as fake:
            with bestore.connect(fake.path, repeat=1) as store, self.assertRaises(bestore.Disconnected) as fault:
                store.change(watch)
        self.assertEqual((len(watches), fault.exception.may_be_done), (1, False))

    def test_attempt_that_may_be_made(self):
        """If one attempt may have made a write, no later attempt's error says that nothing was written."""
        ask = connected.ConnectedPass._ask
        for later in bestore.Disconnected("p", "later"), bestore.Stopped("p", "later"), bestore.NoPass():
            errors = [bestore.Disconnected("p", "first", True)]

            def failing(user, command, *given, **named):
                if command == "batch":
                    raise errors.pop() if errors else later
                return ask(user, command, *given, **named)
            with Fake() as fake, bestore.connect(fake.path, repeat=0.2) as store:
                with mock.patch.object(connected.ConnectedPass, "_ask", failing), self.assertRaises(bestore.Disconnected) as fault:
                    store.new_node()
            self.assertEqual((fault.exception.reason, fault.exception.may_be_done), ("first", True))
            self.assertIs(fault.exception.__cause__, later)

    def test_error_of_another_store(self):
        """A change whose function fails because of another store doesn't connect again and again."""
        with Fake(*([line(number, {"commit": 0, "next": 1})] for number in range(2, 30))) as fake:
            with bestore.connect(fake.path, repeat=0.2) as store:
                connection = store._connection
                with self.assertRaises(bestore.Disconnected):
                    store.change(lambda change: self.lose())
                self.assertIs(store._connection, connection)

    def lose(self):
        raise bestore.Disconnected("another", "why")


class Errors(unittest.TestCase):
    def test_pickled(self):
        for fault in (
            bestore.NoServer("p", "why"), bestore.Disconnected("p", "why", True), bestore.TimedOut("p", "why"),
            bestore.ProtocolError("p", "why"), bestore.LineTooLong("p", 5), bestore.Unavailable("p", "meet"),
            bestore.Expired("p", "Expired", "why"),
        ):
            again = pickle.loads(pickle.dumps(fault))
            self.assertEqual((type(again), str(again), vars(again)), (type(fault), str(fault), vars(fault)))
            self.assertIsInstance(fault, bestore.ServerError)


if __name__ == "__main__":
    unittest.main()
