"""Tests of the window on an in-memory display."""

from __future__ import annotations

import os
import re
import shutil
import signal
import stat
import subprocess
import sys
import tempfile
import threading
import unittest
from typing import Dict, List, Tuple
from unittest import mock

import bestore
from bestore import saved
from bestore.connected import SocketPath
from bestore.pages import Order
from bestore_queries import own_server
from bestore_queries.columns import type_in_words
from bestore_queries.find import Relation
from bestore_queries.folder import INDICES
from bestore_queries.saved_queries import Saved, SavedQueries
from bestore_queries.sources import Condition, FolderSource, LiveAnswer, ServerSource, _FolderSession

import servers
from common import HAS_TK, MadeSource, OnDisplay, file_of, files_store, press, shown, wait_for, write

if HAS_TK:
    import tkinter
    from tkinter import ttk
    from bestore_queries import theme
    from bestore_queries.asker import CHECKING, First, Written
    from bestore_queries.window import IDLE_PAUSE, SEARCHING, SILENT, Window


class OverStore(OnDisplay):
    """A window with its own store."""

    def setUp(self) -> None:
        place = tempfile.TemporaryDirectory()
        self.addCleanup(place.cleanup)
        self.folder = place.name
        self.store = files_store()
        self.addCleanup(self.store.close)
        self.source = MadeSource(self.store)
        self.saved = SavedQueries(os.path.join(self.folder, "queries.json"))

    def file(self, name: str, size: int = 1, kind: str = "text/plain", **others: bestore.Value) -> int:
        return file_of(self.store, **{"name": name, "size": size, "last_modified": 1700000000, "BEOS:TYPE": kind, **others})

    def window(self, *names: str) -> "Window":
        """Opens a window with files that have these names, and sizes equal to their positions."""
        for place, name in enumerate(names):
            self.file(name, place, folder=self.folder)
        window = self.show(self.source, saved=self.saved)
        self.shows(window, *sorted(names, key=str.casefold))
        return window


class FirstHits(OverStore):
    """The first hits in an order for which the store has an index."""

    def test_sorting_waits_for_them(self) -> None:
        """The first hits are shown before any others are sorted."""
        window = self.window("c", "b", "a")
        last = next(hit for hit in map(window.hits.__getitem__, range(3)) if hit.attributes["name"] == "c")
        size = next(it for it in window.list.columns if it.attribute == "size")
        with mock.patch.object(window._asker, "send"), mock.patch("bestore_queries.window.FIRST_PAUSE", 1e6):
            window.sort(size)
            window._step()
            self.assertEqual((window.hits.is_sorting, shown(window)), (True, ["a", "b", "c"]))
            window._asker.reports.put(First(window._turn, Order("size"), [last]))
            self.becomes(window, lambda: not window._awaits_first)
        self.shows(window, "c", "b", "a")

    def test_sorting_goes_on_without_them(self) -> None:
        window = self.window("c", "b", "a")
        size = next(it for it in window.list.columns if it.attribute == "size")
        with mock.patch.object(window._asker, "send"), mock.patch("bestore_queries.window.FIRST_PAUSE", 0.0):
            window.sort(size)
            self.shows(window, "c", "b", "a")


class Faults(OverStore):
    """Faults that the first version of the window had."""

    def test_fault_beyond_the_right_edge(self) -> None:
        """The part of the query with the error is shown within the window, and the character is marked."""
        window = self.window("a")
        window.ask(" || ".join(["size==1"] * 100) + " ||")
        self.becomes(window, lambda: "missing" in str(window.message["text"]))
        message, part, caret = str(window.message["text"]).splitlines()
        self.assertEqual(message, "The name of an attribute is missing here")
        self.assertEqual((part[0], part[len(caret) - 2], caret[-1]), ("…", "|", "^"))
        self.assertLessEqual(window.message.winfo_reqwidth(), window.root.winfo_width())
        self.assertEqual(str(window.message["foreground"]), theme.LIGHT.fault)

    def test_fault_ends_the_old_answer(self) -> None:
        """Whatever is wrong, the old hits and their count disappear, and hits come back with the next query."""
        window = self.window("a", "b", "c")
        for query in ("size<", 'name=="[a"', "none==1", "last_modified>soon", "name==\udcff"):
            window.ask("size>0")
            self.shows(window, "b", "c")
            self.assertIn("2 of 3", str(window.state["text"]))
            window.ask(query)
            self.assertEqual((shown(window), len(window.hits)), ([], 0))
            self.becomes(window, lambda: str(window.state["text"]).startswith("no answer"))
            self.assertNotEqual(str(window.message["text"]), "")
            self.assertNotRegex(str(window.message["text"]), "score|version|grammar")

    def test_sorted_insertion(self) -> None:
        """New and changed hits are placed in order."""
        window = self.window("b", "d", "f")
        added = [self.file("c", 9), self.file("a", 8), self.file("g", 7)]
        self.shows(window, "a", "b", "c", "d", "f", "g")
        self.store.set(added[2], "name", "B2")
        self.shows(window, "a", "b", "B2", "c", "d", "f")
        window.sort(window.list.columns[1])
        self.shows(window, "b", "d", "f", "B2", "a", "c")
        self.store.remove_node(added[0])
        self.store.set(added[1], "size", -1)
        self.shows(window, "a", "b", "d", "f", "B2")

    def test_sort_that_stays(self) -> None:
        """The order and its arrow are kept for the next queries."""
        window = self.window("a", "b", "c")
        for turned in ("▲", "▼"):
            window.sort(window.list.columns[1])
            self.assertEqual(window.list.tree.heading("#1", "text"), f"Size {turned}")
            self.assertEqual(window.list.tree.heading("#0", "text"), "Name")
        self.shows(window, "c", "b", "a")
        window.ask("size<2")
        self.shows(window, "b", "a")
        self.file("aa", 1)
        self.shows(window, "aa", "b", "a")
        self.assertEqual(window.list.tree.heading("#1", "text"), "Size ▼")

    def test_store_without_room(self) -> None:
        """The window says in full how many files are missing and what to do about it."""
        for number in range(500):
            write(os.path.join(self.folder, f"{number}"), "")
        window = self.show(FolderSource(self.folder, 128, pause=0.02), saved=self.saved)
        self.becomes(window, lambda: "The store is full" in str(window.notice["text"]))
        self.becomes(window, lambda: window.notice.winfo_viewable() == 1)
        reader = window._source.reader  # type: ignore[attr-defined]
        self.becomes(window, lambda: reader.rounds > 0 and str(window.notice["text"]).startswith(
            f"The store is full: {len(reader):,} files are in, and {500 - len(reader):,} aren't. Open the window again"))
        self.assertEqual((str(window.notice["background"]), str(window.notice["foreground"])), (theme.LIGHT.fault_paper, theme.LIGHT.fault))
        self.assertNotIn("following", str(window.state["text"]))

    def test_folder_that_went(self) -> None:
        """The folder isn't shown as followed until it is back."""
        folder = os.path.join(self.folder, "files")
        os.mkdir(folder)
        write(os.path.join(folder, "a"), "")
        window = self.show(FolderSource(folder, 1024, pause=0.02), saved=self.saved)
        self.shows(window, "a")
        self.becomes(window, lambda: "following the folder" in str(window.state["text"]))
        os.rename(folder, folder + "-gone")
        self.becomes(window, lambda: f"The folder {folder} can't be read" in str(window.notice["text"]))
        self.becomes(window, lambda: "following" not in str(window.state["text"]))
        os.rename(folder + "-gone", folder)
        self.becomes(window, lambda: str(window.notice["text"]) == "" and "following" in str(window.state["text"]))
        self.becomes(window, lambda: not window.notice.winfo_ismapped())

    def test_raw_headers(self) -> None:
        """A subject in raw UTF-8 is shown as it was written."""
        for side in ("cur", "new", "tmp"):
            os.mkdir(os.path.join(self.folder, side))
        write(os.path.join(self.folder, "new", "1"), "Subject: Grüße ✉\nFrom: =?utf-8?q?M=C3=BCller?= <m@x>\n\n")
        window = self.show(FolderSource(self.folder, 1024, pause=0.02), saved=self.saved, is_mail=True)
        self.becomes(window, lambda: [row[:2] for row in window.list.shown()] == [["Grüße ✉", "Müller <m@x>"]])

    def test_missing_index(self) -> None:
        """The error gives the name that has no index, and the names that have one."""
        window = self.window("a")
        window.ask("size>0 || color==red")
        self.becomes(window, lambda: str(window.message["text"]).startswith(
            "“color” has no index. Indexed names: BEOS:TYPE, last_modified, name, size"))
        self.assertEqual(str(window.message["text"]).splitlines()[1:], ["size>0 || color==red", "          ^"])


class Asking(OverStore):
    def test_dates(self) -> None:
        window = self.window("a")
        self.file("new", 1)
        window.ask("last_modified>=%2023-11-14% && last_modified<2023-11-16")
        self.shows(window, "a", "new")
        self.assertIn("last_modified from 14 Nov 2023, 00:00 on", str(window.message["text"]))
        window.ask("last_modified>yesterday")
        self.shows(window)
        window.ask("size>0 && last_modified>2023-13-01")
        self.assertEqual(str(window.message["text"]).splitlines()[0], "“2023-13-01” isn't a date: a year has 12 months")
        self.assertEqual(str(window.message["text"]).splitlines()[2].index("^"), 24)

    def test_hints(self) -> None:
        window = self.window("a")
        window.ask("size<1.5")
        self.becomes(window, lambda: str(window.message["text"]) == "Nothing has size “1.5”: it isn't a whole number.")

    def test_mistyped_name(self) -> None:
        """If a query finds nothing, the window says which of its names nothing has, until the query finds something."""
        window = self.window("a", "b")
        window.ask("size>=0 && siz>5")
        said = "Nothing has an attribute “siz”, and no index has this name."
        self.becomes(window, lambda: str(window.message["text"]) == said)
        self.becomes(window, lambda: str(window.state["text"]).startswith("0 of 2"))
        node = self.file("c", 3, siz=6)
        self.shows(window, "c")
        self.becomes(window, lambda: str(window.message["text"]) == "")
        self.store.set(node, "siz", 1)
        for query in ("size>=0 && siz>5", "size<0"):  # a node has the name
            window.ask(query)
            self.becomes(window, lambda: str(window.state["text"]).startswith("0 of 3"))
            self.assertEqual(str(window.message["text"]), "")

    def test_find_row(self) -> None:
        window = self.window("Report.txt", "other", "REPORT 2")
        window.find_row.choose("name", Relation.CONTAINS, "report")
        self.shows(window, "REPORT 2", "Report.txt")
        self.assertEqual(window.entry.get(), 'name=="*[rR][eE][pP][oO][rR][tT]*"')
        window.find_row.choose("size", Relation.GREATER, "1")
        self.shows(window, "REPORT 2")
        window.find_row.choose("last_modified", Relation.SINCE, "2023-11")
        self.shows(window, "other", "REPORT 2", "Report.txt")

    def test_find_row_by_keys(self) -> None:
        window = self.window("one", "two")
        window.root.update()
        window.find_row.entry.focus_force()
        window.root.update()
        for key in "tw":
            window.find_row.entry.event_generate(f"<Key-{key}>")
        self.shows(window, "two")

    def test_typing(self) -> None:
        """A query runs once nothing has been typed for a moment, and only the last query's answer is shown."""
        window = self.window("a", "b", "c")
        for size in (0, 1, 2, 0, 1):
            window.ask(f"size=={size}")
        self.shows(window, "b")
        window._query.set("size==2")
        self.shows(window, "c")

    def test_index_that_goes(self) -> None:
        window = self.window("a")
        window.ask("size>=0")
        self.shows(window, "a")
        self.store.remove_index("size")
        self.becomes(window, lambda: "“size” has no index" in str(window.message["text"]))
        self.assertEqual((shown(window), str(window.state["text"]).startswith("no answer")), ([], True))

    def test_nothing_to_ask(self) -> None:
        """A store without indices."""
        store = bestore.open(64, 4)
        self.addCleanup(store.close)
        window = self.show(MadeSource(store), saved=self.saved)
        self.becomes(window, lambda: "name of an attribute is missing" in str(window.message["text"]))

    def test_source_with_a_fault(self) -> None:
        window = self.window("a")
        self.source.said = Condition("it is broken", True)
        self.becomes(window, lambda: str(window.notice["text"]) == "it is broken")


class Waiting(OverStore):
    """What the window says while it waits for the store."""

    def test_searching(self) -> None:
        """The window says that it is searching if the answer takes longer than a moment."""
        window, go_on, begin = self.window("a", "b"), threading.Event(), _FolderSession.begin
        self.addCleanup(go_on.set)

        def wait(session: _FolderSession, text: str) -> LiveAnswer:
            go_on.wait()
            return begin(session, text)
        with mock.patch.object(_FolderSession, "begin", wait):
            window.ask("size==1")
            self.becomes(window, lambda: str(window.state["text"]).startswith("searching"))
            go_on.set()
            self.becomes(window, lambda: str(window.state["text"]).startswith("1 of 2"))
        self.assertLessEqual(SEARCHING + IDLE_PAUSE / 1000, 0.2)

    def test_opening(self) -> None:
        """Nor does the window say nothing before the store is open."""
        go_on, source = threading.Event(), self.source
        self.addCleanup(go_on.set)
        with mock.patch.object(source, "open", lambda: go_on.wait() and MadeSource.open(source)):
            window = self.show(source, saved=self.saved)
            self.becomes(window, lambda: str(window.state["text"]) == "opening the store")
            go_on.set()
            self.becomes(window, lambda: str(window.state["text"]).startswith("0"))

    def test_silence(self) -> None:
        """The window says that a server doesn't reply, whether or not there is a query to run, and takes it back once it replies."""
        window, go_on = self.window("a"), threading.Event()
        self.addCleanup(go_on.set)
        with mock.patch.object(self.source, "silence", "silent for {}".format):
            with mock.patch.object(_FolderSession, "check", lambda _: go_on.wait()):
                self.becomes(window, lambda: re.fullmatch("silent for [2-9][0-9]*", str(window.notice["text"])) is not None)
                self.assertEqual(shown(window), ["a"])
                go_on.set()
            self.becomes(window, lambda: str(window.notice["text"]) == "")
        self.assertLessEqual(CHECKING + SILENT + IDLE_PAUSE / 1000, 3)


class SavedOnes(OverStore):
    def test_saves_and_asks(self) -> None:
        window = self.window("a", "b")
        window.choose(["name", "size"])
        window.ask("size==1")
        window._name_query()
        window.name_row.entry.insert("end", "Ones")
        window.name_row.finish()
        self.assertEqual(self.saved.all(), [Saved("Ones", "size==1", ("name", "size"))])
        self.assertEqual(window.root.title(), "Query: Ones")
        window.ask("size==0")
        self.shows(window, "a")
        window.choose(["name"])
        window.query_menu.fill()
        window.query_menu.menu.invoke("Ones")
        self.shows(window, "b")
        self.assertEqual([it.attribute for it in window.list.columns], ["name", "size"])
        window.query_menu.fill()
        removing = window.query_menu.menu.entrycget("end", "menu")
        window.root.tk.call(removing, "invoke", 0)
        self.assertEqual(self.saved.all(), [])

    def test_bad_file(self) -> None:
        write(self.saved.path, "{")
        window = self.window("a")
        window.query_menu.fill()
        self.assertIn("line 1, column 2", str(window.notice["text"]))
        window.save("x")
        with open(self.saved.path, encoding="utf-8") as file:
            self.assertEqual(file.read(), "{")


class Editing(OverStore):
    def edited(self, window: "Window", text: str) -> None:
        """Types a text into the editor and finishes with Return."""
        window.root.update()
        entry = window.list.editor.entry
        assert entry is not None
        entry.delete(0, "end")
        entry.insert(0, text)
        entry.focus_force()
        window.root.update()
        entry.event_generate("<Return>")

    def begin(self, window: "Window", place: int, column: str) -> None:
        """Begins to edit an attribute of a row with F2."""
        press(window, place, [it.attribute for it in window.list.columns].index(column))
        window.list.tree.focus_force()
        window.root.update()
        window.list.tree.event_generate("<F2>")

    def value(self, node: int, name: str) -> object:
        with self.store.pin() as version:
            return version.get(node, name)

    def test_writes(self) -> None:
        window = self.window("a", "b")
        self.begin(window, 1, "BEOS:TYPE")
        self.assertEqual(window.list.editor.text, "text/plain")
        self.edited(window, "text/html")
        self.becomes(window, lambda: window.list.shown()[1][3] == type_in_words("text/html"))
        self.assertEqual((self.value(2, "BEOS:TYPE"), self.value(1, "BEOS:TYPE")), ("text/html", "text/plain"))
        self.begin(window, 1, "BEOS:TYPE")
        self.edited(window, "")
        self.becomes(window, lambda: self.value(2, "BEOS:TYPE") is None)

    def test_new_attribute(self) -> None:
        """An attribute that no file has yet gets the kind of its index."""
        self.store.make_index("rating", bestore.INT32)
        window = self.window("a")
        window.choose(["name", "rating"])
        self.shows(window, "a")
        self.begin(window, 0, "rating")
        self.edited(window, "many")
        self.becomes(window, lambda: "rating isn't set: “many” isn't a whole number" in str(window.notice["text"]))
        self.becomes(window, lambda: window.list.editor.text == "many")  # what was typed isn't lost
        self.edited(window, "5")
        self.becomes(window, lambda: window.list.shown() == [["a", "5"]])
        with self.store.pin() as version:
            self.assertEqual(version.kind(1, "rating"), bestore.INT32)
        self.assertEqual(str(window.notice["text"]), "")

    def test_what_was_typed(self) -> None:
        """If the editor can't be shown again after a write that failed, the window says what was typed."""
        self.store.make_index("rating", bestore.INT32)
        window = self.window("a", "b")
        window.choose(["name", "rating"])
        self.shows(window, "a", "b")
        with mock.patch.object(window._asker, "send") as send:
            self.begin(window, 0, "rating")
            self.edited(window, "many")
            self.begin(window, 1, "rating")
        write, = send.call_args[0]
        for change in (lambda: None, lambda: window.choose(["name"])):  # another cell is being edited; the column isn't shown
            change()
            self.shows(window, "a", "b")
            window._asker.reports.put(Written(write, "why"))
            self.becomes(window, lambda: str(window.notice["text"]) == "rating isn't set: why. You had typed: many")

    def test_beside_another_program(self) -> None:
        """A value that another program has set in the meantime isn't overwritten."""
        window = self.window("a")
        self.begin(window, 0, "BEOS:TYPE")
        self.store.set(1, "BEOS:TYPE", "by another")
        self.becomes(window, lambda: window.list.shown()[0][3] == "by another")
        self.edited(window, "mine")
        self.becomes(window, lambda: "another program has set it to “by another”" in str(window.notice["text"]))
        self.assertEqual(self.value(1, "BEOS:TYPE"), "by another")
        self.becomes(window, lambda: window.list.editor.text == "mine")
        self.edited(window, "mine all the same")
        self.becomes(window, lambda: self.value(1, "BEOS:TYPE") == "mine all the same")

    def test_hit_that_goes(self) -> None:
        window = self.window("a", "b")
        self.begin(window, 0, "BEOS:TYPE")
        window.root.update()
        self.assertIsNotNone(window.list.editor.cell)
        self.store.remove_node(1)
        self.becomes(window, lambda: "is no longer a hit. You had typed: text/plain" in str(window.notice["text"]))
        self.assertIsNone(window.list.editor.cell)

    def test_not_of_files(self) -> None:
        """Attributes that come from the files themselves can't be edited."""
        window = self.window("a")
        window.choose(["name", "size"])
        self.shows(window, "a")
        self.begin(window, 0, "size")
        self.assertIsNone(window.list.editor.cell)
        self.assertIn("what the files themselves contain", str(window.notice["text"]))

    def test_escape(self) -> None:
        window = self.window("a")
        self.begin(window, 0, "BEOS:TYPE")
        window.root.update()
        entry = window.list.editor.entry
        assert entry is not None
        entry.insert("end", "x")
        entry.focus_force()
        window.root.update()
        entry.event_generate("<Escape>")
        window.root.update()
        self.assertEqual((window.list.editor.cell, self.value(1, "BEOS:TYPE")), (None, "text/plain"))


class Typing(OverStore):
    def press_in(self, window: "Window", widget: "tkinter.Widget", key: str) -> None:
        """Presses a key in a widget."""
        widget.focus_force()
        window.root.update()
        widget.event_generate(key)

    def selects_all(self, window: "Window", entry: "ttk.Entry") -> None:
        """Fails if Ctrl-A doesn't select the whole text of an entry."""
        entry.selection_clear()
        self.press_in(window, entry, "<Control-a>")
        self.assertTrue(entry.selection_present(), str(entry))
        self.assertEqual((entry.index("sel.first"), entry.index("sel.last")), (0, len(entry.get())))

    def test_select_all(self) -> None:
        """Ctrl-A selects the whole text of each entry, and every hit in the list."""
        window = self.window("a", "b")
        window.list.selection.choose(0)
        window.list.edit()
        assert window.list.editor.entry is not None
        self.selects_all(window, window.list.editor.entry)
        self.press_in(window, window.list.tree, "<Control-a>")
        self.assertEqual(len(window.list.selection), 2)
        window.name_row.show("Mine")
        self.selects_all(window, window.name_row.entry)
        window.find_row.entry.insert(0, "a")  # this runs a query, so the list may change from here on
        self.selects_all(window, window.find_row.entry)
        self.selects_all(window, window.entry)

    def test_paste(self) -> None:
        """Text pasted while an attribute is being edited replaces the selection."""
        window = self.window("a")
        window.list.selection.choose(0)
        window.list.edit()
        entry = window.list.editor.entry
        assert entry is not None
        self.assertEqual((entry.get(), entry.selection_present()), ("text/plain", True))
        window.root.clipboard_clear()
        window.root.clipboard_append("text/html")
        entry.focus_force()
        window.root.update()
        entry.event_generate("<<Paste>>")
        self.assertEqual(entry.get(), "text/html")


class Opening(OverStore):
    def setUp(self) -> None:
        super().setUp()
        program = os.path.join(self.folder, "xdg-open")
        write(program, f'#!/bin/sh\nbasename "$1" >>{self.folder}/opened\nexit "$(cat "$1")"\n')
        os.chmod(program, stat.S_IRWXU)
        patched = mock.patch.dict(os.environ, {"PATH": f"{self.folder}:/usr/bin:/bin"})
        patched.start()
        self.addCleanup(patched.stop)

    def opened(self) -> List[str]:
        path = os.path.join(self.folder, "opened")
        if not os.path.exists(path):
            return []
        with open(path, encoding="utf-8") as file:
            return file.read().split()

    def test_opens(self) -> None:
        for name, code in (("a", "0"), ("b", "4")):
            write(os.path.join(self.folder, name), code)
        window = self.window("a", "b", "c")
        press(window, 0, times=2)
        self.becomes(window, lambda: self.opened() == ["a"])
        window.list.tree.focus_force()
        window.root.update()
        window.list.tree.event_generate("<Down>")
        window.list.tree.event_generate("<Return>")
        self.becomes(window, lambda: self.opened() == ["a", "b"])
        self.becomes(window, lambda: "no program opens a file of this type" in str(window.notice["text"]))
        press(window, 2, times=2)
        self.becomes(window, lambda: "it isn't there any more" in str(window.notice["text"]))
        self.assertEqual(self.opened(), ["a", "b"])


class Listing(OverStore):
    def test_scrolls_and_selects(self) -> None:
        """The widget contains only the visible rows."""
        names = [f"{number:03}" for number in range(300)]
        for name in names:
            self.file(name)
        window = self.show(self.source, saved=self.saved)
        self.becomes(window, lambda: len(window.hits) == 300 and len(shown(window)) > 5)
        room = len(shown(window))
        self.assertLess(room, 40)
        self.assertEqual(shown(window), names[:room])
        tree = window.list.tree
        tree.focus_force()
        window.root.update()
        tree.event_generate("<End>")
        self.becomes(window, lambda: shown(window) == names[-room:])
        tree.event_generate("<Shift-Prior>")
        window.root.update()
        self.assertEqual(len(window.list.selection), room + 1)
        tree.event_generate("<Button-4>")
        window.root.update()
        self.assertEqual(shown(window)[0], names[-room - 4])
        window.list._scroll("moveto", "0.5")
        self.assertEqual(shown(window)[0], "150")
        self.file("0000")
        self.becomes(window, lambda: len(window.hits) == 301)
        self.assertEqual(shown(window)[0], "150")  # the list stays where the user was reading
        tree.event_generate("<Control-a>")
        self.assertEqual(len(window.list.selection), 301)
        tree.event_generate("<Return>")
        self.assertIn("at most 20 can be opened", str(window.notice["text"]))

    def test_icons_and_lines(self) -> None:
        self.file("a\nb", kind="inode/directory")
        self.store.set(self.store.new_node(), "size", 5)
        window = self.show(self.source, saved=self.saved)
        window.ask("size>=0")
        self.shows(window, "a␣b", "node 2")

    def test_eight_columns(self) -> None:
        """Whatever is chosen in the Attributes menu can be seen, and names keep their width."""
        window = self.window("a", "b")
        window.choose(["name", "size", "last_modified", "BEOS:TYPE", "folder", "created", "Audio:Artist", "rating"])
        self.shows(window, "a", "b")
        self.becomes(window, lambda: bool(window.list.bar_below.winfo_viewable()))
        tree = window.list.tree
        self.assertGreaterEqual(tree.column("#0", "width"), 160)
        tree.xview_moveto(1)
        window.root.update()
        x, _, width, _ = map(int, tree.bbox("0", "#7"))
        self.assertLessEqual(x + width, tree.winfo_width())
        self.assertGreaterEqual(x, 0)

    def test_resizing(self) -> None:
        for number in range(50):
            self.file(f"{number:02}")
        window = self.show(self.source, saved=self.saved)
        self.becomes(window, lambda: len(shown(window)) > 10)
        before = len(shown(window))
        window.root.geometry("940x300")
        self.becomes(window, lambda: len(shown(window)) < before)
        window.root.geometry("940x560")
        self.becomes(window, lambda: len(shown(window)) == before)


@unittest.skipUnless(servers.BESTORED, "BESTORED names no bestored")
class OverServer(OnDisplay):
    """A window with a server's store."""

    options: List[object] = []

    def setUp(self) -> None:
        self.server = servers.Server(*self.options)
        self.addCleanup(self.server.close)
        self.store = self.server.connect()
        self.addCleanup(self.store.close)
        self.saved = SavedQueries(os.path.join(self.server.folder, "queries.json"))

    def make_files(self) -> None:
        for name, kind in INDICES.items():
            self.store.make_index(name, kind)
        home: Dict[str, bestore.Value] = {"name": "home", "FILE:root": "/home", "BEOS:TYPE": "inode/directory"}
        self.home = file_of(self.store, **home)
        self.nodes = [self.make_file(name, 5) for name in ("b", "a")]

    def make_file(self, name: str, size: int) -> int:
        values: Dict[str, bestore.Value] = {"name": name, "size": size, "FILE:parent": self.home}
        return file_of(self.store, **values)

    def test_follows(self) -> None:
        self.make_files()
        window = self.show(ServerSource(self.server.path), saved=self.saved)
        window.ask("size>=0")
        self.becomes(window, lambda: [(row[0], row[4]) for row in window.list.shown()] == [("a", "/home"), ("b", "/home")])
        self.assertIn("2 of 3", str(window.state["text"]))
        added = self.make_file("c", 6)
        self.shows(window, "a", "b", "c")
        self.store.set(self.nodes[0], "name", "z")
        self.shows(window, "a", "c", "z")
        self.store.set(self.home, "FILE:root", "/house")  # the folder is renamed
        self.becomes(window, lambda: {row[4] for row in window.list.shown()} == {"/house"})
        self.store.remove_node(added)
        self.shows(window, "a", "z")
        self.assertNotRegex(str(window.state["text"]), "score|version")

    def show_edit(self) -> Window:
        """Shows the files, and types in the first one's cell for its type."""
        self.make_files()
        window = self.show(ServerSource(self.server.path), saved=self.saved)
        self.shows(window, "a", "b", "home")
        press(window, 0, 3)
        window.list.edit()
        entry = window.list.editor.entry
        assert entry is not None
        entry.insert(0, "text/x")
        return window

    def test_edits(self) -> None:
        window = self.show_edit()
        window.list.editor._finish(True)
        self.becomes(window, lambda: window.list.shown()[0][3] == "text/x")

    def test_server_that_goes(self) -> None:
        """The window reports it, the list is emptied, and everything comes back with the server."""
        self.make_files()
        window = self.show(ServerSource(self.server.path), saved=self.saved)
        window.ask("size>=0")
        self.shows(window, "a", "b")
        self.server.kill()
        self.becomes(window, lambda: "The store can't be reached" in str(window.notice["text"]))
        self.assertEqual((shown(window), str(window.state["text"])), ([], ""))
        self.server.start()
        self.store = self.server.connect()
        self.make_files()
        self.shows(window, "a", "b")
        self.becomes(window, lambda: str(window.notice["text"]) == "")

    def test_server_that_hangs(self) -> None:
        """The window says so, even if nothing is asked, and goes on as soon as the server does."""
        self.make_files()
        window = self.show(ServerSource(self.server.path), saved=self.saved)
        self.shows(window, "a", "b", "home")
        hangs = f"The server at {re.escape(self.server.path)} hasn't replied for [0-9]+ seconds. Still waiting for it"
        for query in ("", "size>=0"):
            self.server.process.send_signal(signal.SIGSTOP)
            if query:
                window.ask(query)
                self.becomes(window, lambda: str(window.state["text"]).startswith("searching"))
            self.becomes(window, lambda: re.fullmatch(hangs, str(window.notice["text"])) is not None)
            self.server.process.send_signal(signal.SIGCONT)
            self.becomes(window, lambda: str(window.notice["text"]) == "")
        self.shows(window, "a", "b")

    def test_start_with_a_server_that_hangs(self) -> None:
        """The window opens all the same, and starts no server of its own."""
        self.server.process.send_signal(signal.SIGSTOP)
        with mock.patch.dict(os.environ, {"BESTORE_SOCKET": self.server.path, "PATH": ""}):
            window = self.show(ServerSource(), saved=self.saved)
        self.becomes(window, lambda: "hasn't replied for" in str(window.notice["text"]))
        self.server.process.send_signal(signal.SIGCONT)
        self.becomes(window, lambda: "following" in str(window.state["text"]))

    def test_edit_as_the_server_goes(self) -> None:
        """What was typed is shown, even once the server is back."""
        window = self.show_edit()
        self.server.kill()
        self.becomes(window, lambda: "The store can't be reached" in str(window.notice["text"]))
        self.assertRegex(str(window.notice["text"]), "\nThe list was emptied during an edit. You had typed: text/x$")
        self.server.start()
        self.store = self.server.connect()
        self.make_files()
        self.shows(window, "a", "b", "home")
        self.assertEqual(str(window.notice["text"]), "The list was emptied during an edit. You had typed: text/x")
        window.ask("size>=0")
        self.becomes(window, lambda: str(window.notice["text"]) == "")

    def start_own(self) -> Tuple[str, Dict[str, str]]:
        """Returns the path of a socket, and the variables with which a window starts its own server there."""
        folder = tempfile.mkdtemp(prefix="own-", dir=servers.MEMORY)
        self.addCleanup(shutil.rmtree, folder, ignore_errors=True)  # a server that is ending may still remove files
        program = os.path.join(folder, "bestored")
        os.symlink(str(servers.BESTORED), program)
        socket = os.path.join(folder, "run", "socket")
        os.mkdir(os.path.dirname(socket), 0o700)
        return socket, {"PATH": folder, "BESTORE_SOCKET": socket, "XDG_DATA_HOME": os.path.join(folder, "data")}

    def test_own_server(self) -> None:
        """If no server is listening, the window starts one that saves its store, and stops it later."""
        socket, changed = self.start_own()
        for kept in (0, 1):
            with mock.patch.dict(os.environ, changed):
                source = ServerSource()
            with bestore.connect(socket) as store, store.pin() as version:
                self.assertEqual(len(version.indices()), kept)
            with bestore.connect(socket) as store:
                if not kept:
                    store.make_index("name", bestore.STRING)
            source.close()
            with self.assertRaises(bestore.NoServer):
                bestore.connect(socket)

    def test_own_server_of_a_large_store(self) -> None:
        """The store may have been written by a server with more pages."""
        socket, changed = self.start_own()
        with mock.patch.dict(os.environ, changed):
            os.makedirs(os.path.dirname(own_server.kept_path()))
            with saved.open(own_server.kept_path(), 256) as store:
                while store.status().free > 128:
                    store.set(store.new_node(), "text", "a" * 255)
            with mock.patch.object(own_server, "PAGES", 64):
                source = ServerSource()
        with bestore.connect(socket) as connected:
            self.assertGreater(connected.status().pages, 64)
        source.close()

    def test_own_server_of_a_killed_window(self) -> None:
        """A server that the window has started ends with the window's process, whatever ends that."""
        for number in (signal.SIGTERM, signal.SIGKILL):
            socket, changed = self.start_own()
            window = subprocess.Popen([sys.executable, "-m", "bestore_queries"], stdin=subprocess.DEVNULL, env={**os.environ, **changed})
            try:
                self.assertTrue(wait_for(lambda: own_server.listens(SocketPath.find(socket))))
            finally:
                window.send_signal(number)
                window.wait()
            self.assertTrue(wait_for(lambda: not own_server.listens(SocketPath.find(socket))), f"signal {number}")


if __name__ == "__main__":
    unittest.main()
