"""The window: a Find row, the query as a formula, its errors, the list, and the lines below the list."""

from __future__ import annotations

import queue
import time
import tkinter as tk
import tkinter.font
from tkinter import ttk
from typing import List, Mapping, Optional, Sequence, Union

import bestore
from bestore.pages import Order

from . import columns, find, theme, typed_query
from .asker import (
    Accepted, Ask, Asker, Begin, Came, Counted, First, Lost, Named, Opened, Refused, Report, Sort, Unknown, Went, Write, Written)
from .attribute_editor import Cell
from .columns import Column
from .find_row import FindRow
from .hit_list import Actions, HitList
from .opening import CannotOpen, Opening
from .places import path_of
from .query_menu import AttributeMenu, NameRow, QueryMenu
from .saved_queries import BadFile, Saved, SavedQueries
from .sorted_hits import Hit, SortedHits
from .sources import Source
from .theme import LIGHT, Palette

BUDGET = 0.015      # seconds to spend on reports at a time
BUSY_PAUSE = 5      # milliseconds until the next check for reports, if there were any
IDLE_PAUSE = 50     # milliseconds until the next check, if there were none
TYPING_PAUSE = 150  # milliseconds without a keystroke before a query runs
FIRST_PAUSE = 0.1   # seconds that sorting waits for an order's first hits, which the store may find immediately
SEARCHING = 0.1     # seconds that an answer may take before the window says that it is searching
SILENT = 1.5        # seconds that the store may take to reply before the window says so
LINES = 3           # below the query: what is wrong with it, and where


class Window:
    """The window that shows a source."""

    def __init__(self, root: tk.Tk, source: Source, saved: Optional[SavedQueries] = None, is_mail: bool = False,
                 palette: Palette = LIGHT) -> None:
        self.root, self._source, self._is_mail = root, source, is_mail
        self._saved = SavedQueries() if saved is None else saved
        self.hits = SortedHits()
        self._indices: Mapping[str, bestore.Kind] = {}
        self._attributes: List[str] = []  # the first hits' attributes
        self._chosen: List[str] = []      # the attributes that the user has chosen to show
        self._query, self._typing = tk.StringVar(root), ""
        self._typed = typed_query.TypedQuery("", "", ())
        self._fault: Optional[typed_query.Fault] = None
        self._hints: List[bestore.Hint] = []
        self._unknown: List[str] = []     # names in the query that nothing has
        self._turn, self._is_answered = 0, False
        self._asked_at = time.monotonic()
        self._awaits_first = False  # whether first hits were requested and haven't arrived yet
        self._sorts_at = 0.0        # when sorting stops waiting for these hits
        self._count: Optional[Counted] = None
        self._is_open, self._lost = False, ""
        self._openings: List[Opening] = []
        self._is_ended, self._next_step = False, ""
        self._look = theme.apply(root, palette)
        self._build_head()
        self._build_foot()
        self._build_list()
        self._bind()
        self.name(source.title)
        self._asker = Asker(source)
        self._asker.start()
        self._step()

    def _build_head(self) -> None:
        pixels, palette = self._look.pixels, self._look.palette
        strip = tk.Frame(self.root, background=palette.desktop)
        self._tab = tk.Label(strip, background=palette.tab, foreground=palette.tab_text, padx=pixels(14), pady=pixels(4), font="TkCaptionFont")
        self._tab.pack(side="left")
        strip.pack(fill="x")
        head = tk.Frame(self.root, background=palette.face, padx=pixels(12), pady=pixels(10))
        head.pack(fill="x")
        self.find_row = FindRow(head, self._look, self._found)
        self.find_row.pack(fill="x")
        self.query_menu = QueryMenu(self.find_row, self._saved, self.ask_saved, self._name_query, self.warn)
        self.attribute_menu = AttributeMenu(self.find_row, self.choose)
        self.find_row.put_beside(self.query_menu, self.attribute_menu)
        self.name_row = NameRow(head, self._look, self.save)
        self.entry = ttk.Entry(head, textvariable=self._query, font="TkFixedFont")
        self.entry.pack(fill="x", pady=(pixels(8), 0))
        self.message = tk.Label(head, background=palette.face, anchor="nw", justify="left", font="TkFixedFont", padx=pixels(6), height=1)
        self.message.pack(fill="x", pady=(pixels(4), 0))

    def _build_foot(self) -> None:
        pixels, palette = self._look.pixels, self._look.palette
        self.state = tk.Label(self.root, background=palette.face, foreground=palette.quiet)
        self.state.pack(side="bottom", fill="x")
        self.notice = tk.Label(self.root, background=palette.fault_paper, foreground=palette.fault, justify="left")
        for label in (self.state, self.notice):
            label.configure(anchor="w", padx=pixels(12), pady=pixels(5))
        self._warning = ""

    def _build_list(self) -> None:
        self.list = HitList(self.root, self._look, self.hits, Actions(self.open, self._write, self.sort, self.warn))
        self.list.pack(fill="both", expand=True, padx=self._look.pixels(12))
        self.list.show_columns([columns.column_of("name")])

    def _bind(self) -> None:
        self._query.trace_add("write", lambda *_: self._typed_something())
        for key in ("<Return>", "<KP_Enter>"):
            self.entry.bind(key, lambda _: self._ask())
        self.entry.bind("<Down>", lambda _: self.list.tree.focus_set())
        self.find_row.entry.bind("<Down>", lambda _: self.list.tree.focus_set())
        self.entry.bind("<Key>", lambda _: self.find_row.empty())
        self.root.bind("<Control-f>", lambda _: self.find_row.entry.focus_set())
        self.root.bind("<Control-l>", lambda _: self.entry.focus_set())
        self.root.bind("<Control-s>", lambda _: self._name_query())
        self.root.bind("<Control-w>", lambda _: self.close())
        self.root.protocol("WM_DELETE_WINDOW", self.close)
        self.notice.bind("<Configure>", lambda event: self.notice.configure(wraplength=event.width - 2 * self._look.pixels(12)))
        self.message.bind("<Configure>", lambda _: self._tell_query())

    def close(self) -> None:
        """Closes the window and everything that belongs to it."""
        if not self._is_ended:
            self.end()
            self.root.destroy()

    def end(self) -> None:
        """Stops the thread that runs queries."""
        self._is_ended = True
        for waiting in (self._next_step, self._typing):
            if waiting:
                self.root.after_cancel(waiting)
        self._asker.end()

    # What the user does.

    def ask(self, text: str) -> None:
        """Enters a query, and runs it immediately."""
        self._query.set(text)
        self._ask()

    def ask_saved(self, saved: Saved) -> None:
        """Runs a saved query, with the columns that it was saved with."""
        self._chosen = list(saved.columns)
        self.find_row.empty()
        self.name(saved.name)
        self.ask(saved.query)

    def _found(self, query: str) -> None:
        """Runs a query from the Find row."""
        self._query.set(query)

    def _typed_something(self) -> None:
        if self._typing:
            self.root.after_cancel(self._typing)
        self._typing = self.root.after(TYPING_PAUSE, self._ask)

    def _ask(self) -> None:
        """Runs the entered query. The old answer disappears immediately, even if there is no query to run."""
        if self._typing:
            self.root.after_cancel(self._typing)
        self._typing = ""
        self._turn += 1
        self._asked_at = time.monotonic()
        self._fault, self._hints, self._unknown, self._warning = None, [], [], ""
        self._take_nothing()
        text = self._query.get()
        try:
            self._typed = typed_query.read(text)
        except typed_query.TypedFault as error:
            self._typed, self._fault = typed_query.TypedQuery(text, "", ()), error.fault
        self._show_columns()
        if self._is_open and self._fault is None:
            begin = self._begin()
            self._asker.send(Ask(self._turn, self._typed.sent, [it.attribute for it in self._columns()], begin))
            self._await_first(begin)
        self._tell_query()
        self._tell_state()

    def choose(self, attributes: Sequence[str]) -> None:
        """Shows these attributes as columns, and requests their values."""
        self._chosen = list(attributes)
        self._ask()

    def sort(self, column: Column) -> None:
        """From now on, sorts the hits by a column, or reverses the order if the hits are already sorted by that column."""
        is_turned = self.hits.attribute == column.attribute and not self.hits.will_be_turned
        self.hits.sort(column.attribute, is_turned)
        begin = self._begin()
        if begin is not None and self._is_answered:
            self._asker.send(Sort(self._turn, begin))
            self._await_first(begin)
        self.list.show_order()
        self.list.paint()

    def _begin(self) -> Optional[Begin]:
        """Returns which hits the list begins with, if an index provides the list's order: the visible hits and one more page.
        An index of strings doesn't provide that order, because the list ignores case."""
        attribute = self.hits.attribute
        if not columns.is_number(self._indices.get(attribute)):
            return None
        return Begin(Order(attribute, self.hits.will_be_turned), 2 * self.list.room)

    def _await_first(self, begin: Optional[Begin]) -> None:
        """If first hits were requested, checks for reports at short intervals until they arrive."""
        self._awaits_first = begin is not None
        if self._awaits_first:
            self._sorts_at = time.monotonic() + FIRST_PAUSE
            self._look_after(BUSY_PAUSE)

    def _may_sort(self) -> bool:
        """Returns whether to sort hits now. Sorting would keep the thread that runs queries from reading the first hits."""
        return self.hits.is_sorting and not (self._awaits_first and time.monotonic() < self._sorts_at)

    def _look_after(self, milliseconds: int) -> None:
        """Schedules the next check for reports."""
        if self._next_step:
            self.root.after_cancel(self._next_step)
        self._next_step = self.root.after(milliseconds, self._step)

    def open(self, hits: List[Hit]) -> None:
        """Opens files with the desktop's programs."""
        self._warning = ""
        for hit in hits:
            try:
                self._openings.append(Opening(path_of(hit.attributes), str(hit.attributes.get("name", f"node {hit.node}"))))
            except CannotOpen as error:
                self.warn(str(error))
        self._show_notice()

    def _look_at_openings(self) -> None:
        for opening in list(self._openings):
            try:
                has_ended = opening.has_ended()
            except CannotOpen as error:
                has_ended = True
                self.warn(str(error))
            if has_ended:
                self._openings.remove(opening)

    def _write(self, cell: Cell, text: str) -> None:
        """Writes an edited attribute."""
        self._warning = ""
        self._show_notice()
        self._asker.send(Write(cell.node, cell.column.attribute, text, cell.value))

    def _name_query(self) -> None:
        self.name_row.show("" if self._tab_text == self._source.title else self._tab_text)

    def save(self, name: str) -> None:
        """Saves the query and its columns."""
        try:
            self._saved.save(Saved(name, self._query.get(), tuple(it.attribute for it in self._columns())))
        except BadFile as error:
            self.warn(str(error))
        else:
            self.name(name)

    def name(self, name: str) -> None:
        """Sets the window's name."""
        self._tab_text = name
        self._tab.configure(text=f"Query: {name}")
        self.root.title(f"Query: {name}")

    def warn(self, text: str) -> None:
        """Shows that something couldn't be done, until the user's next action."""
        self._warning = text
        self._show_notice()

    # What the thread reports.

    def _step(self) -> None:
        """Takes reports for a short time, and schedules itself again as long as the window exists."""
        end, is_busy, is_changed = time.monotonic() + BUDGET, self.hits.is_sorting or self._awaits_first, False
        awaited_first = self._awaits_first
        while time.monotonic() < end:
            try:
                report = self._asker.reports.get_nowait()
            except queue.Empty:
                break
            self._take(report)
            is_busy = is_changed = True
        has_first = awaited_first and not self._awaits_first  # paint the first hits before anything is sorted
        while not has_first and self._may_sort() and time.monotonic() < end:
            is_changed = self.hits.step() or is_changed
        if is_changed:
            self.list.paint()
        self._look_at_openings()
        self._show_notice()
        self._tell_state()
        self._look_after(BUSY_PAUSE if is_busy else IDLE_PAUSE)

    def _take(self, report: Report) -> None:
        if isinstance(report, (Opened, Lost)):
            self._take_source(report)
        elif isinstance(report, Written):
            self._take_written(report)
        elif report.turn == self._turn:
            self._take_answer(report)

    def _take_source(self, report: Union[Opened, Lost]) -> None:
        if isinstance(report, Opened):
            self._is_open, self._lost = True, ""
            self._take_indices(report.indices)
            warning = self._warning
            self.ask(self._query.get() or find.everything(self._indices) or "")
            self.warn(warning)  # because the user may not have seen it yet
        else:
            self._is_open, self._lost = False, report.reason
            self._take_nothing()

    def _take_indices(self, indices: Mapping[str, bestore.Kind]) -> None:
        self._indices = indices
        self.find_row.take_indices(indices)
        self._offer_attributes()

    def _take_answer(self, report: Union[Accepted, Refused, Named, Unknown, First, Came, Went, Counted]) -> None:
        if isinstance(report, (First, Accepted, Refused)):
            self._awaits_first = False
        if isinstance(report, (First, Came)):
            for hit in report.hits:
                self.hits.put(hit)
            if isinstance(report, First) and report.order == Order(self.hits.attribute, self.hits.will_be_turned):
                self.hits.show_first([hit.node for hit in report.hits])
        elif isinstance(report, Went):
            for node in report.nodes:
                self.hits.remove(node)
                self.list.hit_went(node)
        elif isinstance(report, Counted):
            self._count = report
            if report.hits:
                self._tell_unknown([])
        elif isinstance(report, Unknown):
            self._tell_unknown(report.names)
        elif isinstance(report, Named):
            self._attributes = report.names
            self._offer_attributes()
        elif isinstance(report, Accepted):
            self._is_answered, self._hints = True, report.hints
            self._tell_query()
        else:
            self._refuse(report)

    def _take_nothing(self) -> None:
        """Shows no hits, because there is no answer."""
        self._is_answered, self._awaits_first, self._count = False, False, None
        self.hits.clear()
        self.list.clear()

    def _refuse(self, report: Refused) -> None:
        """Shows that the query isn't being followed, so the list isn't the query's answer."""
        self._take_nothing()
        self._take_indices(report.indices)
        self._fault = typed_query.fault_of(report.error, self._typed, report.indices)
        self._tell_query()

    def _take_written(self, report: Written) -> None:
        if report.fault is None:
            return
        write = report.write
        self.warn(f"{write.name} isn't set: {report.fault}")
        if not self._edit_again(write) and write.text:
            self.warn(f"{self._warning}. You had typed: {write.text}")

    def _edit_again(self, write: Write) -> bool:
        """Shows the editor again with what was typed, if that is possible."""
        hit = self.hits.get(write.node)
        if hit is None or self.list.editor.cell is not None:
            return False
        now = hit.attributes.get(write.name)
        self.list.edit_cell(Cell(write.node, columns.column_of(write.name, self._indices.get(write.name)), now), write.text)
        return self.list.editor.cell is not None

    # What the window shows.

    def _columns(self) -> List[Column]:
        if self._chosen:
            return columns.columns_of(self._chosen, self._indices)
        return columns.default_columns(self._indices, self._is_mail)

    def _show_columns(self) -> None:
        shown = self._columns()
        if [it.attribute for it in shown] != [it.attribute for it in self.list.columns]:
            self.list.show_columns(shown)
            if self.hits.attribute not in {it.attribute for it in shown}:
                self.hits.sort(shown[0].attribute)
                self.list.show_order()
        self._offer_attributes()

    def _offer_attributes(self) -> None:
        names = dict.fromkeys([*self._indices, *self._attributes])
        self.attribute_menu.offer([it for it in names if it not in columns.HIDDEN], [it.attribute for it in self._columns()])

    def _width(self) -> int:
        """The number of characters that fit on a line below the query."""
        room = self.message.winfo_width() - 2 * int(str(self.message["padx"]))
        return max(room // tkinter.font.nametofont("TkFixedFont").measure("0"), 20)

    def _tell_query(self) -> None:
        """Shows what is wrong with the query or what the query can't find. If nothing is wrong, shows the dates that the query
        contains."""
        width = self._width()
        if self._fault is not None:
            lines = typed_query.lines_of(self._fault, self._query.get(), width)
        else:
            hints = [*map(typed_query.hint_of, self._hints), *map(typed_query.unknown_in_words, self._unknown)]
            lines = [typed_query.shortened(it, width) for it in hints[:LINES]]
        colour = self._look.palette.fault if lines else self._look.palette.quiet
        lines = lines or [typed_query.shortened(self._typed.dates_in_words(), width)]
        self.message.configure(text="\n".join(lines), foreground=colour, height=len(lines))

    def _tell_unknown(self, names: List[str]) -> None:
        """Shows which names in the query nothing has."""
        if names != self._unknown:
            self._unknown = names
            self._tell_query()

    def _tell_state(self) -> None:
        condition = self._source.condition
        words = []
        if self._count is not None and self._is_answered:
            words.append(f"{self._count.hits:,} of {self._count.all:,}" if self._count.all else f"{self._count.hits:,}")
            waiting = self._count.hits - len(self.hits)
            if waiting > 0:
                words.append(f"{waiting:,} to be shown")
        elif self._fault is not None:
            words.append("no answer")
        elif not self._lost and time.monotonic() >= self._asked_at + SEARCHING:
            words.append("searching" if self._is_open else "opening the store")
        if self.hits.is_sorting:
            words.append("sorting")
        if self._is_open and not condition.is_fault:
            words.append(condition.text)
        text = "   ·   ".join(words)
        if text != str(self.state["text"]):
            self.state.configure(text=text)

    def _show_notice(self) -> None:
        """Shows what is wrong with the source and what couldn't be done, if anything."""
        condition, silent = self._source.condition, self._asker.waits_for
        faults = [self._warning] if self._warning else []
        if self._lost:
            faults.insert(0, f"The store can't be reached: {self._lost}. Trying again every second")
        elif silent >= SILENT and self._source.silence(round(silent)):
            faults.insert(0, self._source.silence(round(silent)))
        elif condition.is_fault:
            faults.insert(0, condition.text)
        text = "\n".join(faults)
        if text == str(self.notice["text"]):
            return
        self.notice.configure(text=text)
        if text:
            self.notice.pack(side="bottom", fill="x", before=self.list)
        else:
            self.notice.pack_forget()
        self._tell_state()
