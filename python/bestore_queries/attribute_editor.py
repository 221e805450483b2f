"""Edits an attribute in place, in the list."""

from __future__ import annotations

from tkinter import ttk
from typing import Callable, NamedTuple, Optional, Tuple

import bestore

from .columns import Column
from .sorted_hits import Node

Box = Tuple[int, int, int, int]


class Cell(NamedTuple):
    """The cell being edited: a node's attribute, and the value that the list showed at the start."""

    node: Node
    column: Column
    value: Optional[bestore.Value]


class AttributeEditor:
    """An entry over a cell of the list. Return or a click elsewhere accepts the text; Escape discards it. Tab accepts it too, and calls `go_on`
    with the number of columns to move by."""

    def __init__(self, tree: ttk.Treeview, take: Callable[[Cell, str], None], go_on: Callable[[Cell, int], None]) -> None:
        self._tree, self._take, self._go_on = tree, take, go_on
        self.entry: Optional[ttk.Entry] = None
        """The entry that the user types in."""
        self._before = ""
        self.cell: Optional[Cell] = None
        """The cell that is being edited."""

    def begin(self, cell: Cell, before: str, text: str, box: Box) -> None:
        """Shows an entry with this text over a cell. `before` is the value as text."""
        self.end()
        self.cell, self._before = cell, before
        entry = ttk.Entry(self._tree, style="Cell.TEntry")
        entry.insert(0, text)
        entry.select_range(0, "end")
        entry.icursor("end")
        for key in ("<Return>", "<KP_Enter>"):
            entry.bind(key, lambda _: self._finish(True))
        entry.bind("<Escape>", lambda _: self._finish(False))
        for key, steps in (("<Tab>", 1), ("<F2>", 1), ("<Shift-Tab>", -1), ("<ISO_Left_Tab>", -1)):
            entry.bind(key, lambda _, steps=steps: self._step(steps))  # type: ignore[misc]
        entry.bind("<FocusOut>", lambda _: self._finish(True, keeps_focus=True))
        self.entry = entry
        self.move(box)
        entry.focus_set()

    @property
    def text(self) -> str:
        """The text typed so far."""
        return "" if self.entry is None else self.entry.get()

    def move(self, box: Optional[Box]) -> None:
        """Follows the cell. If there is no box, the cell isn't visible."""
        if self.entry is None:
            return
        if box is None:
            self.entry.place_forget()
        else:
            x, y, width, height = box
            self.entry.place(x=x, y=y, width=width, height=height)

    def _finish(self, takes: bool, keeps_focus: bool = False) -> str:
        cell, text, before = self.cell, self.text, self._before
        self.end()
        if not keeps_focus:
            self._tree.focus_set()
        if takes and cell is not None and text != before:
            self._take(cell, text)
        return "break"

    def _step(self, steps: int) -> str:
        cell = self.cell
        self._finish(True)
        if cell is not None:
            self._go_on(cell, steps)
        return "break"

    def end(self) -> None:
        """Removes the entry together with its text."""
        entry, self.entry, self.cell = self.entry, None, None
        if entry is not None:
            entry.destroy()
