"""The menus of saved queries and of attributes, and the row that asks for a name."""

from __future__ import annotations

import tkinter as tk
from tkinter import ttk
from typing import Callable, Dict, List, Sequence

from .saved_queries import BadFile, Saved, SavedQueries
from .theme import Look


class QueryMenu(ttk.Menubutton):
    """The menu of saved queries, which are read when it is opened."""

    def __init__(self, parent: tk.Misc, saved: SavedQueries, ask: Callable[[Saved], None], ask_name: Callable[[], None],
                 warn: Callable[[str], None]) -> None:
        super().__init__(parent, text="Queries", width=8)
        self._saved, self._ask, self._ask_name, self._warn = saved, ask, ask_name, warn
        self.menu = tk.Menu(self, tearoff=False, postcommand=self.fill)
        self.configure(menu=self.menu)

    def fill(self) -> None:
        """Fills the menu."""
        self.menu.delete(0, "end")
        try:
            queries = self._saved.all()
        except BadFile as error:
            self._warn(str(error))
            queries = []
        for saved in queries:
            self.menu.add_command(label=saved.name, command=lambda saved=saved: self._ask(saved))  # type: ignore[misc]
        if queries:
            self.menu.add_separator()
        self.menu.add_command(label="Save this query…", command=self._ask_name)
        if queries:
            removed = tk.Menu(self.menu, tearoff=False)
            for saved in queries:
                removed.add_command(label=saved.name, command=lambda name=saved.name: self._remove(name))  # type: ignore[misc]
            self.menu.add_cascade(label="Remove", menu=removed)

    def _remove(self, name: str) -> None:
        try:
            self._saved.remove(name)
        except BadFile as error:
            self._warn(str(error))


class AttributeMenu(ttk.Menubutton):
    """The menu of attributes that can be columns."""

    def __init__(self, parent: tk.Misc, choose: Callable[[List[str]], None]) -> None:
        super().__init__(parent, text="Attributes", width=9)
        self._choose = choose
        self._chosen: Dict[str, tk.BooleanVar] = {}
        self.menu = tk.Menu(self, tearoff=False)
        self.configure(menu=self.menu)

    def offer(self, attributes: Sequence[str], shown: Sequence[str]) -> None:
        """Offers these attributes, and marks those that are shown."""
        names = [*shown, *(it for it in attributes if it not in shown)]
        if names == list(self._chosen) and all(var.get() == (name in shown) for name, var in self._chosen.items()):
            return
        self.menu.delete(0, "end")
        self._chosen = {name: tk.BooleanVar(self, name in shown) for name in names}
        for name, variable in self._chosen.items():
            self.menu.add_checkbutton(label=name, variable=variable, command=self._changed)

    def _changed(self) -> None:
        self._choose([name for name, variable in self._chosen.items() if variable.get()])


class NameRow(tk.Frame):
    """A row that asks for the name under which to save a query."""

    def __init__(self, parent: tk.Misc, look: Look, save: Callable[[str], None]) -> None:
        super().__init__(parent, background=look.palette.face)
        self._look, self._save, self._typed = look, save, tk.StringVar(self)
        tk.Label(self, text="Save as", background=look.palette.face, foreground=look.palette.text, padx=look.pixels(2)).pack(side="left")
        ttk.Button(self, text="Cancel", command=self.pack_forget).pack(side="right")
        ttk.Button(self, text="Save", command=self.finish).pack(side="right", padx=look.pixels(4))
        self.entry = ttk.Entry(self, textvariable=self._typed)
        self.entry.pack(side="left", fill="x", expand=True, padx=(look.pixels(4), 0))
        for key in ("<Return>", "<KP_Enter>"):
            self.entry.bind(key, lambda _: self.finish())
        self.entry.bind("<Escape>", lambda _: self.pack_forget())

    def show(self, name: str) -> None:
        """Shows the row, with a suggested name."""
        self._typed.set(name)
        self.pack(fill="x", pady=(self._look.pixels(6), 0))
        self.entry.focus_set()
        self.entry.select_range(0, "end")

    def finish(self) -> None:
        """Saves the query under the name in the row, if there is one."""
        name = self._typed.get().strip()
        if name:
            self.pack_forget()
            self._save(name)
