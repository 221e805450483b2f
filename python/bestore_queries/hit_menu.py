"""The menu for the hits under the pointer."""

from __future__ import annotations

import tkinter as tk
from typing import Callable, NamedTuple, Optional

from .columns import Column


class Chosen(NamedTuple):
    """What a menu is for: the selected hits, and the current hit's attribute."""

    hits: int
    column: Column
    can_copy_paths: bool
    can_edit: bool
    can_remove: bool


class MenuActions(NamedTuple):
    """The functions that the menu calls."""

    open: Callable[[], object]
    copy: Callable[[Column], object]
    copy_paths: Callable[[], object]
    edit: Callable[[Column], object]
    remove: Callable[[Column], object]
    select_all: Callable[[], object]


class HitMenu(tk.Menu):
    """The menu, which is filled each time it is shown."""

    def __init__(self, parent: tk.Misc, actions: MenuActions) -> None:
        super().__init__(parent, tearoff=False)
        self._actions = actions

    def fill(self, chosen: Optional[Chosen]) -> None:
        """Offers what can be done with these hits. None if there aren't any."""
        self.delete(0, "end")
        actions = self._actions
        if chosen is not None:
            column, title = chosen.column, chosen.column.title
            self._add("Open", actions.open, "Enter")
            self.add_separator()
            self._add(f"Copy {title}", lambda: actions.copy(column))
            self._add("Copy path" if chosen.hits == 1 else "Copy paths", actions.copy_paths, "Ctrl-C", chosen.can_copy_paths)
            self.add_separator()
            self._add(f"Edit {title}", lambda: actions.edit(column), "F2", chosen.can_edit)
            self._add(f"Remove {title}", lambda: actions.remove(column), "", chosen.can_remove)
            self.add_separator()
        self._add("Select all", actions.select_all, "Ctrl-A")

    def _add(self, label: str, command: Callable[[], object], key: str = "", is_possible: bool = True) -> None:
        self.add_command(label=label, command=command, accelerator=key, state="normal" if is_possible else "disabled")

    def show(self, x: int, y: int) -> None:
        """Shows the menu at this position on the screen."""
        try:
            self.tk_popup(x, y)
        finally:
            self.grab_release()
