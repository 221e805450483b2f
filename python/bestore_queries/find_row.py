"""A row in which the user enters what to find: an attribute, a comparison, and a value. A narrow window shows it on two lines."""

from __future__ import annotations

import tkinter as tk
from tkinter import ttk
from typing import Callable, Dict, Mapping, Optional, Sequence

import bestore

from . import columns, find
from .theme import Look

NARROWEST_VALUE = 120  # the minimum width of the value's field on a line with other fields
GAP = 6                # between fields


class FindRow(tk.Frame):
    """The row, which calls `asks` with its query as the user types."""

    def __init__(self, parent: tk.Misc, look: Look, asks: Callable[[str], None]) -> None:
        super().__init__(parent, background=look.palette.face)
        self._look, self._asks, self._is_filled = look, asks, True
        self._indices: Mapping[str, bestore.Kind] = {}
        self._attributes: Dict[str, str] = {}  # by the text that the row shows for each
        self._attribute, self._relation, self._text = tk.StringVar(self), tk.StringVar(self), tk.StringVar(self)
        self._lines = [tk.Frame(self, background=look.palette.face) for _ in range(2)]
        self._lines[0].pack(fill="x")
        self._is_narrow: Optional[bool] = None
        label = tk.Label(self, text="Find", background=look.palette.face, foreground=look.palette.text, padx=look.pixels(2))
        self._attribute_box = ttk.Combobox(self, textvariable=self._attribute, state="readonly", width=13)
        self._relation_box = ttk.Combobox(self, textvariable=self._relation, state="readonly", width=14)
        self._before: Sequence[tk.Widget] = (label, self._attribute_box, self._relation_box)
        self._beside: Sequence[tk.Widget] = ()
        for field in self._before:
            field.pack(in_=self._lines[0], side="left", padx=(0, look.pixels(GAP)))
        self.entry = ttk.Entry(self, textvariable=self._text, width=1)
        self._attribute_box.bind("<<ComboboxSelected>>", lambda _: self._attribute_chosen())
        self._relation_box.bind("<<ComboboxSelected>>", lambda _: self._changed())
        self._text.trace_add("write", lambda *_: self._changed())
        self.bind("<Configure>", lambda event: self._lay_out(event.width))
        self._is_filled = False

    def put_beside(self, *widgets: tk.Widget) -> None:
        """Shows these widgets, which are children of the row, to the right of the value's field."""
        self._beside = widgets

    def _lay_out(self, width: int) -> None:
        """Shows the value's field on the first line if there is room for it in this width, and otherwise on the second line."""
        gap, others = self._look.pixels(GAP), (*self._before, *self._beside)
        is_narrow = width < sum(it.winfo_reqwidth() + gap for it in others) + self._look.pixels(NARROWEST_VALUE)
        if is_narrow == self._is_narrow:
            return
        self._is_narrow = is_narrow
        line = self._lines[is_narrow]
        if is_narrow:
            line.pack(fill="x", pady=(gap, 0))
        else:
            self._lines[1].pack_forget()
        for widget in reversed(self._beside):
            widget.pack(in_=line, side="right", padx=(gap, 0))
        self.entry.pack(in_=line, side="left", fill="x", expand=True)

    def take_indices(self, indices: Mapping[str, bestore.Kind]) -> None:
        """Offers the attributes that a store with these indices can search."""
        if indices == self._indices:
            return
        self._indices = indices
        titles: Dict[str, str] = {}
        for attribute in find.attributes_of(indices):
            title = columns.column_of(attribute).title
            titles[attribute if title in titles else title] = attribute
        chosen, self._attributes = self._attributes.get(self._attribute.get()), titles
        self._attribute_box.configure(values=list(titles))
        if chosen not in indices:
            self._attribute.set(next(iter(titles), ""))
        self._offer_relations()

    def _offer_relations(self) -> None:
        attribute = self._attributes.get(self._attribute.get())
        offered = [] if attribute is None else [it.value for it in find.relations_of(attribute, self._indices[attribute])]
        self._relation_box.configure(values=offered)
        if self._relation.get() not in offered:
            self._relation.set(offered[0] if offered else "")

    def _attribute_chosen(self) -> None:
        self._offer_relations()
        self._changed()

    def choose(self, attribute: str, relation: find.Relation, text: str) -> None:
        """Fills in the row as if the user had done so."""
        self._is_filled = True
        self._attribute.set(next(title for title, name in self._attributes.items() if name == attribute))
        self._offer_relations()
        self._relation.set(relation.value)
        self._text.set(text)
        self._is_filled = False
        self._changed()

    def empty(self) -> None:
        """Clears the text, because another query is running."""
        self._is_filled = True
        self._text.set("")
        self._is_filled = False

    def _changed(self) -> None:
        attribute = self._attributes.get(self._attribute.get())
        if not self._is_filled and attribute is not None:
            self._asks(find.query_of(attribute, find.Relation(self._relation.get()), self._text.get()))
