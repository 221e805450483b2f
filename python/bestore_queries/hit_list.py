"""The list of hits. The widget contains only the visible rows, so showing a million hits takes no longer than showing ten."""

from __future__ import annotations

import tkinter as tk
from tkinter import ttk
from typing import Any, Callable, List, NamedTuple, Optional, Sequence, Tuple

from . import columns as columns_of_hits, opening
from .attribute_editor import AttributeEditor, Box, Cell
from .columns import Column
from .cut_texts import CutTexts
from .hit_menu import Chosen, HitMenu, MenuActions
from .places import path_of
from .selection import Selection
from .sorted_hits import Hit, Node, SortedHits
from .theme import ICON_WIDTH, Icons, Look, row_height
from .tip import Tip

SHIFT, CONTROL = 0x1, 0x4     # in an event's state
SLOW_CLICK = 600              # milliseconds from a click on a selected hit until it is edited, unless a second click follows
WHEEL = 3                     # rows per turn of the wheel
STEP_SIDEWAYS = 60            # how far a key or the wheel scrolls sideways
NARROWEST, NARROWEST_FIRST = 40, 160  # the minimum width of a column, and of the first column, which names the hit
NARROWEST_EDIT = 60           # the minimum width of the entry over a cell
PADDING = 4                   # between a column's edges and its text
MOST_OPENED = 20              # files that can be opened at a time


class Actions(NamedTuple):
    """The functions that the list calls."""

    open: Callable[[List[Hit]], None]
    write: Callable[[Cell, str], None]
    sort: Callable[[Column], None]
    warn: Callable[[str], None]


class HitList(tk.Frame):
    """The list, with its scroll bars, its selection and its editor."""

    def __init__(self, parent: tk.Misc, look: Look, hits: SortedHits, actions: Actions) -> None:
        super().__init__(parent, background=look.palette.line, padx=1, pady=1)
        self._look, self._hits, self._actions, self._icons = look, hits, actions, Icons(look)
        self.selection = Selection(hits)
        self.columns: List[Column] = []
        self._places: List[str] = []      # the columns, by the widget's names for them
        self._painted: List[Tuple[object, ...]] = []  # what the widget's rows show
        self._top, self._top_node = 0, -1
        self._room, self._row_height = 1, row_height(self, look)  # how many rows fit
        self._clicked: Optional[Column] = None
        self._edit_later = ""
        # The list requests no rows, so the height that it requests is only that of its heading and borders. Its first width is that of
        # its one column and of its borders.
        self.tree = ttk.Treeview(self, selectmode="none", height=0, xscrollcommand=self._scrolled_sideways)
        self._borders = self.tree.winfo_reqwidth() - int(self.tree.column("#0", "width"))
        self.tree.tag_configure("stripe", background=look.palette.stripe)
        self.tree.tag_configure("selected", background=look.palette.marked)
        self._bar = ttk.Scrollbar(self, command=self._scroll)
        self.bar_below = ttk.Scrollbar(self, orient="horizontal", command=self._scroll_sideways)
        """Shown while some columns are out of view."""
        self._lay_out()
        self._texts, self._fits_later = CutTexts(self), ""
        self.tip = Tip(self.tree, look, self._tip_at)
        self.menu = HitMenu(self, MenuActions(self._open, self._copy, self.copy_paths, self._edit_column, self._remove, self._select_all))
        self.editor = AttributeEditor(self.tree, actions.write, self._edit_beside)
        self._bind_keys()
        self._bind_menu()

    def _lay_out(self) -> None:
        self.rowconfigure(0, weight=1)
        self.columnconfigure(0, weight=1)
        self.tree.grid(row=0, column=0, sticky="nsew")
        self._bar.grid(row=0, column=1, sticky="ns")
        self.bar_below.grid(row=1, column=0, sticky="ew")
        self.bar_below.grid_remove()

    def _bind_keys(self) -> None:
        tree = self.tree
        tree.bind("<Configure>", lambda event: self._resized(event.height))
        tree.bind("<Button-1>", self._pressed)
        tree.bind("<Double-Button-1>", self._pressed_twice)
        for key, steps in (("<Button-4>", -WHEEL), ("<Button-5>", WHEEL)):
            tree.bind(key, lambda _, steps=steps: self._scroll_by(steps))  # type: ignore[misc]
        tree.bind("<MouseWheel>", lambda event: self._scroll_by(-WHEEL if event.delta > 0 else WHEEL))
        for key, steps in (("<Shift-Button-4>", -1), ("<Shift-Button-5>", 1), ("<Left>", -1), ("<Right>", 1)):
            tree.bind(key, lambda _, steps=steps: self._step_sideways(steps))  # type: ignore[misc]
        tree.bind("<Shift-MouseWheel>", lambda event: self._step_sideways(-1 if event.delta > 0 else 1))
        for name in ("Up", "Down", "Prior", "Next", "Home", "End"):
            for shift in ("", "Shift-"):
                tree.bind(f"<{shift}{name}>",
                          lambda _, name=name, shift=shift: self._move(self._steps_of(name), bool(shift)))  # type: ignore[misc]
        for name in ("Return", "KP_Enter"):
            tree.bind(f"<{name}>", lambda _: self._open())
        tree.bind("<F2>", lambda _: self.edit())
        tree.bind("<<SelectAll>>", lambda _: self._select_all())
        tree.bind("<Control-c>", lambda _: self.copy_paths())
        tree.bind("<space>", lambda _: "break")  # by default, this key would select by the widget's own rules

    def _bind_menu(self) -> None:
        self.tree.bind("<Button-3>", self._pressed_for_menu)
        for key in ("<Menu>", "<Shift-F10>"):
            self.tree.bind(key, lambda _: self._show_menu_of_cursor())
        for event in ("<B1-Motion>", "<ButtonRelease-1>"):  # which may have changed a column's width
            self.tree.bind(event, lambda _: self._fit_later())

    def destroy(self) -> None:
        self._cancel_edit()
        if self._fits_later:
            self.after_cancel(self._fits_later)
        super().destroy()

    @property
    def room(self) -> int:
        """The number of hits that are visible at a time."""
        return self._room

    def show_columns(self, shown: List[Column]) -> None:
        """Shows these columns. The first has the icon."""
        self.editor.end()
        self.columns, self._painted = shown, []
        self.tree.delete(*self.tree.get_children())
        self.tree.configure(columns=[it.attribute for it in shown[1:]])
        self._places = ["#0", *(f"#{place}" for place in range(1, len(shown)))]
        for place, column in zip(self._places, shown):
            is_first = place == "#0"
            narrowest = NARROWEST_FIRST if is_first else NARROWEST
            self.tree.column(place, width=self._look.pixels(column.width), minwidth=self._look.pixels(narrowest), anchor=column.anchor,
                             stretch=is_first)
            self.tree.heading(place, anchor=column.anchor,
                              command=lambda column=column: self._actions.sort(column))
        self._fill_width()
        self.show_order()

    def _fill_width(self) -> None:
        """Gives the first column the width that the others leave, once the list has a width."""
        if self.tree.winfo_width() > 1:
            others = sum(int(self.tree.column(it, "width")) for it in self._places[1:])
            room = self.tree.winfo_width() - self._borders - others
            self.tree.column("#0", width=max(room, self._look.pixels(NARROWEST_FIRST)))

    def show_order(self) -> None:
        """Shows an arrow in the heading of the column that the hits are sorted by."""
        for place, column in zip(self._places, self.columns):
            arrow = "" if column.attribute != self._hits.attribute else " ▼" if self._hits.will_be_turned else " ▲"
            self.tree.heading(place, text=column.title + arrow)

    def clear(self) -> None:
        """Shows no hits."""
        self.selection.clear()
        self._give_edit_up("The list was emptied during an edit")
        self._top, self._top_node = 0, -1
        self.paint()

    def hit_went(self, node: Node) -> None:
        """Forgets a hit that has left."""
        self.selection.forget(node)
        cell = self.editor.cell
        if cell is not None and cell.node == node:
            self._give_edit_up("What you were editing is no longer a hit")

    def _give_edit_up(self, reason: str) -> None:
        """Ends an edit that can't be finished, and shows what was typed."""
        if self.editor.cell is not None:
            self._actions.warn(f"{reason}. You had typed: {self.editor.text}")
            self.editor.end()

    def paint(self) -> None:
        """Shows the hits as they are now. Unless the list is at its start, the top hit stays at the top."""
        if self._top > 0:
            place = self._hits.place_of(self._top_node)
            self._top = self._top if place is None else place
        self._paint_from(self._top)

    def _paint_from(self, top: int) -> None:
        self._top = max(min(top, len(self._hits) - self._room), 0)
        count = min(self._room, len(self._hits) - self._top)
        self._top_node = self._hits[self._top].node if count else -1
        rooms = self._rooms()
        for row in range(count):
            self._paint_row(row, rooms)
        surplus = range(count, len(self._painted))
        self.tree.delete(*map(str, surplus))
        del self._painted[count:]
        total = max(len(self._hits), 1)
        self._bar.set(self._top / total, min((self._top + self._room) / total, 1))
        self.editor.move(self._box_of_editor())

    def _paint_row(self, row: int, rooms: Sequence[int]) -> None:
        hit = self._hits[self._top + row]
        first, *others = [self._texts.cut(self._text(hit, place), room) for place, room in enumerate(rooms)]
        tag = "selected" if hit.node in self.selection else "stripe" if (self._top + row) % 2 else ""
        shown = (first, tuple(others), str(hit.attributes.get(columns_of_hits.TYPE, "")), tag)
        if row < len(self._painted) and self._painted[row] == shown:
            return
        options: Any = {"text": f" {shown[0]}", "values": others, "image": self._icons.of(shown[2]), "tags": [tag] if tag else []}
        if row < len(self._painted):
            self.tree.item(str(row), **options)
            self._painted[row] = shown
        else:
            self.tree.insert("", "end", iid=str(row), **options)
            self._painted.append(shown)

    def _text(self, hit: Hit, place: int) -> str:
        """Returns a cell's whole text."""
        text = self.columns[place].shown(hit.attributes)
        return text or (f"node {hit.node}" if place == 0 else "")

    def _rooms(self) -> List[int]:
        """Returns the widths that the columns have for their texts."""
        widths = [int(self.tree.column(place, "width")) - 2 * PADDING for place in self._places]
        return [widths[0] - self._look.pixels(ICON_WIDTH + 2 * PADDING), *widths[1:]] if widths else []

    def _tip_at(self, x: int, y: int) -> str:
        """Returns what the cell at this position has no room for: the rest of its text, and a MIME type as it is stored."""
        place, column = self._place_at(x, y), self.tree.identify_column(x)
        if place is None or place >= len(self._hits) or column not in self._places:
            return ""
        hit, at = self._hits[place], self._places.index(column)
        text, raw = self._text(hit, at), hit.attributes.get(self.columns[at].attribute)
        lines = [] if self._texts.cut(text, self._rooms()[at]) == text else [text]
        if self.columns[at].attribute == columns_of_hits.TYPE and raw is not None and columns_of_hits.text_of(raw) != text:
            lines.append(columns_of_hits.text_of(raw))
        return "\n".join(lines)

    def _fit_later(self) -> None:
        """Cuts the texts again once the widget knows its columns' widths."""
        if not self._fits_later:
            self._fits_later = self.after_idle(self._fit)

    def _fit(self) -> None:
        self._fits_later = ""
        self._paint_from(self._top)

    def _resized(self, height: int) -> None:
        if not self.tree.winfo_ismapped():  # if the columns are too wide when the widget is first drawn, it leaves them so
            self._fill_width()
        self._room = max((height - self.tree.winfo_reqheight()) // self._row_height, 1)
        self._paint_from(self._top)
        self._fit_later()

    def shown(self) -> List[List[str]]:
        """The text of each visible row."""
        rows = self.tree.get_children()
        return [[str(self.tree.item(it, "text"))[1:], *map(str, self.tree.item(it, "values"))] for it in rows]

    def see(self, place: int) -> None:
        """Scrolls no further than necessary to show a position."""
        if place < self._top:
            self._paint_from(place)
        elif place >= self._top + self._room:
            self._paint_from(place - self._room + 1)
        else:
            self._paint_from(self._top)

    def _scroll(self, what: str, number: str, unit: str = "") -> None:
        """Scrolls as the scroll bar requests."""
        if what == "moveto":
            self._paint_from(round(float(number) * len(self._hits)))
        else:
            self._scroll_by(int(number) * (self._room if unit.startswith("page") else 1))

    def _scroll_by(self, rows: int) -> str:
        self._paint_from(self._top + rows)
        return "break"

    def _scroll_sideways(self, what: str, number: str, unit: str = "") -> None:
        """Scrolls sideways as the scroll bar below the list requests."""
        if what == "moveto":
            self.tree.xview_moveto(float(number))
        elif unit.startswith("page"):
            self.tree.xview_scroll(int(number), "pages")
        else:
            self._step_sideways(int(number))

    def _step_sideways(self, steps: int) -> str:
        self.tree.xview_scroll(steps * self._look.pixels(STEP_SIDEWAYS), "units")
        return "break"

    def _scrolled_sideways(self, first: float, last: float) -> None:
        """Adjusts to the part of the columns that is now visible."""
        if float(first) > 0 or float(last) < 1:
            self.bar_below.grid()
        else:
            self.bar_below.grid_remove()
        self.bar_below.set(first, last)
        self._fit_later()
        self.editor.move(self._box_of_editor())

    def _see_column(self, column: Column) -> None:
        """Scrolls sideways no further than necessary to show a column, starting at its left edge."""
        widths = [int(self.tree.column(it, "width")) for it in self._places]
        at = self.columns.index(column)
        begin, end, total = sum(widths[:at]), sum(widths[:at + 1]), sum(widths)
        first, last = (float(it) * total for it in self.tree.xview())
        if begin < first or end > last:
            self.tree.xview_moveto(min(begin, max(first, end - (last - first))) / total)

    def _place_at(self, x: int, y: int) -> Optional[int]:
        """Returns the position in the list of the hit that is shown here, or None if there is none."""
        row = self.tree.identify_row(y)
        is_hit = self.tree.identify_region(x, y) in ("cell", "tree") and row
        return self._top + int(row) if is_hit else None

    def _pressed(self, event: "tk.Event[Any]") -> Optional[str]:
        self._cancel_edit()
        if self.tree.identify_region(event.x, event.y) in ("heading", "separator"):
            return None
        self.tree.focus_set()
        place = self._place_at(event.x, event.y)
        if place is None:
            self.selection.clear()
            self._paint_from(self._top)
            return "break"
        at = self._places.index(self.tree.identify_column(event.x))
        was_alone = len(self.selection) == 1 and self._hits[place].node in self.selection
        self._clicked = self.columns[at]
        state = int(event.state)
        if state & CONTROL:
            self.selection.toggle(place)
        elif state & SHIFT:
            self.selection.extend(place)
        else:
            self.selection.choose(place)
            if was_alone and self._clicked.is_edited:
                self._edit_later = self.after(SLOW_CLICK, self.edit)
        self._paint_from(self._top)
        return "break"

    def _pressed_twice(self, event: "tk.Event[Any]") -> Optional[str]:
        self._cancel_edit()
        if self.tree.identify_region(event.x, event.y) in ("heading", "separator"):
            return None
        place = self._place_at(event.x, event.y)
        if place is not None:
            self.selection.choose(place)
            self._paint_from(self._top)
            self._open()
        return "break"

    def _cancel_edit(self) -> None:
        if self._edit_later:
            self.after_cancel(self._edit_later)
        self._edit_later = ""

    def _steps_of(self, key: str) -> int:
        """Returns the number of positions that a key moves by."""
        return {"Up": -1, "Down": 1, "Prior": -self._room, "Next": self._room, "Home": -len(self._hits)}.get(key, len(self._hits))

    def _move(self, steps: int, extends: bool) -> str:
        self._cancel_edit()
        place = self.selection.move(steps, extends)
        if place is not None:
            self.see(place)
        return "break"

    def _select_all(self) -> str:
        self.selection.choose_all()
        self._paint_from(self._top)
        return "break"

    def _selected(self) -> List[Hit]:
        hits = [self._hits.get(node) for node in self.selection.nodes]
        return [hit for hit in hits if hit is not None]

    def _copy(self, column: Column) -> None:
        """Copies the selected hits' texts in a column, each on its own line."""
        self._copy_lines([column.shown(hit.attributes) for hit in self._selected()])

    def copy_paths(self) -> str:
        """Copies the selected files' paths, each on its own line."""
        paths = [path_of(hit.attributes) for hit in self._selected()]
        self._copy_lines([opening.shown(path) for path in paths if path is not None])
        return "break"

    def _copy_lines(self, lines: List[str]) -> None:
        if lines:
            self.clipboard_clear()
            self.clipboard_append("\n".join(lines))

    def _pressed_for_menu(self, event: "tk.Event[Any]") -> str:
        """Shows the menu for the hit under the pointer, which is selected unless it already is."""
        self._cancel_edit()
        self.tree.focus_set()
        place = self._place_at(event.x, event.y)
        if place is None:
            self.selection.clear()
        else:
            self._clicked = self.columns[self._places.index(self.tree.identify_column(event.x))]
            self.selection.move_to(place)
        self._paint_from(self._top)
        return self._show_menu(event.x_root, event.y_root)

    def _show_menu_of_cursor(self) -> str:
        """Shows the menu for the current hit, beside it."""
        place, x, y = self.selection.cursor, 0, 0
        if place is not None:
            self.see(place)
            box = self.tree.bbox(str(place - self._top))
            x, y = (int(box[0]), int(box[1]) + int(box[3])) if box else (0, 0)
        return self._show_menu(self.tree.winfo_rootx() + x, self.tree.winfo_rooty() + y)

    def _show_menu(self, x: int, y: int) -> str:
        self.tip.hide()
        self.menu.fill(self._chosen())
        self.menu.show(x, y)
        return "break"

    def _chosen(self) -> Optional[Chosen]:
        """Returns what the menu is for, or None if no hit is selected."""
        place, selected = self.selection.cursor, self._selected()
        if place is None or not selected:
            return None
        column = self._clicked if self._clicked in self.columns else self.columns[0]
        assert column is not None
        has_value = column.attribute in self._hits[place].attributes
        has_path = any(path_of(hit.attributes) is not None for hit in selected)
        return Chosen(len(selected), column, has_path, column.is_edited, column.is_edited and has_value)

    def _open(self) -> str:
        if len(self.selection) > MOST_OPENED:
            self._actions.warn(f"{len(self.selection):,} files are selected, and at most {MOST_OPENED} can be opened at a time")
        else:
            self._actions.open(self._selected())
        return "break"

    def edit(self) -> str:
        """Edits an attribute of the current hit: the current column's, or that of the next column with an attribute that can be edited."""
        self._cancel_edit()
        column = self._column_to_edit()
        if column is not None:
            self._edit_column(column)
        elif self.selection.cursor is not None:
            self._actions.warn(
                "These columns show what the files themselves contain. To edit attributes, choose other columns in the Attributes menu")
        return "break"

    def _column_to_edit(self) -> Optional[Column]:
        at = self.columns.index(self._clicked) if self._clicked in self.columns else 0
        return next((it for it in self.columns[at:] + self.columns[:at] if it.is_edited), None)

    def _edit_column(self, column: Column) -> None:
        """Edits the current hit's attribute in this column."""
        place = self.selection.cursor
        if place is not None:
            self._edit_hit(self._hits[place], column)

    def _edit_hit(self, hit: Hit, column: Column) -> None:
        self._clicked = column
        cell = Cell(hit.node, column, hit.attributes.get(column.attribute))
        self.edit_cell(cell, columns_of_hits.edited_text(column.attribute, cell.value))

    def _edit_beside(self, cell: Cell, steps: int) -> None:
        """Edits the same hit's attribute in the next or in the previous column with one that can be edited."""
        hit, can = self._hits.get(cell.node), [column for column in self.columns if column.is_edited]
        if hit is not None and cell.column in can:
            self._edit_hit(hit, can[(can.index(cell.column) + steps) % len(can)])

    def _remove(self, column: Column) -> None:
        """Removes the attribute in this column from the current hit."""
        place = self.selection.cursor
        if place is not None:
            hit = self._hits[place]
            self._actions.write(Cell(hit.node, column, hit.attributes.get(column.attribute)), "")

    def edit_cell(self, cell: Cell, text: str) -> None:
        """Edits a cell, starting with this text, if the cell's hit is still in the list."""
        place = self._hits.place_of(cell.node)
        if place is None or cell.column not in self.columns:
            return
        self.see(place)
        self._see_column(cell.column)
        self.update_idletasks()
        before = columns_of_hits.edited_text(cell.column.attribute, cell.value)
        box = self._box(cell)
        if box is not None:
            self.editor.begin(cell, before, text, box)

    def _box_of_editor(self) -> Optional[Box]:
        return None if self.editor.cell is None else self._box(self.editor.cell)

    def _box(self, cell: Cell) -> Optional[Box]:
        """Returns the area where a cell is visible, or None if the cell isn't visible."""
        place = self._hits.place_of(cell.node)
        if place is None or not self._top <= place < self._top + len(self._painted):
            return None
        at = self._places[self.columns.index(cell.column)]
        box = self.tree.bbox(str(place - self._top), at)
        if not box:
            return None
        x, y, width, height = (int(it) for it in box)
        icon = self._look.pixels(ICON_WIDTH) if at == "#0" else 0
        return x + icon, y, max(width - icon, self._look.pixels(NARROWEST_EDIT)), height
