"""Tests of the list on its own, on an in-memory display: which rows and columns fit."""

from __future__ import annotations

import unittest
from typing import Dict, Sequence
from unittest import mock

from bestore_queries import mime_types
from bestore_queries.columns import column_of
from bestore_queries.sorted_hits import Hit, SortedHits

from common import HAS_TK, OnDisplay, wait_for

if HAS_TK:
    import tkinter
    import tkinter.font
    from tkinter import ttk
    from bestore_queries import theme
    from bestore_queries.attribute_editor import Cell
    from bestore_queries.hit_list import Actions, HitList

FEW = ("name", "size")
EIGHT = ("name", "size", "last_modified", "BEOS:TYPE", "folder", "created", "Audio:Artist", "rating")
FIFTY = 50


class OfHits(OnDisplay):
    """A list of fifty hits in its own window."""

    def setUp(self) -> None:
        self.root = tkinter.Tk()
        self.addCleanup(self.root.destroy)
        self.look = theme.apply(self.root)
        self.written = mock.Mock()

    def list_of(self, names: Sequence[str], size: str = "600x300") -> "HitList":
        """Creates a list with these columns, in a window of this size."""
        hits = SortedHits()
        for node in range(1, FIFTY + 1):
            hits.put(Hit(node, {"name": f"{node:02}", "rating": node}))
        made = HitList(self.root, self.look, hits, Actions(mock.Mock(), self.written, mock.Mock(), mock.Mock()))
        made.pack(fill="both", expand=True)
        made.show_columns([column_of(it) for it in names])
        made.paint()
        self.resize(size)
        return made

    def resize(self, size: str) -> None:
        """Gives the window this size, and returns once the window has it and is drawn."""
        self.root.geometry(size)

        def has_size() -> bool:
            self.root.update()
            return self.root.geometry().startswith(f"{size}+")
        self.assertTrue(wait_for(has_size), self.root.geometry())
        self.root.update()


class Rows(OfHits):
    def test_as_many_before_a_resize(self) -> None:
        """The list starts with exactly as many rows as fit, the same as after a resize, however tall its headings are."""
        for font_size in (6, 10, 30):
            ttk.Style(self.root).configure("Treeview.Heading", font=("TkHeadingFont", font_size))
            for height in range(200, 222):
                shown = self.list_of(FEW, f"600x{height}")
                before = len(shown.shown())
                _, _, _, row = map(int, shown.tree.bbox("0"))
                _, last, _, _ = map(int, shown.tree.bbox(str(before - 1)))
                self.assertTrue(last + row <= shown.tree.winfo_height() < last + 2 * row + 3, (font_size, height))
                self.resize(f"600x{height - 100}")
                self.resize(f"600x{height}")
                self.assertEqual(len(shown.shown()), before, (font_size, height))
                shown.destroy()

    def test_tall_letters(self) -> None:
        """A row is as tall as its letters."""
        letters = tkinter.font.nametofont("TkDefaultFont", self.root)
        letters.configure(size=30)
        theme.apply(self.root)
        shown = self.list_of(FEW)
        _, _, _, row = map(int, shown.tree.bbox("0"))
        self.assertGreaterEqual(row, letters.metrics("linespace"))


class Columns(OfHits):
    def is_seen(self, shown: "HitList", place: int) -> bool:
        """Returns whether a column is within the list's edges."""
        x, _, width, _ = map(int, shown.tree.bbox("0", f"#{place}"))
        return x >= 0 and x + width <= shown.tree.winfo_width()

    def test_eight(self) -> None:
        """Names keep their width, and the scroll bar below reaches each of eight columns."""
        shown = self.list_of(EIGHT)
        self.assertGreaterEqual(shown.tree.column("#0", "width"), 160)
        self.assertTrue(shown.bar_below.winfo_viewable())
        self.assertEqual([self.is_seen(shown, place) for place in (0, 7)], [True, False])
        shown.tree.tk.call(*shown.tree.tk.splitlist(shown.bar_below["command"]), "moveto", "1.0")
        self.root.update()
        self.assertEqual([self.is_seen(shown, place) for place in (0, 7)], [False, True])

    def test_no_bar_for_few(self) -> None:
        """The scroll bar is shown while columns extend past the edge. Names get the width that the other columns leave."""
        shown = self.list_of(FEW)
        self.assertFalse(shown.bar_below.winfo_viewable())
        rows, name = len(shown.shown()), shown.tree.column("#0", "width")
        shown.show_columns([column_of(it) for it in EIGHT])
        self.root.update()
        self.assertTrue(shown.bar_below.winfo_viewable())
        self.assertLess(len(shown.shown()), rows)
        shown.show_columns([column_of(it) for it in FEW])
        self.root.update()
        self.assertFalse(shown.bar_below.winfo_viewable())
        self.assertEqual((len(shown.shown()), shown.tree.column("#0", "width")), (rows, name))

    def test_narrower_names(self) -> None:
        """Names leave the other columns their room as long as their column isn't too narrow, whenever the columns are chosen."""
        shown = self.list_of(FEW, "700x300")
        for names, has_bar in ((EIGHT[:4], False), (EIGHT, True), (EIGHT[:4], False)):
            shown.show_columns([column_of(it) for it in names])
            self.root.update()
            self.assertEqual(shown.bar_below.winfo_viewable(), has_bar, names)
        self.resize("600x300")
        self.assertFalse(shown.bar_below.winfo_viewable())

    def test_keys(self) -> None:
        """Right, Left and the wheel with Shift scroll sideways."""
        shown = self.list_of(EIGHT)
        shown.tree.focus_force()
        self.root.update()
        for forth, back in (("<Right>", "<Left>"), ("<Shift-Button-5>", "<Shift-Button-4>")):
            for key, is_first_seen in ((forth, False), (back, True)):
                shown.tree.event_generate(key)
                self.root.update()
                self.assertEqual(self.is_seen(shown, 0), is_first_seen, key)
        self.assertEqual(shown.shown()[0][0], "01")

    def test_edit_beyond_the_edge(self) -> None:
        """An edit scrolls to its column, and stays over its cell when the list scrolls."""
        shown = self.list_of(EIGHT)
        rating = shown.columns[-1]
        shown.edit_cell(Cell(1, rating, 1), "1")
        self.root.update()
        self.assertTrue(self.is_seen(shown, 7))
        entry = shown.editor.entry
        assert entry is not None
        self.assertEqual(entry.winfo_x(), int(shown.tree.bbox("0", "#7")[0]))
        shown.tree.xview_moveto(0.2)
        self.root.update()
        self.assertEqual(entry.winfo_x(), int(shown.tree.bbox("0", "#7")[0]))


class Texts(OfHits):
    LONG = "a name that no column has room for, however wide the window is, unless it is wider than any screen of these tests"

    def long_list(self) -> "HitList":
        hits = SortedHits()
        hits.put(Hit(1, {"name": self.LONG, "BEOS:TYPE": "image/png", "size": 1}))
        hits.put(Hit(2, {"BEOS:TYPE": "application/x-none"}))
        made = HitList(self.root, self.look, hits, Actions(mock.Mock(), self.written, mock.Mock(), mock.Mock()))
        made.pack(fill="both", expand=True)
        made.show_columns([column_of(it) for it in ("name", "BEOS:TYPE", "size")])
        made.paint()
        self.resize("600x300")
        return made

    def tip_of(self, shown: "HitList", row: int, column: int) -> str:
        x, y, _, _ = map(int, shown.tree.bbox(str(row), f"#{column}"))
        return shown._tip_at(x + 30, y + 5)

    def test_ellipsis(self) -> None:
        """A text ends with an ellipsis if its column has no room for all of it, and is longer in a wider column."""
        shown, font, lengths = self.long_list(), tkinter.font.nametofont("TkDefaultFont", self.root), []
        for width in (600, 900, 700):
            self.resize(f"{width}x300")
            cut = shown.shown()[0][0]
            self.assertTrue(self.LONG.startswith(cut[:-1]) and cut[-1] == "…", cut)
            self.assertLess(font.measure(cut), shown.tree.column("#0", "width"))
            lengths.append(len(cut))
        self.assertTrue(lengths[0] < lengths[2] < lengths[1], lengths)
        shown.tree.tk.call(shown.tree, "drag", "#0", "300")  # as the mouse drags the column's edge
        shown.tree.event_generate("<ButtonRelease-1>", x=300, y=5)
        self.root.update()
        self.assertLess(len(shown.shown()[0][0]), lengths[0])
        self.assertEqual(shown.shown()[1][0], "node 2")

    def test_types_in_words(self) -> None:
        """A MIME type is shown as people say it, and its tip has the type itself."""
        with mock.patch.object(mime_types, "words_of", {"image/png": "PNG image"}.get):
            shown = self.long_list()
            self.assertEqual([row[1] for row in shown.shown()], ["PNG image", "application/x-none"])
            self.assertEqual([self.tip_of(shown, row, 1) for row in (0, 1)], ["image/png", ""])

    def test_tips(self) -> None:
        """A tip has the text that was cut. It is shown within the window, until a key or a button is pressed."""
        shown = self.long_list()
        self.assertEqual([self.tip_of(shown, 0, 0), self.tip_of(shown, 1, 0), self.tip_of(shown, 0, 2)], [self.LONG, "", ""])
        for event in ("<Button-1>", "<Key-Down>"):
            x, y, _, _ = map(int, shown.tree.bbox("0"))
            shown.tip.show(x + 30, y + 5)
            self.root.update()
            label = shown.tip.label
            self.assertEqual((label.winfo_viewable(), str(label["text"])), (1, self.LONG))
            self.assertLessEqual(label.winfo_rootx() + label.winfo_width(), self.root.winfo_rootx() + self.root.winfo_width())
            shown.tree.focus_force()
            self.root.update()
            shown.tree.event_generate(event, **({"x": x + 30, "y": y + 5} if "Button" in event else {}))
            self.root.update()
            self.assertFalse(label.winfo_viewable())


class Menus(OfHits):
    def menu_of(self, shown: "HitList", row: int, column: int) -> Dict[str, str]:
        """Asks for the menu of a cell, and returns what it offers: each label with its state."""
        x, y, _, height = map(int, shown.tree.bbox(str(row), f"#{column}"))
        with mock.patch.object(shown.menu, "tk_popup") as popup:
            shown.tree.event_generate("<Button-3>", x=x + 25, y=y + height // 2)
            self.root.update()
        popup.assert_called_once()
        items = [it for it in range(int(shown.menu.index("end") or 0) + 1) if shown.menu.type(it) == "command"]
        return {str(shown.menu.entrycget(it, "label")): str(shown.menu.entrycget(it, "state")) for it in items}

    def test_items(self) -> None:
        """The menu is for the hit under the pointer, and for all selected hits if that is one of them."""
        shown = self.list_of(("name", "size", "rating"))
        offered = self.menu_of(shown, 3, 2)
        self.assertEqual(list(offered), ["Open", "Copy Rating", "Copy path", "Edit Rating", "Remove Rating", "Select all"])
        self.assertEqual(offered["Copy path"], "disabled")
        self.assertEqual(shown.selection.nodes, [4])
        self.assertEqual(self.menu_of(shown, 4, 1)["Edit Size"], "disabled")
        shown.selection.extend(6)
        self.assertIn("Copy paths", self.menu_of(shown, 5, 0))
        self.assertEqual(shown.selection.nodes, [5, 6, 7])
        shown.menu.invoke("Copy Name")
        self.assertEqual(self.root.clipboard_get(), "05\n06\n07")
        shown.menu.invoke("Open")
        shown._actions.open.assert_called_once()  # type: ignore[attr-defined]

    def test_edits(self) -> None:
        shown = self.list_of(("name", "rating"))
        rating = shown.columns[1]
        self.menu_of(shown, 2, 1)
        shown.menu.invoke("Remove Rating")
        self.written.assert_called_once_with(Cell(3, rating, 3), "")
        shown.menu.invoke("Edit Rating")
        self.assertEqual((shown.editor.cell, shown.editor.text), (Cell(3, rating, 3), "3"))

    def test_no_hit(self) -> None:
        shown = self.list_of(FEW)
        shown._hits.clear()
        shown.clear()
        with mock.patch.object(shown.menu, "tk_popup"):
            shown.tree.event_generate("<Button-3>", x=50, y=100)
            shown._show_menu_of_cursor()
        self.assertEqual((shown.menu.index("end"), shown.menu.entrycget(0, "label")), (0, "Select all"))

    def test_keys(self) -> None:
        """The key for menus shows the current hit's menu, and Ctrl-C copies paths."""
        shown = self.list_of(FEW)
        shown._hits.put(Hit(1, {"name": "01", "path": "/home/ada/0\n1"}))
        shown.selection.choose(0)
        shown.tree.focus_force()
        self.root.update()
        with mock.patch.object(shown.menu, "tk_popup") as popup:
            shown.tree.event_generate("<Shift-F10>")
            self.root.update()
        popup.assert_called_once()
        shown.tree.event_generate("<Control-c>")
        self.assertEqual(self.root.clipboard_get(), "/home/ada/0\ufffd1")


class Keys(OfHits):
    def press(self, shown: "HitList", key: str) -> None:
        self.root.update()
        widget = shown.editor.entry or shown.tree
        widget.focus_force()
        self.root.update()
        widget.event_generate(key)
        self.root.update()

    def test_columns_by_keys(self) -> None:
        """F2 edits the current hit, and Tab and Shift-Tab accept the text and go to the row's other attributes."""
        shown = self.list_of(("name", "rating", "size", "color", "shape"))
        shown.selection.choose(2)
        found = []
        for key in ("<F2>", "<Tab>", "<F2>", "<Tab>", "<Shift-Tab>", "<Shift-Tab>"):
            self.press(shown, key)
            assert shown.editor.cell is not None
            self.assertEqual(shown.editor.cell.node, 3)
            found.append(shown.editor.cell.column.attribute)
        self.assertEqual(found, ["rating", "color", "shape", "rating", "shape", "color"])
        assert shown.editor.entry is not None
        shown.editor.entry.insert(0, "red")
        self.press(shown, "<Tab>")
        self.written.assert_called_once_with(Cell(3, shown.columns[3], None), "red")
        self.press(shown, "<Escape>")
        self.press(shown, "<F2>")  # begins where the last edit was
        assert shown.editor.cell is not None
        self.assertEqual(shown.editor.cell.column.attribute, "shape")


if __name__ == "__main__":
    unittest.main()
