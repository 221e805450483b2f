"""Tests of the window on screens with few and with many dots per inch. They leave pictures in the folder out, to look at."""

from __future__ import annotations

import os
import unittest
from typing import List

import bestore
from bestore_queries.columns import TYPE, Column, default_columns
from bestore_queries.mime_types import FOLDER_TYPE

import display
from common import HAS_TK, MadeSource, OnDisplay, file_of, files_store, open_display

if HAS_TK:
    import tkinter
    from tkinter import ttk
    from bestore_queries import theme
    from bestore_queries.hit_list import NARROWEST_FIRST
    from bestore_queries.window import Window

PICTURES = os.path.join(os.path.dirname(os.path.abspath(__file__)), "out")
LARGEST = "1880x1120"  # the size of each screen
NARROW, WIDE, HEIGHT = 420, 940, 560  # in pixels at 96 dots per inch
SHORTEST_VALUE = 100


class OfScreens(OnDisplay):
    """Windows with the same files on different screens."""

    def setUp(self) -> None:
        self.store = files_store()
        self.addCleanup(self.store.close)
        for place, (name, kind) in enumerate([
                ("letter.txt", "text/plain"), ("a name that is so long that no column of this window has room for it.pdf", "application/pdf"),
                ("picture.png", "image/png"), ("letters", FOLDER_TYPE), ("song.ogg", "audio/ogg"), ("unknown", "application/x-none")]):
            file_of(self.store, **{"name": name, "size": 10 ** place, "last_modified": 1700000000, "BEOS:TYPE": kind})

    def window(self, width: int, dots: int, **options: object) -> "Window":
        """Opens a window of this width, given in pixels at 96 dots per inch, on a screen with this many dots per inch."""
        scale = dots // display.DOTS
        window = self.show(MadeSource(self.store), f"{width * scale}x{HEIGHT * scale}", open_display(LARGEST, dots), **options)
        self.becomes(window, lambda: len(window.list.shown()) == 6 and "6 of 6" in str(window.state["text"]))
        return window

    def picture(self, window: "Window", dots: int, name: str) -> None:
        """Leaves a picture of a window."""
        window.root.update()
        os.makedirs(PICTURES, exist_ok=True)
        with open(os.path.join(PICTURES, f"{name}.png"), "wb") as file:
            file.write(display.png(display.pixels_of(open_display(LARGEST, dots).path)))


class Fields(OfScreens):
    def fields(self, window: "Window") -> "List[tkinter.Misc]":
        row = window.find_row
        return [row._attribute_box, row._relation_box, row.entry, window.query_menu, window.attribute_menu, window.entry, window.list.tree,
                window.state]

    def test_each_is_seen(self) -> None:
        """However narrow the window is and however many dots its screen has, each field is within it, and as large as it needs to be."""
        for dots in (96, 192):
            for width in (WIDE, NARROW, WIDE):
                window = self.window(width, dots)
                scale = dots // display.DOTS
                for field in self.fields(window):
                    left, right = field.winfo_rootx(), field.winfo_rootx() + field.winfo_width()
                    self.assertTrue(field.winfo_viewable(), (dots, width, str(field)))
                    self.assertTrue(0 <= left and right <= width * scale, (dots, width, str(field), left, right))
                for field in self.fields(window)[:2] + self.fields(window)[3:5]:
                    self.assertGreaterEqual(field.winfo_width(), field.winfo_reqwidth(), (dots, width, str(field)))
                self.assertGreaterEqual(window.find_row.entry.winfo_width(), SHORTEST_VALUE * scale, (dots, width))
                self.picture(window, dots, f"{dots}-{width}")
                window.close()

    def test_name_of_a_query(self) -> None:
        """The row that asks for a query's name is within a narrow window."""
        for dots in (96, 192):
            window = self.window(NARROW, dots)
            window._name_query()
            window.root.update()
            for field in window.name_row.winfo_children():
                right = field.winfo_rootx() + field.winfo_width()
                self.assertTrue(field.winfo_viewable() and right <= NARROW * dots // display.DOTS, (dots, str(field), right))
                self.assertGreaterEqual(field.winfo_width(), min(field.winfo_reqwidth(), SHORTEST_VALUE), (dots, str(field)))
            window.close()

    def test_change_of_width(self) -> None:
        """The value's field moves to the second line and back."""
        window = self.window(WIDE, 96)
        box, entry = window.find_row._attribute_box, window.find_row.entry
        for width, is_below in ((NARROW, True), (WIDE, False), (NARROW, True)):
            window.root.geometry(f"{width}x{HEIGHT}")
            self.becomes(window, lambda: window.root.winfo_width() == width and (
                entry.winfo_rooty() > box.winfo_rooty() + box.winfo_height() // 2) == is_below)


class Lengths(OfScreens):
    def test_grow_with_the_letters(self) -> None:
        """Twice the dots make the window, its columns, its icons and its bars twice as large, as they do its letters."""
        found = []
        for dots in (96, 192):
            window = self.window(WIDE, dots)
            tree, icon = window.list.tree, window.list._icons.of("text/plain")
            width, height = theme.first_size(window.root).split("x")
            found.append([tree.column("#1", "width"), tree.column("#2", "width"), icon.width(), icon.height(), int(width), int(height),
                          window.list._bar.winfo_width()])
            window.close()
        self.assertEqual(found[0][:6], [90, 160, theme.ICON_WIDTH, theme.ICON_HEIGHT, WIDE, HEIGHT])
        for small, large in zip(*found):
            self.assertAlmostEqual(large / small, 2, delta=0.25, msg=str(found))


class Columns(OfScreens):
    def columns(self) -> List[Column]:
        """Returns the columns that a window shows for these files."""
        return default_columns({"name": bestore.STRING, "size": bestore.INT64, "last_modified": bestore.INT64, TYPE: bestore.STRING})

    def assert_fit(self, window: "Window", dots: int) -> None:
        """Fails unless each column is in view. Only the names' column may be narrower than by default."""
        window.root.update()
        tree, scale = window.list.tree, dots // display.DOTS
        name, *others = [int(tree.column(it, "width")) for it in window.list._places]
        self.assertEqual(others, [it.width * scale for it in self.columns()[1:]], dots)
        self.assertGreaterEqual(name, NARROWEST_FIRST * scale, dots)
        self.assertLessEqual(name + sum(others), tree.winfo_width(), dots)
        self.assertEqual(tree.xview(), (0, 1), dots)
        self.assertFalse(window.list.bar_below.winfo_ismapped(), dots)

    def test_fit_however_early_the_store_opens(self) -> None:
        """The default columns fit a window of the default size, whether they are set before it is on the screen or later."""
        for dots in (96, 192):
            scale = dots // display.DOTS
            window = self.show(MadeSource(self.store), f"{WIDE * scale}x{HEIGHT * scale}", open_display(LARGEST, dots))
            window.list.show_columns(self.columns())
            self.becomes(window, lambda: window.list.tree.winfo_viewable() == 1 and len(window.list.shown()) == 6)
            self.assert_fit(window, dots)
            self.picture(window, dots, f"{dots}-columns")
            window.list.show_columns(self.columns()[:2])
            window.root.update()
            window.list.show_columns(self.columns())
            self.assert_fit(window, dots)
            window.close()


class Colours(OfScreens):
    def test_dark(self) -> None:
        """Each part of a dark window is dark, and its letters are light."""
        window = self.window(WIDE, 96, palette=theme.DARK)
        window.list.selection.choose(2)
        window.list.paint()
        window.warn("Something couldn't be done")
        self.becomes(window, lambda: window.notice.winfo_viewable() == 1)
        self.picture(window, 96, "dark")
        style = ttk.Style(window.root)
        pairs = [(str(it["background"]), str(it["foreground"])) for it in (window.message, window.state, window.notice, window.list.menu,
                                                                          window.query_menu.menu, window.list.tip.label)]
        pairs += [(style.lookup(name, "background"), style.lookup(name, "foreground")) for name in ("Treeview", "TButton", "Treeview.Heading")]
        pairs += [(style.lookup(name, "fieldbackground", ["readonly"]), style.lookup(name, "foreground", ["readonly"]))
                  for name in ("TEntry", "TCombobox", "Cell.TEntry")]
        for paper, ink in pairs:
            self.assertGreater(self.brightness(window, ink), self.brightness(window, paper) + 0.3, (paper, ink))
            self.assertLess(self.brightness(window, paper), 0.35, paper)
        window.close()

    def brightness(self, window: "Window", colour: str) -> float:
        return sum(window.root.winfo_rgb(colour)) / 3 / 65_535


if __name__ == "__main__":
    unittest.main()
