"""Colours, sizes, icons and styles, modelled on BeOS."""

from __future__ import annotations

import tkinter as tk
import tkinter.font
from tkinter import ttk
from typing import List, NamedTuple, Tuple

from .mime_types import MAIL_TYPE


class Palette(NamedTuple):
    """A window's colours."""

    desktop: str
    tab: str
    tab_text: str
    face: str
    text: str
    quiet: str
    line: str
    paper: str
    stripe: str
    marked: str
    fault: str
    fault_paper: str
    tip: str
    button: str
    pressed: str


LIGHT = Palette(
    desktop="#336698", tab="#ffcb00", tab_text="#000000", face="#d8d8d8", text="#000000", quiet="#4f4f4f", line="#989898",
    paper="#ffffff", stripe="#f3f6fa", marked="#9fb6d2", fault="#b3261e", fault_paper="#fbe4e1", tip="#ffffe1", button="#d8d8d8",
    pressed="#ececec")
DARK = Palette(
    desktop="#1f3b57", tab="#c79f00", tab_text="#000000", face="#2b2b2b", text="#e6e6e6", quiet="#a8a8a8", line="#555555",
    paper="#1e1e1e", stripe="#252930", marked="#3d5a7d", fault="#ff8a80", fault_paper="#4a2320", tip="#3a3a2c", button="#3a3a3a",
    pressed="#474747")

ICON_WIDTH, ICON_HEIGHT = 20, 16
SELECT_ALL = ("Control-a", "Control-Lock-A")  # these keys would move to the start of the line in Tk on X11
_DOTS = 96    # the dots per inch of the screen for which lengths are given
_POINTS = 72  # per inch

# The colours of a file icon's paper and of the lines on it, by the first part of the file's type.
_SHEETS = [
    (MAIL_TYPE, "#fff3c4", "#b07d00"), ("message/", "#fff3c4", "#b07d00"), ("text/html", "#dceefb", "#1769aa"),
    ("text/", "#ffffff", "#7a7a7a"), ("image/", "#e3f4e1", "#2e7d32"), ("audio/", "#f6e1f3", "#8e24aa"),
    ("video/", "#f6e1f3", "#8e24aa"), ("application/gzip", "#f3e4d3", "#8d5524"), ("application/zip", "#f3e4d3", "#8d5524"),
    ("", "#ececec", "#9a9a9a"),
]
_FOLDERS = ("inode/directory", "application/x-vnd.Be-directory", "application/x-vnd.be-directory")
_Part = Tuple[str, int, int, int, int]  # a rectangle's colour, position, width and height


class Look(NamedTuple):
    """A window's colours, and how much larger its lengths are than on a screen with 96 dots per inch."""

    palette: Palette
    scale: float

    def pixels(self, length: int) -> int:
        """Returns a length in this screen's pixels, given in pixels of a screen with 96 dots per inch."""
        return round(length * self.scale)


def look_of(widget: tk.Misc, palette: Palette = LIGHT) -> Look:
    """Returns a look whose lengths grow with the fonts of the widget's screen. They are never smaller than at 96 dots per inch."""
    return Look(palette, max(round(float(widget.tk.call("tk", "scaling")) * _POINTS / _DOTS, 2), 1))


def first_size(root: tk.Tk) -> str:
    """Returns the size of a new window, which is no larger than the screen."""
    look = look_of(root)
    width, height = min(look.pixels(940), root.winfo_screenwidth()), min(look.pixels(560), root.winfo_screenheight())
    return f"{width}x{height}"


class Icons:
    """The icons for files, by type."""

    def __init__(self, look: Look) -> None:
        self._look = look
        self._sheets = [(beginning, self._sheet(paper, ink)) for beginning, paper, ink in _SHEETS]
        self._folder = self._image([("#8a6d1d", 1, 3, 7, 2), ("#8a6d1d", 1, 4, 16, 11), ("#ffd95c", 2, 5, 14, 9), ("#ffe999", 2, 5, 14, 2)])

    def of(self, kind: object) -> tk.PhotoImage:
        """Returns a type's icon."""
        name = kind if isinstance(kind, str) else ""
        if name in _FOLDERS:
            return self._folder
        return next(image for beginning, image in self._sheets if name.startswith(beginning))

    def _sheet(self, paper: str, ink: str) -> tk.PhotoImage:
        """Draws a sheet of paper with a few lines."""
        lines = [(ink, 4, y, length, 1) for y, length in ((4, 6), (6, 8), (8, 8), (10, 5))]
        return self._image([("#6b6b6b", 2, 1, 12, 14), (paper, 3, 2, 10, 12), *lines])

    def _image(self, parts: List[_Part]) -> tk.PhotoImage:
        """Draws rectangles, enlarged for the screen."""
        pixels = self._look.pixels
        image = tk.PhotoImage(width=pixels(ICON_WIDTH), height=pixels(ICON_HEIGHT))
        for colour, x, y, width, height in parts:
            row = "{" + " ".join([colour] * (pixels(x + width) - pixels(x))) + "}"
            image.put(" ".join([row] * (pixels(y + height) - pixels(y))), to=(pixels(x), pixels(y)))
        return image


def row_height(widget: tk.Misc, look: Look) -> int:
    """Returns the height of a list row in pixels: that of its text or icon, plus some space."""
    letters = tkinter.font.nametofont("TkDefaultFont", widget).metrics("linespace")
    return max(letters, look.pixels(ICON_HEIGHT)) + look.pixels(4)


def apply(root: tk.Tk, palette: Palette = LIGHT) -> Look:
    """Sets a window's styles and keys, and returns its look."""
    look = look_of(root, palette)
    for key in SELECT_ALL:
        root.event_delete("<<LineStart>>", f"<{key}>")
        root.event_add("<<SelectAll>>", f"<{key}>")
    root.configure(background=palette.face)
    _set_menus(root, palette)
    style = ttk.Style(root)
    style.theme_use("clam")
    _set_fields(style, look)
    _set_list(style, look, row_height(root, look))
    return look


def _set_menus(root: tk.Tk, palette: Palette) -> None:
    """Sets the colours of the menus and of the lists of combo boxes that are made from now on."""
    for widget in ("Menu", "TCombobox*Listbox"):
        root.option_add(f"*{widget}.background", palette.paper)
        root.option_add(f"*{widget}.foreground", palette.text)
    for option, colour in (("activeBackground", palette.marked), ("activeForeground", palette.text), ("selectColor", palette.text),
                           ("disabledForeground", palette.quiet)):
        root.option_add(f"*Menu.{option}", colour)
    root.option_add("*TCombobox*Listbox.selectBackground", palette.marked)
    root.option_add("*TCombobox*Listbox.selectForeground", palette.text)


def _set_fields(style: ttk.Style, look: Look) -> None:
    """Sets the styles of what the user types in and clicks."""
    palette, pixels = look.palette, look.pixels
    style.configure(
        ".", background=palette.face, foreground=palette.text, fieldbackground=palette.paper, insertcolor=palette.text, troughcolor=palette.stripe,
        bordercolor=palette.line, lightcolor=palette.button, darkcolor=palette.button, selectbackground=palette.marked,
        selectforeground=palette.text, arrowcolor=palette.text, font="TkDefaultFont")
    for name in ("TButton", "TMenubutton", "TScrollbar", "TCombobox"):
        style.configure(name, background=palette.button)
        style.map(name, background=[("disabled", palette.face), ("active", palette.pressed)])
    style.configure("TCombobox", padding=(pixels(5), pixels(3)), arrowsize=pixels(14))
    style.map("TCombobox", fieldbackground=[("readonly", palette.paper)], selectbackground=[("readonly", palette.paper)],
              selectforeground=[("readonly", palette.text)], foreground=[("readonly", palette.text)])
    style.configure("TEntry", padding=(pixels(5), pixels(3)))
    style.configure("Cell.TEntry", padding=0)
    style.configure("TButton", padding=(pixels(8), pixels(2)))
    style.configure("TMenubutton", padding=(pixels(8), pixels(3)), arrowsize=pixels(5), arrowpadding=pixels(3))
    style.configure("TScrollbar", arrowsize=pixels(14), width=pixels(14))


def _set_list(style: ttk.Style, look: Look, height: int) -> None:
    """Sets the styles of the list and its headings."""
    palette, pixels = look.palette, look.pixels
    style.configure("Treeview", background=palette.paper, foreground=palette.text, fieldbackground=palette.paper, rowheight=height, borderwidth=0)
    style.configure("Treeview.Heading", background=palette.face, relief="flat", padding=(pixels(3), pixels(4)))
    style.map("Treeview.Heading", background=[("active", palette.pressed)])
    # An icon and a text, without an indicator for child rows.
    parts = [(part, {"side": "left", "sticky": ""}) for part in ("Treeitem.image", "Treeitem.text")]
    style.layout("Treeview.Item", [("Treeitem.padding", {"sticky": "nswe", "children": parts})])
