"""A small window beside the pointer, with what a cell has no room for."""

from __future__ import annotations

import tkinter as tk
from typing import Any, Callable

from .theme import Look

PAUSE = 500  # milliseconds that the pointer rests on a cell before its tip is shown
BELOW = 18   # how far below the pointer the tip is
WIDEST = 480


class Tip:
    """The tips of a widget's places. `text_at` returns the text for a position in the widget, or nothing."""

    def __init__(self, widget: tk.Widget, look: Look, text_at: Callable[[int, int], str]) -> None:
        self._widget, self._look, self._text_at = widget, look, text_at
        self._waiting, self._shown_text = "", ""
        self.label = tk.Label(
            widget.winfo_toplevel(), background=look.palette.tip, foreground=look.palette.text, justify="left", relief="solid", borderwidth=1,
            padx=look.pixels(5), pady=look.pixels(3), wraplength=look.pixels(WIDEST))
        tag = f"Tip{widget}"  # with the widget's own tag, other bindings of its events would come before these
        widget.bindtags((tag, *widget.bindtags()))
        widget.bind_class(tag, "<Motion>", self._moved)
        for event in ("<Leave>", "<ButtonPress>", "<Key>", "<MouseWheel>"):
            widget.bind_class(tag, event, lambda _: self.hide())
        widget.bind_class(tag, "<Destroy>", lambda _: self._cancel())

    def _moved(self, event: "tk.Event[Any]") -> None:
        if self._shown_text and self._text_at(event.x, event.y) == self._shown_text:
            return
        self.hide()
        self._waiting = self._widget.after(PAUSE, self.show, event.x, event.y)

    def show(self, x: int, y: int) -> None:
        """Shows the tip of this position, if it has one, within the window."""
        self._cancel()
        self._shown_text = self._text_at(x, y)
        if not self._shown_text:
            return
        window = self._widget.winfo_toplevel()
        self.label.configure(text=self._shown_text)
        left = self._widget.winfo_rootx() - window.winfo_rootx() + x
        top = self._widget.winfo_rooty() - window.winfo_rooty() + y
        below = top + self._look.pixels(BELOW)
        if below + self.label.winfo_reqheight() > window.winfo_height():
            below = top - self.label.winfo_reqheight() - self._look.pixels(4)
        self.label.place(x=max(min(left, window.winfo_width() - self.label.winfo_reqwidth()), 0), y=below)
        self.label.lift()

    def hide(self) -> None:
        """Hides the tip."""
        self._cancel()
        self._shown_text = ""
        self.label.place_forget()

    def _cancel(self) -> None:
        if self._waiting:
            self._widget.after_cancel(self._waiting)
        self._waiting = ""
