"""Cuts texts to the width of a column, and ends them with an ellipsis."""

from __future__ import annotations

import tkinter as tk
import tkinter.font
from bisect import bisect_right
from typing import Dict, Tuple

MOST = 8_192  # texts to remember
ELLIPSIS = "…"


class CutTexts:
    """Texts in the list's font. Remembers them, because Tk takes long to measure a text."""

    def __init__(self, widget: tk.Misc) -> None:
        self._font = tkinter.font.nametofont("TkDefaultFont", widget)
        self._cut: Dict[Tuple[str, int], str] = {}

    def cut(self, text: str, width: int) -> str:
        """Returns the text, or as much of it as fits in this width with an ellipsis at its end."""
        found = self._cut.get((text, width))
        if found is None:
            if len(self._cut) >= MOST:
                self._cut.clear()
            found = self._cut[text, width] = self._fitting(text, width)
        return found

    def _fitting(self, text: str, width: int) -> str:
        if self._font.measure(text) <= width:
            return text
        length = bisect_right(range(1, len(text)), width, key=lambda count: self._font.measure(text[:count] + ELLIPSIS))
        return text[:length].rstrip() + ELLIPSIS
