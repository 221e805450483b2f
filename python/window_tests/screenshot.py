"""Takes a picture of the query window on an in-memory display. Needs Xvfb.

    PYTHONPATH=python python3 python/window_tests/screenshot.py [OPTION..] FILE.png QUERY

--socket PATH, --folder FOLDER   the store to query
--size WxH                       the size in pixels
--sort ATTRIBUTE                 sorts by this attribute, largest first
--edit PLACE                     the position, from 0, of a hit whose type is being edited
--columns NAME,NAME..            the attributes to show

The picture is taken once the window hasn't changed for two seconds.
"""

from __future__ import annotations

import argparse
import os
import sys
import time
import tkinter
from typing import List

from bestore_queries import columns
from bestore_queries.sources import FolderSource, ServerSource, Source
from bestore_queries.window import Window

import display


def options_of(words: List[str]) -> argparse.Namespace:
    """Parses the command line."""
    parser = argparse.ArgumentParser(usage=__doc__)
    for name in ("--socket", "--folder", "--sort", "--columns"):
        parser.add_argument(name)
    parser.add_argument("--size", default=display.SIZE)
    parser.add_argument("--edit", type=int)
    parser.add_argument("file")
    parser.add_argument("query")
    return parser.parse_args(words)


def settle(window: Window) -> None:
    """Runs the window until it has been unchanged for two seconds."""
    last, since = "", time.monotonic()

    def look() -> None:
        nonlocal last, since
        now = f"{window.list.shown()} {window.state['text']} {window.message['text']} {window.hits.is_sorting}"
        if now != last:
            last, since = now, time.monotonic()
        if time.monotonic() > since + 2:
            window.root.quit()
        else:
            window.root.after(50, look)
    look()
    window.root.mainloop()


def show(source: Source, screen: display.Screen, options: argparse.Namespace) -> bytes:
    """Returns a picture of a window that shows what the options specify."""
    root = tkinter.Tk()
    root.geometry(options.size)
    window = Window(root, source)
    window.ask(options.query)
    settle(window)
    if options.columns is not None:
        window.choose(options.columns.split(","))
        settle(window)
    if options.sort is not None:
        for _ in range(2 if window.hits.attribute != options.sort else 1):
            window.sort(columns.column_of(options.sort))
        settle(window)
    if options.edit is not None:
        window.list.selection.choose(options.edit)
        window.list.edit()
        settle(window)
    made = display.png(display.pixels_of(screen.path))
    window.close()
    return made


def main(words: List[str]) -> int:
    options = options_of(words)
    with display.display(options.size) as screen:
        os.environ["DISPLAY"] = screen.name
        source = ServerSource(options.socket) if options.folder is None else FolderSource(options.folder)
        try:
            made = show(source, screen, options)
        finally:
            source.close()
        with open(options.file, "wb") as file:
            file.write(made)
    return 0


if __name__ == "__main__":
    sys.exit(main(sys.argv[1:]))
