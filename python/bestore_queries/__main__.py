"""The command bestore-queries."""

from __future__ import annotations

import argparse
import os
import sys
from typing import List, Optional

import bestore

from . import desktop
from .mail import is_maildir
from .own_server import CannotStart
from .sources import FolderSource, ServerSource, Source

def parser() -> argparse.ArgumentParser:
    """Returns the parser for the command line."""
    made = argparse.ArgumentParser(
        prog="bestore-queries",
        description="A window that finds files by their attributes, and follows them as they come and go.",
        epilog="Without --socket and --folder, it uses the server at BESTORE_SOCKET, or at the usual socket if that isn't set. If no "
        "server is listening there, it starts its own.")
    where = made.add_mutually_exclusive_group()
    where.add_argument("--socket", metavar="PATH", help="the socket of the server to search")
    where.add_argument("--folder", metavar="FOLDER", help="read this folder, or Maildir, into the window's own store")
    made.add_argument("--geometry", metavar="WxH", help="the size in pixels, optionally followed by the position as +X+Y")
    colours = made.add_mutually_exclusive_group()
    colours.add_argument("--dark", action="store_true", default=None, help="dark colours; by default, the window asks the desktop")
    colours.add_argument("--light", action="store_false", dest="dark", help="light colours")
    made.add_argument("query", nargs="?", metavar="QUERY", help="the first query; bestore-query(7) describes the language")
    return made


def source_of(options: argparse.Namespace) -> Source:
    """Returns the store that the command line specifies."""
    if options.folder is None:
        return ServerSource(options.socket)
    if not os.path.isdir(options.folder):
        raise CannotStart(f"{options.folder} isn't a folder")
    return FolderSource(os.path.abspath(options.folder))


def main(words: Optional[List[str]] = None) -> int:
    """Shows the window until it is closed."""
    options = parser().parse_args(words)
    try:
        import tkinter
        from . import theme
        from .pauses import short_pauses
        from .window import Window
    except ImportError as error:
        print(f"bestore-queries: {error}. Debian has Tk for Python in python3-tk", file=sys.stderr)
        return 1
    try:
        root = tkinter.Tk(className="bestore-queries")
        root.geometry(options.geometry or theme.first_size(root))
        source = source_of(options)
    except (tkinter.TclError, CannotStart, bestore.Error, OSError) as error:
        print(f"bestore-queries: {error}", file=sys.stderr)
        return 1
    try:
        is_dark = desktop.prefers_dark() if options.dark is None else options.dark
        is_mail = options.folder is not None and is_maildir(options.folder)
        window = Window(root, source, is_mail=is_mail, palette=theme.DARK if is_dark else theme.LIGHT)
        if options.query is not None:
            window.ask(options.query)
        with short_pauses(root):
            root.mainloop()
        window.close()
    finally:
        source.close()
    return 0


if __name__ == "__main__":
    sys.exit(main())
