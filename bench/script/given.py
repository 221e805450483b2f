"""The options that the scripts share: the folder for what is built, and programs that are already built."""
from __future__ import annotations

import argparse
import os
import sys
from pathlib import Path

sys.path.insert(0, str(Path(__file__).resolve().parent.parent.parent / "tools"))

import kept

from peers import TITLES


def _given(word: str) -> tuple[str, str]:
    name, _, path = word.partition("=")
    if name not in TITLES or not path:
        raise argparse.ArgumentTypeError(f"{word}: NAME=PATH, where NAME is one of {', '.join(TITLES)}")
    if not os.access(path, os.X_OK) or os.path.isdir(path):
        raise argparse.ArgumentTypeError(f"{word}: there is no program {path}")
    return name, os.path.abspath(path)


def add_given(parser: argparse.ArgumentParser) -> None:
    """Adds the options for the folder, and to use an existing program instead of building it."""
    parser.add_argument("--folder", type=os.path.abspath, default=str(kept.folder() / "bench"),
                        help="the folder for what is built and measured; by default bestore/bench in the user's cache")
    parser.add_argument("--program", type=_given, action="append", default=[], metavar="NAME=PATH",
                        help="uses this program as a peer, instead of building one")
