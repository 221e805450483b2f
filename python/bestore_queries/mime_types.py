"""MIME types as people say them, from the database of the package shared-mime-info."""

from __future__ import annotations

import functools
import os
import re
from typing import Dict, List, Optional
from xml.etree import ElementTree

MAIL_TYPE = "text/x-email"
FOLDER_TYPE = "application/x-vnd.Be-directory"

_OWN = {FOLDER_TYPE.lower(): "Folder", MAIL_TYPE: "Email"}  # types of BeOS, which the database lacks
_TYPE = re.compile(r"[a-z0-9][a-z0-9!#$&^_.+-]*/[a-z0-9][a-z0-9!#$&^_.+-]*", re.ASCII)  # can't lead out of the database's folder
_COMMENT = "{http://www.freedesktop.org/standards/shared-mime-info}comment"
_LANGUAGE = "{http://www.w3.org/XML/1998/namespace}lang"


@functools.lru_cache(4096)
def words_of(name: str) -> Optional[str]:
    """Returns what people call a MIME type, such as `PNG image`, or None if the database doesn't have it."""
    name = name.lower()
    if name in _OWN:
        return _OWN[name]
    words = _comment_of(_aliases().get(name, name)) if _TYPE.fullmatch(name) else None
    return None if words is None else words[:1].upper() + words[1:]


def _comment_of(name: str) -> Optional[str]:
    """Returns what the database calls a type in English."""
    for folder in _folders():
        try:
            parts = ElementTree.parse(os.path.join(folder, f"{name}.xml")).getroot()
        except (OSError, ElementTree.ParseError):
            continue
        for part in parts.iter(_COMMENT):
            if part.get(_LANGUAGE) is None and part.text:
                return " ".join(part.text.split())
    return None


def _folders() -> List[str]:
    """Returns the folders in which the database may be."""
    own = os.environ.get("XDG_DATA_HOME") or os.path.join(os.path.expanduser("~"), ".local", "share")
    shared = os.environ.get("XDG_DATA_DIRS") or "/usr/local/share:/usr/share"
    return [os.path.join(folder, "mime") for folder in [own, *shared.split(":")] if os.path.isabs(folder)]


@functools.lru_cache(None)
def _aliases() -> Dict[str, str]:
    """Returns the types' other names, with the names by which the database has them."""
    found: Dict[str, str] = {}
    for folder in reversed(_folders()):
        try:
            with open(os.path.join(folder, "aliases"), encoding="utf-8") as file:
                lines = [line.lower().split() for line in file]
        except (OSError, UnicodeDecodeError):
            continue
        found.update((line[0], line[1]) for line in lines if len(line) == 2 and _TYPE.fullmatch(line[1]))
    return found
