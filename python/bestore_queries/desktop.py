"""What the desktop says about how its user wants windows to look."""

from __future__ import annotations

import os
import subprocess
from typing import List

PATIENCE = 1.0
"""The number of seconds that the desktop may take to reply, because the window waits for it."""

_PORTAL = ["gdbus", "call", "--session", "--timeout", "1", "--dest", "org.freedesktop.portal.Desktop", "--object-path",
           "/org/freedesktop/portal/desktop", "--method", "org.freedesktop.portal.Settings.Read", "org.freedesktop.appearance",
           "color-scheme"]
_SETTINGS = ["gsettings", "get", "org.gnome.desktop.interface", "color-scheme"]


def prefers_dark() -> bool:
    """Returns whether the desktop prefers dark windows. If there is no desktop, or it doesn't say, returns False."""
    theme = os.environ.get("GTK_THEME", "")
    if theme:
        return theme.lower().endswith((":dark", "-dark"))
    if not _has_bus():
        return False
    return "uint32 1" in _said(_PORTAL) or "prefer-dark" in _said(_SETTINGS)


def _has_bus() -> bool:
    """Returns whether a bus of the session is running. Without one, the programs might start it."""
    folder = os.environ.get("XDG_RUNTIME_DIR")
    return bool(os.environ.get("DBUS_SESSION_BUS_ADDRESS")) or folder is not None and os.path.exists(os.path.join(folder, "bus"))


def _said(words: List[str]) -> str:
    """Returns what a program prints, or nothing if it can't be run or fails."""
    try:
        done = subprocess.run(words, stdin=subprocess.DEVNULL, stdout=subprocess.PIPE, stderr=subprocess.DEVNULL, timeout=PATIENCE, check=True)
    except (OSError, subprocess.SubprocessError):
        return ""
    return done.stdout.decode(errors="replace")
