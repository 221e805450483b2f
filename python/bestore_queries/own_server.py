"""A server that the window starts for itself if none is listening."""

from __future__ import annotations

import ctypes
import os
import shutil
import signal
import subprocess
import tempfile
import time
from typing import Callable

import bestore
from bestore.connected import SocketPath

PATIENCE = 10.0
"""The number of seconds that a server may take to stop, and to start listening if its file is small."""
PATIENCE_PER_BYTE = 5e-6
"""The number of seconds that it may take longer for each byte of its file."""
PAGES = 16_384
"""The number of pages in the store, unless its file needs more."""
MOST_PAGES = 16_777_216
"""The number of pages that a store can have."""
REPLYING = 1.0
"""The number of seconds that a server that listens may take to reply before the window opens without its reply."""

_PR_SET_PDEATHSIG = 1  # from <linux/prctl.h>


class CannotStart(Exception):
    """No server is running, and none can be started. `is_full` says whether its store has too few pages for the file."""

    def __init__(self, why: str, is_full: bool = False) -> None:
        super().__init__(why)
        self.is_full = is_full


def kept_path() -> str:
    """Returns the path of the store's file, which the systemd units use too."""
    folder = os.environ.get("XDG_DATA_HOME") or os.path.join(os.path.expanduser("~"), ".local", "share")
    return os.path.join(folder, "bestore", "store.bestore")


def listens(path: SocketPath) -> bool:
    """Returns whether a server is listening at a socket, even one that refuses this client or hangs."""
    try:
        bestore.connect(path, REPLYING).close()
    except bestore.NoServer:
        return False
    except bestore.Error:
        return True
    return True


def _ended_with_this_process() -> Callable[[], None]:
    """Returns a function for a child process to call before it runs its program. The system then sends the child SIGTERM when this process
    ends, even if it is killed, or earlier if the thread that started the child ends. So start the child in the main thread."""
    prctl, number = ctypes.CDLL(None).prctl, ctypes.c_ulong(signal.SIGTERM)

    def request() -> None:
        prctl(_PR_SET_PDEATHSIG, number)
    return request


class OwnServer:
    """A server that runs until `close`, or until this process ends."""

    def __init__(self, path: SocketPath) -> None:
        program = shutil.which("bestored")
        if program is None:
            raise CannotStart(f"no server listens at {path}, and the program bestored isn't installed")
        self._path, self._kept = path, kept_path()
        os.makedirs(os.path.dirname(self._kept), exist_ok=True)
        pages, is_started = PAGES, False
        while not is_started:
            try:
                self._start(program, pages)
                is_started = True
            except CannotStart as error:
                if not error.is_full or pages >= MOST_PAGES:
                    raise
                pages = min(2 * pages, MOST_PAGES)  # a server with more pages has written the file

    def _start(self, program: str, pages: int) -> None:
        self._said = tempfile.TemporaryFile()
        words = [program, "--socket", self._path.path, "--keep", self._kept, "--pages", str(pages)]
        self._process = subprocess.Popen(
            words, stdin=subprocess.DEVNULL, stdout=subprocess.DEVNULL, stderr=self._said, start_new_session=True,
            preexec_fn=_ended_with_this_process())
        try:
            self._await()
        except BaseException:
            self.close()
            raise

    def _await(self) -> None:
        size = os.path.getsize(self._kept) if os.path.exists(self._kept) else 0
        patience = PATIENCE + size * PATIENCE_PER_BYTE
        end = time.monotonic() + patience
        while not listens(self._path):
            if self._process.poll() is not None:
                self._said.seek(0)
                said = self._said.read().decode(errors="replace").strip()
                raise CannotStart(f"bestored ended at once: {said or self._process.returncode}", "more pages" in said)
            if time.monotonic() > end:
                raise CannotStart(f"bestored still isn't listening at {self._path} after {patience:.0f} seconds")
            time.sleep(0.02)

    def close(self) -> None:
        """Stops the server, which flushes its file."""
        self._process.terminate()
        try:
            self._process.wait(PATIENCE)
        except subprocess.TimeoutExpired:
            self._process.kill()
            self._process.wait()
        self._said.close()
