"""Runs a peer's program, and removes what it leaves in memory if it is interrupted."""
from __future__ import annotations

import glob
import os
import shutil
import subprocess
from typing import Optional


def run_program(words: list[str], stderr: Optional[int] = None) -> subprocess.CompletedProcess[str]:
    """Runs a program and captures its output. LMDB's and SQLite's programs keep their stores in /dev/shm, under names that end with
    their process ID. A program that fails or is interrupted leaves them there, where they would take memory until the machine restarts.
    """
    program = subprocess.Popen(words, stdout=subprocess.PIPE, stderr=stderr, text=True)
    try:
        with program:
            said, errors = program.communicate()
    finally:
        own = f"/dev/shm/bestore-*-{program.pid}"
        for path in [*glob.glob(own), *glob.glob(f"{own}-*")]:
            _remove(path)
    return subprocess.CompletedProcess(words, program.returncode, said, errors)


def _remove(path: str) -> None:
    if os.path.isdir(path):
        shutil.rmtree(path)
    else:
        os.remove(path)
