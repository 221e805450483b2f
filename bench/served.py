"""Runs bestored and `be` for a benchmark, and measures their processor time and memory."""
from __future__ import annotations

import os
import resource
import subprocess
import sys
import tempfile
import time
from pathlib import Path
from typing import ClassVar, List, NamedTuple

TICKS = os.sysconf("SC_CLK_TCK")
LOOK = 0.02  # seconds between looks at what a program does


class Ran(NamedTuple):
    """What a program has printed, and the most memory that it was seen to use, in MB."""

    output: str
    memory: int


class Server:
    """A server that keeps a file, from the time at which it listens until the end of a `with` block."""

    running: ClassVar[List[Server]] = []

    def __init__(self, programs: Path, keep: Path, pages: int, *options: str) -> None:
        self.socket = keep.with_suffix(".socket")
        self._be = programs / "be"
        words: List[str | Path] = [programs / "bestored", "--socket", self.socket, "--keep", keep, "--pages", str(pages), *options]
        self.process = subprocess.Popen(words, stderr=subprocess.PIPE, text=True)
        self.running.append(self)
        while not self.socket.exists():
            if self.process.poll() is not None:
                sys.exit(f"bestored ended with status {self.process.returncode}: {self.process.communicate()[1]}")
            time.sleep(LOOK)

    def __enter__(self) -> Server:
        return self

    def __exit__(self, *error: object) -> None:
        self.process.terminate()
        self.process.communicate()
        self.running.remove(self)

    def be(self, *words: str | Path) -> Ran:
        """Runs a command of `be`, which must succeed."""
        memory = 0
        with tempfile.TemporaryFile("w+") as output:
            process = subprocess.Popen([self._be, "--socket", self.socket, *words], stdout=output)
            while process.poll() is None:
                # At its end, a program has no memory any more.
                memory = max(memory, memory_of(process.pid).get("VmHWM", 0))
                time.sleep(LOOK)
            if process.returncode != 0:
                sys.exit(f"be {words[0]} ended with status {process.returncode}")
            output.seek(0)
            return Ran(output.read(), memory)

    def processor_time(self) -> float:
        """Returns the processor time that the server has taken so far, in seconds."""
        fields = Path(f"/proc/{self.process.pid}/stat").read_text().rpartition(")")[2].split()
        return (int(fields[11]) + int(fields[12])) / TICKS

    def memory(self) -> str:
        """Returns how much memory the server uses, and the most that it has used, with the pages of files that it maps."""
        sizes = memory_of(self.process.pid)
        return f"{sizes['VmRSS']} MB, at most {sizes['VmHWM']} MB so far"


def check_programs(folder: Path) -> None:
    """Exits with an error unless the folder has bestored and be."""
    for name in ("bestored", "be"):
        if not os.access(folder / name, os.X_OK):
            sys.exit(f"there is no {name} in {folder}; build it with cargo build --release in rust/, or use --programs")


def memory_of(process: int | str) -> dict[str, int]:
    """Returns the sizes of a process's memory under their names in proc(5), in MB."""
    lines = Path(f"/proc/{process}/status").read_text().splitlines()
    return {line.split(":")[0]: int(line.split()[1]) // 1024 for line in lines if line.endswith(" kB")}


def processor_time() -> float:
    """Returns the processor time of this process, of its programs that have ended, and of its servers, in seconds."""
    ended = resource.getrusage(resource.RUSAGE_CHILDREN)
    return time.process_time() + ended.ru_utime + ended.ru_stime + sum(it.processor_time() for it in Server.running)
