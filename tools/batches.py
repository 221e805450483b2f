"""Tries several mutants of a crate in one check, which takes far less time than a check for each.

A function is proved from its own body and from the contracts of what it calls. So edits in the bodies of different functions
don't affect each other's proofs, and a check reports each function separately. There is one exception: while a function isn't
proved, those that call it aren't judged. Each mutant that remains undecided gets a check of its own.

So does a mutant that edits anything but a body, or two places, and so do mutants that would fit into a single check, since their
checks run side by side. All checks start from one proof of the crate.
"""
from __future__ import annotations

import os
import re
import shutil
import signal
import subprocess
import tempfile
from concurrent.futures import ThreadPoolExecutor
from pathlib import Path
from typing import Callable, NamedTuple

from mutants import Mutant
from proved import find_rt, rattle_words, read_libraries

# How many mutants a check tries, and how many KiB of memory it may take.
TOGETHER = 6
MEMORY = 5 << 20
PARTS = "src", "specs", "proofs"
FUNCTION = re.compile(r'^(\s*)(?:pub(?:\([a-z]+\))? )?(?:const |unsafe |extern "C" )*fn (\w+)')
# What a check says at a place in a file, what it says only because the edit removed a name, and what it says of a function whose own
# goals are open.
SAID = re.compile(r"^(?:note: )?(?:\./)?((?:src|proofs)/\S+?):(\d+):\d+: (.*)", re.M)
NAMES = re.compile(r"has no field|is not in scope|has no `|was not admitted")
OPEN = r"^fn {path}(?:\S+::)?{function}: (?:not proved$|no proof: expected answers)"
# Any complaint of a check, and one that proves nothing because it only misses a name.
TOLD = re.compile(r"^(?:note: \S+?:\d+:\d+:|\S+?:\d+:\d+: error).*", re.M)
MISSED = re.compile(rf"(?:\./)?proofs/.*(?:{NAMES.pattern})")
# What a check says if it couldn't read the edited text, or what was kept of a library.
UNREAD = re.compile(
    r"^(?:\./)?(?:src|specs)/\S+?:\d+:\d+: error: (?!`[^`]*`: )"
    r"|^(?:\./)?(?:src|specs)/.*: error: .*(?:is not in scope|has no field|is no name|operand is missing|expected the end|cannot continue)"
    r"|Run the lower steps again",
    re.M,
)


class Place(NamedTuple):
    """The function whose body a mutant edits: its file, its first and last line, and its name."""

    file: str
    first: int
    last: int
    function: str

    @property
    def module(self) -> str:
        """The names of its modules, as they begin the paths of its proofs."""
        inner = self.file[len("src/") : -len(".rt")].removesuffix("/mod")
        return "" if inner == "lib" else f"{inner}/"

    def has(self, file: str, line: int) -> bool:
        """Returns whether a line is in the function, or in one of its proofs."""
        if file == self.file:
            return self.first <= line <= self.last
        return file.startswith(f"proofs/{self.module}") and f"/{self.function}/" in file


class Edit(NamedTuple):
    """A mutant that replaces texts in one file, each with another."""

    mutant: Mutant
    file: str
    pairs: tuple[tuple[str, str], ...]

    def applied(self, text: str) -> str | None:
        """Returns the file's text with this edit, or None if a text that the edit replaces doesn't stand in it once."""
        for old, new in self.pairs:
            if text.count(old) != 1:
                return None
            text = text.replace(old, new)
        return text


def read_edit(mutant: Mutant, crate: Path) -> Edit | None:
    """Returns a mutant that edits one file, if it can be applied to the crate."""
    found = re.fullmatch(r"file: (src/\S+)\n((?:old: .+\nnew:.*\n+)+)", mutant.text)
    if not found or not (crate / found[1]).is_file():
        return None
    pairs = re.findall(r"old: (.+)\nnew: ?(.*)", found[2])
    edit = Edit(mutant, found[1], tuple((old, new) for old, new in pairs))
    return edit if edit.applied((crate / edit.file).read_text()) is not None else None


def place_of(edit: Edit, crate: Path) -> Place | None:
    """Returns the function whose body a mutant edits at one place, or None if it edits anything else."""
    if len(edit.pairs) > 1:
        return None
    text = (crate / edit.file).read_text()
    lines, at = text.split("\n"), text[: text.index(edit.pairs[0][0])].count("\n")
    for first in range(at, -1, -1):
        head = FUNCTION.match(lines[first])
        if not head:
            continue
        indent = head[1]
        body = next((it for it in range(first, len(lines)) if begins_body(lines[it], indent)), len(lines))
        last = next((it for it in range(body, len(lines)) if lines[it] == indent + "}"), -1)
        return Place(edit.file, first + 1, last + 1, head[2]) if body < at < last else None
    return None


def begins_body(line: str, indent: str) -> bool:
    """Returns whether a line of a function's head ends where the body begins."""
    return line.startswith(indent) and not line[len(indent) :].startswith((" ", "//")) and line.endswith("{")


def is_refused(said: str, crate: str, place: Place) -> bool:
    """Returns whether a check left a goal of this function open. It didn't if it hasn't judged the function, or if it only missed
    a name."""
    path = re.escape("::".join((crate, *place.module.split("/"))) if place.module else f"{crate}::")
    if not re.search(OPEN.format(path=path, function=place.function), said, re.M):
        return False
    return any(place.has(file, int(line)) and not NAMES.search(text) for file, line, text in SAID.findall(said))


def is_refused_alone(ran: subprocess.CompletedProcess[str]) -> bool:
    """Returns whether the check of a single mutant left a goal open, wherever it is, as `rt must-fail` would say."""
    is_judged = ran.returncode == 1 and ran.stdout.rstrip("\n").rpartition("\n")[2].startswith("logic=not-proved")
    return is_judged and not UNREAD.search(ran.stdout) and any(not MISSED.match(it) for it in TOLD.findall(ran.stdout))


def refused_in(batch: list[Edit], ran: subprocess.CompletedProcess[str], crate: str, places: dict[Edit, Place | None]) -> list[Edit]:
    """Returns which of a batch's mutants its check refuses."""
    if len(batch) == 1 and is_refused_alone(ran):
        return batch
    return [it for it in batch for place in [places[it]] if place and is_refused(ran.stdout, crate, place)]


def deal(waiting: dict[Edit, Place | None], size: int) -> list[list[Edit]]:
    """Divides the mutants into batches, each with at most one per function. Functions of the same file often call each other, so
    their mutants go into different batches if possible. A mutant that edits no body has a batch of its own."""
    places = {edit: place for edit, place in waiting.items() if place}
    order = sorted(places, key=lambda it: (places[it].file, places[it].first))
    batches: list[list[Edit]] = [[] for _ in range(-(-len(order) // size))]
    for number, edit in enumerate(order):
        turns = [batches[(number + turn) % len(batches)] for turn in range(len(batches))]
        fits = [it for it in turns if len(it) < size and all(waiting[other] != waiting[edit] for other in it)]
        if not fits:
            fits = [[]]
            batches.append(fits[0])
        fits[0].append(edit)
    return [it for it in batches if it] + [[edit] for edit, place in waiting.items() if not place]


def run_for(words: list[str], folder: Path, seconds: float | None) -> subprocess.CompletedProcess[str] | None:
    """Runs a command, and returns None if it isn't done in time."""
    if seconds is not None and seconds <= 0:
        return None
    with subprocess.Popen(
        words, cwd=folder, start_new_session=True, stdout=subprocess.PIPE, stderr=subprocess.STDOUT, text=True
    ) as ran:
        try:
            said = ran.communicate(timeout=seconds)[0]
        except BaseException as stopped:
            os.killpg(ran.pid, signal.SIGTERM)
            if isinstance(stopped, subprocess.TimeoutExpired):
                return None
            raise
    return subprocess.CompletedProcess(words, ran.returncode, said)


def link_copy(folder: Path, to: Path) -> None:
    """Copies what a check kept. Its largest files become links, since a check replaces them instead of changing them."""

    def copy(one: str, other: str) -> None:
        if one.endswith(".oantt"):
            os.link(one, other)
        else:
            shutil.copy2(one, other)

    shutil.copytree(folder, to, copy_function=copy)


def check_batch(folder: Path, batch: list[Edit], words: list[str], seconds: float | None) -> subprocess.CompletedProcess[str] | None:
    """Checks the crate with these edits. Returns None if the check isn't done in time."""
    with tempfile.TemporaryDirectory(prefix="rt-edit-batch-", dir=folder / "out") as name:
        room = Path(name)
        for part in PARTS:
            if (folder / part).is_dir():
                shutil.copytree(folder / part, room / part)
        for edit in batch:
            file = room / edit.file
            text = file.read_text()
            file.write_text(edit.applied(text) or text)
        link_copy(folder / "out/incremental", room / "kept")
        return run_for([*words, "--jobs", "1", "--incremental", "kept"], room, seconds)


def lanes() -> int:
    """Returns how many checks may run at once."""
    found = re.search(r"^MemAvailable: *(\d+)", Path("/proc/meminfo").read_text(), re.M)
    return max(1, min(len(os.sched_getaffinity(0)), int(found[1]) // MEMORY if found else 1))


def try_together(
    clone: Path, crate: str, mutants: list[Mutant], left: Callable[[], float | None], note: Callable[[Mutant], None]
) -> None:
    """Calls `note` with each mutant that a check refuses. `rt must-fail` has to judge the others."""
    folder, rattle = clone / "crates" / crate, find_rt().with_name("rattle")
    edits = [edit for mutant in mutants for edit in [read_edit(mutant, folder)] if edit]
    if not edits or not rattle.is_file() or not (folder / "src/lib.rt").is_file():
        return
    proved = run_for(["rt", "check"], folder, left())
    if not proved or proved.returncode:
        return
    words = rattle_words("check", crate, "src/lib.rt", read_libraries(), clone)
    places = {edit: place_of(edit, folder) for edit in edits}

    def try_batch(batch: list[Edit]) -> list[Edit]:
        ran = check_batch(folder, batch, words, left())
        refused = refused_in(batch, ran, crate, places) if ran else []
        for edit in refused:
            note(edit.mutant)
        return refused

    waiting = places
    for size in (TOGETHER, 1) if len(edits) > TOGETHER else (1,):
        batches = deal(waiting, size)
        with ThreadPoolExecutor(lanes()) as pool:
            refused = {it for found in pool.map(try_batch, batches) for it in found}
        waiting = {edit: places[edit] for batch in batches if len(batch) > 1 for edit in batch if edit not in refused}
