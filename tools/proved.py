"""The crates in crates.txt, and how to make `rattle` read one with the proved forms of the crates below it."""
from __future__ import annotations

import shutil
import sys
from pathlib import Path

ROOT = Path(__file__).resolve().parent.parent


def read_libraries() -> dict[str, list[str]]:
    """Returns the libraries that crates.txt lists for each crate, both this repository's and the toolchain's."""
    lines = (it.partition("#")[0].partition(":") for it in (ROOT / "crates.txt").read_text().splitlines())
    return {names.split()[0]: libraries.split() for names, _, libraries in lines if names.strip()}


def below(crate: str, libraries: dict[str, list[str]]) -> set[str]:
    """Returns the repository's libraries that a crate needs, directly or indirectly."""
    found: set[str] = set()
    for it in libraries[crate]:
        if it in libraries:
            found |= {it} | below(it, libraries)
    return found


def folder_of(crate: str, top: Path = ROOT) -> Path:
    """Returns the folder where the gate or a check leaves a library's proved form."""
    return top / f"crates/{crate}/out/rlib"


def find_rt() -> Path:
    return Path(shutil.which("rt") or sys.exit("there is no rt")).resolve()


def rattle_words(command: str, crate: str, source: str, libraries: dict[str, list[str]], top: Path = ROOT) -> list[str]:
    """Returns the command line of `rattle COMMAND` for a crate with this source, in the clone `top`."""
    rt = find_rt()
    kit = rt.parent.parent

    def rlib(library: str) -> Path:
        return (folder_of(library, top) if library in libraries else kit / "rlibs") / f"{library}.rlib"

    externs = [("--extern", f"{it}={rlib(it)}") for it in ["std", *libraries[crate]]]
    folders = [("-L", f"dependency={rlib(it).parent}") for it in ["std", *sorted(below(crate, libraries))]]
    logic = ["--antt-project", kit / "rattle/logic/antt-project.json", "--logic-built", kit / "logic_built"]
    toolchain = ["--toolchain", kit / "toolchain"] if command == "build" else []
    pairs = [word for pair in externs + folders for word in pair]
    words = [rt.with_name("rattle"), command, "--crate-name", crate, source, *pairs, *logic, *toolchain]
    return [str(it) for it in words]
