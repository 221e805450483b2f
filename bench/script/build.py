"""Builds the peers with the C compiler, and bestore's program on what the gate has proved, or otherwise with rt in a copy of
the repository."""
from __future__ import annotations

import glob
import os
import shlex
import shutil
import subprocess
import sys
from collections.abc import Iterable
from pathlib import Path

sys.path.insert(0, str(Path(__file__).resolve().parent.parent.parent / "tools"))

from proved import below, find_rt, folder_of, rattle_words, read_libraries

from peers import OURS, PEERS, TITLES, Peer

BENCH = os.path.dirname(os.path.dirname(os.path.abspath(__file__)))
REPOSITORY = os.path.dirname(BENCH)
LINE = "bench_store tests_may=Threads+Wait: arrayvec be_value be_query be_volume be_volume_state be_core be_table be_store\n"


def built_programs(folder: str, given: dict[str, str], names: Iterable[str] = TITLES) -> dict[str, str]:
    """Returns the paths of the named peers' programs, for those that could be built. Given programs are used as they are."""
    os.makedirs(folder, exist_ok=True)
    programs = dict(given)
    for peer in PEERS:
        if peer.name in given or peer.name not in names:
            continue
        program = build_ours(folder) if peer.name == OURS else build_peer(peer, folder)
        if program:
            programs[peer.name] = program
        else:
            print(f"{peer.title} is skipped: it needs {peer.package or 'the command rt'}", file=sys.stderr)
    return programs


def built_peak(folder: str) -> str:
    """Returns the program that measures another program's memory."""
    program = os.path.join(folder, "peak")
    compile_c(program, [f"{BENCH}/peak.c"])
    return program


def compile_c(program: str, words: list[str]) -> None:
    subprocess.run(["cc", "-std=gnu11", "-O2", "-o", program, *words], check=True)


def has_library(peer: Peer) -> bool:
    """Returns whether the compiler finds the peer's library."""
    words = ["cc", "-x", "c", "-", "-o", "/dev/null", f"-l{peer.library}"]
    return subprocess.run(words, input=b"int main(void) { return 0; }", stderr=subprocess.DEVNULL).returncode == 0


def build_peer(peer: Peer, folder: str) -> str | None:
    archive = os.path.join(REPOSITORY, peer.archive)
    if not os.path.exists(archive) or peer.library and not has_library(peer):
        return None
    program = os.path.join(folder, peer.name)
    sources = glob.glob(f"{BENCH}/driver/*.c") + glob.glob(f"{BENCH}/peers/{peer.sources}")
    libraries = [archive] if peer.archive else [f"-l{peer.library}"] if peer.library else []
    compile_c(program, [*peer.flags, *sources, *libraries, "-lpthread"])
    return program


def build_ours(folder: str) -> str | None:
    """Proves and builds the program. The variable RT may name the command. The gate leaves libraries without the stamp by which
    rt recognises the results of its own checks, so rt would prove them all again. With such libraries, only the program is
    proved.
    """
    rt = shlex.split(os.environ.get("RT", "rt"))
    if not shutil.which(rt[0]):
        return None
    libraries = {**read_libraries(), name_in(LINE): libraries_in(LINE)}
    made = [folder_of(it) for it in below(name_in(LINE), libraries)]
    if all(any(it.glob("*.rlib")) and not (it / "stamp").exists() for it in made):
        return build_over_gate(os.path.join(folder, "over_gate"), libraries)
    crate = lay_copy(os.path.join(folder, "repository"))
    subprocess.run([*rt, "run", "--", "open", "8"], cwd=crate, check=True, stdout=sys.stderr)
    return os.path.join(crate, "out", "bench_store")


def build_over_gate(crate: str, libraries: dict[str, list[str]]) -> str:
    """Proves and builds only the program, on the libraries that the gate has proved."""
    name, kit = name_in(LINE), find_rt().parent.parent
    lay_folder(f"{BENCH}/store", crate, ending=".txt")
    os.makedirs(f"{crate}/out", exist_ok=True)
    words = rattle_words("build", name, "src/main.rt", libraries)
    words += ["--backend", "llvm", "--links", f"{name}=", "-o", f"out/{name}.o"]
    subprocess.run(words, cwd=crate, check=True, stdout=sys.stderr)
    program = os.path.join(crate, "out", name)
    link = [f"{kit}/bin/rattle-link", "--target", "x86_64-unknown-linux-gnu", "--toolchain", f"{kit}/toolchain"]
    link += ["-o", program, f"{crate}/out/{name}.o", f"{kit}/c/libos_c.a", f"{kit}/c/liblibc_c.a"]
    subprocess.run(link, check=True, stdout=sys.stderr)
    return program


def lay_copy(copy: str) -> str:
    """Copies the repository and the program into a separate folder, and returns the program's folder there."""
    names = needed_crates()
    for name in names:
        lay_folder(f"{REPOSITORY}/crates/{name}", f"{copy}/crates/{name}")
        lay_proved(f"{REPOSITORY}/crates/{name}", f"{copy}/crates/{name}")
    crate = f"{copy}/crates/bench_store"
    lay_folder(f"{BENCH}/store", crate, ending=".txt")
    shutil.copy2(f"{REPOSITORY}/HANDLES", copy)
    with open(f"{copy}/crates.txt", "w") as lines:
        lines.writelines(line for line in crate_lines() if name_in(line) in names)
        lines.write(LINE)
    return crate


def lay_folder(source: str, target: str, ending: str = "") -> None:
    """Makes the target folder the same as the source, removing a suffix from file names. A folder out/ is left alone."""
    os.makedirs(target, exist_ok=True)
    there = {name.removesuffix(ending): f"{source}/{name}" for name in os.listdir(source) if name != "out"}
    for name in set(os.listdir(target)) - {*there, "out"}:
        remove(f"{target}/{name}")
    for name, path in there.items():
        if os.path.isdir(path):
            lay_folder(path, f"{target}/{name}", ending)
        else:
            lay_file(path, f"{target}/{name}")


def remove(path: str) -> None:
    if os.path.isdir(path):
        shutil.rmtree(path)
    else:
        os.remove(path)


def lay_proved(source: str, target: str) -> None:
    """Copies a crate's proved form if the copy's is older."""
    if last_proved(source) > last_proved(target):
        shutil.rmtree(f"{target}/out", ignore_errors=True)
        shutil.copytree(f"{source}/out", f"{target}/out")


def last_proved(crate: str) -> float:
    """Returns the time when a crate was last checked, or 0."""
    kept = glob.glob(f"{crate}/out/incremental/*") + glob.glob(f"{crate}/out/rlib/stamp")
    return max(map(os.path.getmtime, kept), default=0)


def lay_file(source: str, target: str) -> None:
    if not os.path.exists(target) or open(source, "rb").read() != open(target, "rb").read():
        shutil.copy2(source, target)


def crate_lines() -> list[str]:
    with open(f"{REPOSITORY}/crates.txt") as lines:
        return [line for line in lines if ":" in line]


def name_in(line: str) -> str:
    return line.split(":")[0].split()[0]


def libraries_in(line: str) -> list[str]:
    return line.split(":")[1].split()


def needed_crates() -> set[str]:
    """Returns the repository's crates that the program needs."""
    below = {name_in(line): libraries_in(line) for line in crate_lines()}
    needed: set[str] = set()
    waiting = libraries_in(LINE)
    while waiting:
        name = waiting.pop()
        if name in below and name not in needed:
            needed.add(name)
            waiting += below[name]
    return needed
