#!/usr/bin/env python3
"""Tests tools/check-words --names on a small repository: which names it refuses and which it accepts in sources, definitions,
proofs, edits, files and folders, and that it reads neither comments nor texts.

usage: tests/words.py

If something is wrong, it says what and exits with status 1.
"""
from __future__ import annotations

import re
import shutil
import subprocess
import sys
import tempfile
from pathlib import Path

TOP = Path(__file__).resolve().parent.parent

# Files in crates/ and mutants/, and the names that are refused, each with its line.
REFUSED = {
    "low/src/calls.rt": ("fn told() {}\nlet TellsNode = LEAST_ITEMS;\n", ["1 told", "2 LEAST_ITEMS", "2 TellsNode"]),
    "low/src/texts.rt": ("// told\nlet a = \"told\"; let b = '\"'; let spelt = b'\"';\n", ["2 spelt"]),
    "low/src/long.rt": ("let a = r#\"told \" told\"#;\nlet b = \"told\\\n    \\\" told\"; let untold = 1;\n", ["3 untold"]),
    "low/src/lives.rt": ("fn f<'a>(stood: &'a u8) {}\n", ["1 stood"]),
    "low/src/public.rt": ("let dones = least; let dones_of = least_of;\n", ["1 dones_of", "1 least_of"]),
    "low/src/held.rt": ("let holder = 1;\n", ["1 holder"]),
    "low/specs/Facts.antt": ("-- told\npub Stands : ℕ  -- stands\nStands = \"told\"\n", ["2 Stands", "3 Stands"]),
    "low/proofs/Facts.antt": ("pub cut-twin : twin' ≡ spelling\n", ["1 spelling", "1 twin", "1 twin"]),
    "low/proofs/Ledgers.antt": ("pub a : b\n", ["0 Ledgers"]),
    "low/proofs/calls/tell_all/Answers.antt": ("pub a : b\n", ["0 tell_all"]),
    "low/must-fail/first.edit": ("file: src/calls.rt\nold: told(\"told\")\nnew: standing()\n", ["2 told", "3 standing"]),
    "mutants/low.edits": ("mutant: tells_nothing\nfile: src/calls.rt\nold: \"1\nnew: \"told\" + spelt\n", ["1 tells_nothing", "4 spelt"]),
}
PASSED = {
    "low/src/others.rt": "fn understands_household(retold: u8, withstand: u8, bestowed: u8) {}\n",
    "low/src/kit.rt": "eqb_tells; leb_tells; handle_tells; mut_Tells; shr_Tells; dones; least;\n",
    "low/proofs/Kept.antt": "pub in_ok-dones : length-least\n",
    "low/README.md": "What `told` told.\n",
    "bestore_c/src/usage.rt": "let holder = 1;\n",
    "mutants/bestore_c.edits": "mutant: usage\nfile: src/usage.rt\nold: holder = 1\nnew: holder = 2\n",
}


def place_of(name: str) -> str:
    """Returns a file's path: as given if it is in mutants/, and otherwise in crates/."""
    return name if name.startswith("mutants/") else f"crates/{name}"


class Repository:
    """A repository with the tool and these files."""

    def __init__(self, folder: Path, files: dict[str, str]) -> None:
        self.folder = folder
        (folder / "tools").mkdir(parents=True)
        shutil.copy(TOP / "tools/check-words", folder / "tools")
        for name, text in files.items():
            path = folder / place_of(name)
            path.parent.mkdir(parents=True, exist_ok=True)
            path.write_text(text)
        subprocess.run(["git", "init", "--quiet"], cwd=folder, check=True)

    def check(self, *words: str) -> tuple[int, str, str]:
        """Returns the tool's status, its output, and the last line of its errors."""
        ran = subprocess.run(["tools/check-words", *words], cwd=self.folder, capture_output=True, text=True, check=False)
        return ran.returncode, ran.stdout, (ran.stderr.splitlines() or [""])[-1]


def names_in(printed: str, file: str) -> list[str]:
    """Returns the names that were found in a file, each with its line number."""
    return [f"{it[0]} {it[1]}" for it in re.findall(rf"^{re.escape(place_of(file))}:(\d+): '(\S+)': write ", printed, re.M)]


def check_refused(folder: Path, faults: list[str]) -> None:
    """Each name that should be refused is refused, whether all files are checked or only its own."""
    repository = Repository(folder, {name: text for name, (text, _) in REFUSED.items()})
    status, printed, last = repository.check("--names")
    wanted = {name: sorted({*names}) for name, (_, names) in REFUSED.items()}
    for name, names in wanted.items():
        check(faults, f"the names of {name}", sorted(names_in(printed, name)), names)
        alone = repository.check("--names", place_of(name))
        check(faults, f"those of {name} alone", (alone[0], sorted(names_in(alone[1], name))), (1, names))
    count = sum(len(it) for it in wanted.values())
    check(faults, "the status", status, 1)
    check(faults, "the count", last, f"words: {count} names that this project's code doesn't use")


def check_passed(folder: Path, faults: list[str]) -> None:
    """These names are accepted, and an option that doesn't exist is refused."""
    repository = Repository(folder, PASSED)
    count = sum(not name.endswith(".md") for name in PASSED)
    passed = f"words: {count} files, and none has a name that isn't used here\n"
    check(faults, "names that stay", repository.check("--names"), (0, passed, ""))
    check(faults, "an unknown word", repository.check("--name")[0], 1)
    check(faults, "a count of names", repository.check("--names", "--count"), (0, passed, ""))


def check_prose(folder: Path, faults: list[str]) -> None:
    """Without --names, the tool reads prose, and refuses only names that are in a separate list."""
    repository = Repository(folder, {"low/src/calls.rt": "// `told` is a name.\nfn told() {}\n"})
    check(faults, "names, where prose is read", repository.check()[0], 0)
    repository = Repository(folder / "second", {"low/src/calls.rt": "// What it told.\nfn left_behind() {}\n"})
    status, printed, _ = repository.check()
    found = re.findall(r":(\d+): '(\w+)'", printed)
    check(faults, "prose, and a name of the list", (status, found), (1, [("1", "told"), ("2", "left_behind")]))


def check(faults: list[str], what: str, got: object, wanted: object) -> None:
    if got != wanted:
        faults.append(f"{what}: {got!r}, and it has to be {wanted!r}")


def main() -> None:
    if sys.argv[1:]:
        sys.exit((__doc__ or "").strip())
    faults: list[str] = []
    with tempfile.TemporaryDirectory() as room:
        for number, part in enumerate([check_refused, check_passed, check_prose]):
            part(Path(room, str(number)), faults)
    if faults:
        sys.exit("\n".join(faults))
    print(f"tests/words.py: {sum(len(names) for _, names in REFUSED.values())} names are refused, and {len(PASSED)} files pass")


if __name__ == "__main__":
    main()
