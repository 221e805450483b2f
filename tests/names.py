#!/usr/bin/env python3
"""Tests tools/check-names on a small repository: a recipe's step that names a function which is gone, or which is in another file;
mutants that don't find what they replace, or whose name another has; and steps and mutants that are right.

usage: tests/names.py

If something is wrong, it says what and exits with status 1.
"""
from __future__ import annotations

import shutil
import subprocess
import sys
import tempfile
from pathlib import Path

TOP = Path(__file__).resolve().parent.parent
SOURCES = {
    "crates/be_low/src/calls.rt": "fn first() {}\nfn second() {}\n",
    "crates/be_high/src/texts.rt": "fn third() {}\n",
    "rust/low/src/text.rs": "fn fourth() {}\n",
}
STEPS = """# be_low

## Recipe: a call

- [ ] be_low: in src/calls.rt, `first`; in be_high's
      src/texts.rt, `third`
- [ ] rust/low/src/text.rs (`fourth`)
"""
MUTANTS = """mutant: first_is_gone
file: src/calls.rt
old: fn first() {}
new:

mutant: second_is_first
file: src/calls.rt
old: fn second
new: fn first
"""
RIGHT = {"crates/be_low/README.md": STEPS, "mutants/be_low.edits": MUTANTS}
# What replaces what in the steps or the mutants, and what is then reported.
PLANTED = [
    ("(`fourth`)", "(`fourth`, `fifth`)", "fifth"),
    ("(`fourth`)", "(`second`)", "second"),
    ("src/calls.rt, `first`; in be_high's\n", "src/calls.rt, `first`, `fourth`; in be_high's\n", "fourth"),
    ("old: fn second", "old: fn third", "second_is_first.edit: not once in its file: fn third"),
    ("mutant: second_is_first\n", "second_is_first\n", "first_is_gone.edit: this line is skipped"),
    ("mutant: second_is_first\n", "mutant: first_is_gone\n", "no two may have the same name"),
]


def run(folder: Path) -> subprocess.CompletedProcess[str]:
    """Runs the tool in a repository."""
    subprocess.run(["git", "add", "-A"], cwd=folder, check=True)
    return subprocess.run(["tools/check-names"], cwd=folder, capture_output=True, text=True, check=False)


def check(folder: Path) -> str:
    """Returns what is wrong with the tool's answers, or nothing."""
    for old, new, name in [("", "", ""), *PLANTED]:
        for path, text in RIGHT.items():
            (folder / path).write_text(text.replace(old, new))
        ran = run(folder)
        if not name and ran.returncode:
            return f"what is right is refused: {ran.stderr}"
        if name and (ran.returncode == 0 or name not in ran.stderr):
            return f"{name} isn't reported: {ran.stdout}{ran.stderr}"
    return ""


def main() -> None:
    with tempfile.TemporaryDirectory() as room:
        folder = Path(room)
        for path, text in {**SOURCES, **RIGHT, "README.md": "", "rust/README.md": "", "docs/A.md": ""}.items():
            (folder / path).parent.mkdir(parents=True, exist_ok=True)
            (folder / path).write_text(text)
        (folder / "tools").mkdir()
        for name in "check-names", "mutants.py":
            shutil.copy(TOP / "tools" / name, folder / "tools")
        subprocess.run(["git", "init", "-q"], cwd=folder, check=True)
        if wrong := check(folder):
            sys.exit(wrong)
    print(f"names in recipes and mutants: {len(PLANTED) + 1} passed, 0 failed")


if __name__ == "__main__":
    main()
