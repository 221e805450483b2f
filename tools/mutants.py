"""The mutants in mutants/: a crate's are in mutants/CRATE.edits, each after a line `mutant: NAME`."""
from __future__ import annotations

import re
import sys
from pathlib import Path
from typing import NamedTuple

FOLDER = Path(__file__).resolve().parent.parent / "mutants"


class Mutant(NamedTuple):
    """A mutant, with the name and the text of the file that `rt must-fail` reads."""

    name: str
    text: str

    def read_bytes(self) -> bytes:
        return self.text.encode()


def crates_with_mutants() -> list[str]:
    return sorted(it.stem for it in FOLDER.glob("*.edits"))


def mutants_of(crate: str) -> list[Mutant]:
    """Returns a crate's mutants by name."""
    before, *parts = re.split(r"^mutant: (\w+)\n", (FOLDER / f"{crate}.edits").read_text(), flags=re.M)
    mutants = sorted(Mutant(f"{name}.edit", text.rstrip("\n") + "\n") for name, text in zip(parts[::2], parts[1::2]))
    if before or len({it.name for it in mutants}) < len(mutants):
        sys.exit(f"mutants/{crate}.edits: each mutant has to begin with a line `mutant: NAME`, and no two may have the same name")
    return mutants
