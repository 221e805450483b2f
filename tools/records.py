"""Writes a tool's results to docs/PROOFS.md, between the lines `<!-- NAME -->` and `<!-- end of the NAME -->`."""
from __future__ import annotations

import re
import subprocess
import sys
import textwrap
import time
from pathlib import Path

ROOT = Path(__file__).resolve().parent.parent
PROOFS = ROOT / "docs/PROOFS.md"
COLUMNS = 140


def now() -> str:
    """Returns the date and the commit, such as `28 November 2026, at commit 01234567`."""
    words = ["git", "rev-parse", "--short=8", "HEAD"]
    commit = subprocess.run(words, cwd=ROOT, stdout=subprocess.PIPE, text=True, check=True).stdout.strip()
    return f"{time.strftime('%-d %B %Y')}, at commit {commit}"


def write(name: str, told: str) -> None:
    """Replaces the text between the lines with this name, and gives it their indentation."""
    between = re.compile(rf"^( *)<!-- {name} -->\n.*?^ *<!-- end of the {name} -->\n", re.M | re.S)
    whole = PROOFS.read_text()
    found = between.search(whole)
    if not found:
        sys.exit(f"{Path(sys.argv[0]).name}: {PROOFS.relative_to(ROOT)} lacks the lines <!-- {name} --> and <!-- end of the {name} -->")
    indent = found[1]
    text = textwrap.fill(told, COLUMNS, initial_indent=indent, subsequent_indent=indent, break_on_hyphens=False)
    lines = f"{indent}<!-- {name} -->\n{text}\n{indent}<!-- end of the {name} -->\n"
    PROOFS.write_text(whole[: found.start()] + lines + whole[found.end() :])
