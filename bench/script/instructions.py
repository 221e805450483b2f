"""Counts how many instructions a process executes."""
from __future__ import annotations

import os
import shutil
import subprocess
from typing import List, Optional

TOOLS = (["perf", "stat", "-x,", "-e", "instructions:u"], ["valgrind", "--tool=callgrind", "--callgrind-out-file=/dev/null"])


def instructions_of(words: List[str]) -> Optional[int]:
    """Returns a command's instructions, counted by perf or valgrind, or None if neither works here."""
    environment = dict(os.environ, PYTHONHASHSEED="0")
    for tool in TOOLS:
        if shutil.which(tool[0]) is None:
            continue
        said = subprocess.run([*tool, *words], env=environment, stderr=subprocess.PIPE, text=True, check=False).stderr
        for line in said.splitlines():
            if tool[0] == "perf" and ",instructions:u," in line and line.split(",")[0].isdigit():
                return int(line.split(",")[0])
            if tool[0] == "valgrind" and "Collected : " in line:
                return int(line.split("Collected : ")[1])
    return None


def instructions_a_call(words: List[str], few: int, many: int) -> str:
    """Returns the instructions per call, from the difference between a command that makes many calls and one that makes few.
    The number of calls is the command's last word."""
    counts = [instructions_of([*words, str(count)]) for count in (few, many)]
    if counts[0] is None or counts[1] is None:
        return "not counted"
    return f"{(counts[1] - counts[0]) // (many - few):,}"
