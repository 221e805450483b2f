#!/usr/bin/env python3
"""Writes what all languages share from surface.toml to the sources and documents, or checks that they contain it.

usage: tools/surface.py            rewrites the regions and files
       tools/surface.py --check    prints which of them differ, and exits with status 1 if any do

A region begins after a line with "surface.toml: NAME" and ends before a line with "surface.toml: end". What programs were built
with never changes, so this only adds lines to c/abi/, and a number there that differs from the table is an error.
"""
from __future__ import annotations

import re
import subprocess
import sys
from dataclasses import replace
from difflib import unified_diff
from pathlib import Path
from typing import Iterable

from surface_table import ROOT, Surface, Wrong, load
from surface_texts import FILES, REGIONS

HEADER = "include/bestore.h"
HELPERS = ("include/bestore_helpers.h", "include/bestore_text.h")
BINDINGS = "rust/bestore-sys/src/lib.rs"
ABI = "c/abi/libbestore.so.0.c"
MANUALS = {"docs/bestore.3": [], "docs/bestore_client.3": ["client"]}
END = re.compile(r"^[^\w\n]*surface\.toml: end[^\w\n]*$", re.M)
VERSION = re.compile(r"^/\* Version ([\d.]+)\. \*/$", re.M)


def with_region(path: str, text: str, name: str, body: str) -> str:
    """Returns a file's text with the part between a region's marks replaced."""
    begins = list(re.finditer(rf"^[^\w\n]*surface\.toml: {re.escape(name)}[^\w\n]*\n", text, re.M))
    if len(begins) != 1:
        raise Wrong(f"{path}: the line \"surface.toml: {name}\" has to be there once, and is there {len(begins)} times")
    begin = begins[0].end()
    end = END.search(text, begin)
    if end is None or "surface.toml: " in text[begin:end.start()]:
        raise Wrong(f"{path}: after \"surface.toml: {name}\" a line with only \"surface.toml: end\" has to follow")
    return text[:begin] + body + text[end.start():]


def types_of(parameters: str) -> str:
    """Returns the types of a call's parameters as text."""
    types = [re.sub(r"(?<=[ *])\w+$", "", it.strip()).strip() for it in parameters.split(",")]
    return "void" if parameters == "void" else ", ".join(types)


def prototypes(header: str) -> dict[str, str]:
    """Returns the calls that the header declares, with the types of their parameters."""
    return {name: types_of(parameters) for name, parameters in re.findall(r"^uint32_t (bes_\w+)\(([^;]*)\);", header, re.M)}


def helpers_in(texts: Iterable[str]) -> dict[str, str]:
    """Returns the lines that describe the helpers declared in the headers, by name."""
    found = {}
    for text in texts:
        for kind, name, parameters in re.findall(r"^((?:const )?\w+ \*?)(bes_\w+)\(([^;{]*)\);", text, re.M):
            found[name] = f"HELPER({kind.strip()}, {name}, {types_of(parameters)})"
    return found


def without_planned(surface: Surface, header: str) -> Surface:
    """Returns the table without calls from later versions than the header's that the header doesn't declare yet."""
    declared = prototypes(header)
    found = re.search(r'#define BES_VERSION "([\d.]+)"', header)
    if found is None:
        raise Wrong(f"{HEADER} has no line #define BES_VERSION")
    now = numbers_of(found[1])
    exports = {version: [call for call in calls if call in declared or numbers_of(version) <= now]
               for version, calls in surface.exports.items()}
    return replace(surface, exports={version: calls for version, calls in exports.items() if calls})


def numbers_of(version: str) -> list[int]:
    """Returns the numbers in a version such as 0.3.0."""
    return [int(part) for part in version.split(".")]


def check_calls(where: str, called: Iterable[str], part: str, listed: Iterable[str]) -> None:
    """Raises an error if a file's calls aren't the ones in a part of the table."""
    for name in sorted(set(called) - set(listed)):
        raise Wrong(f"{where} has {name}, and [{part}] of surface.toml doesn't: add it to the version that brings it")
    for name in sorted(set(listed) - set(called)):
        raise Wrong(f"surface.toml exports {name}, and {where} doesn't have it: declare it there")


def described(surface: Surface) -> dict[str, str]:
    """Returns the ABI's numbers, by name."""
    rows = [("BES_OK", "0"), *((it.constant, str(it.number)) for it in surface.faults)]
    rows += [(it.c, str(it.number)) for it in surface.classes]
    rows += [(it.c, f"0x{it.type_code:08x}") for it in surface.kinds]
    rows += [(f"BES_{it.c}", str(it.number)) for it in surface.operations]
    rows += [(f"BES_ITEM_{it.c}", str(it.number)) for it in surface.items]
    rows += [(f"BES_FORM_{it.c}", str(it.number)) for it in surface.forms]
    return dict(rows)


def versions_in(text: str) -> dict[str, str]:
    """Returns the versions under which the description of the ABI has its calls and helpers, by name."""
    parts = VERSION.split(text)
    return {name: version for version, part in zip(parts[1::2], parts[2::2])
            for name in re.findall(r"^(?:CALL\(|HELPER\([^,]*, )(bes_\w+)", part, re.M)}


def lines_under_versions(text: str, lines: dict[str, str], versions: dict[str, str]) -> list[str]:
    """Returns the lines that the description of the ABI lacks, by the version of what they describe. A heading comes before the first
    line of a version, except for the version with which the description ends."""
    last, added = VERSION.findall(text)[-1], []
    for name in sorted(lines, key=lambda it: numbers_of(versions[it])):
        if versions[name] != last:
            last = versions[name]
            added += ["", f"/* Version {last}. */"]
        added.append(lines[name])
    return added


def with_abi(surface: Surface, text: str, calls: dict[str, str], helpers: dict[str, str]) -> str:
    """Returns the description of the ABI, with a line added for each number, call and helper that it lacks."""
    numbers = dict(re.findall(r"^NUMBER\((\w+), (\w+)\)", text, re.M))
    wanted = described(surface)
    for name, number in numbers.items():
        if name not in wanted:
            raise Wrong(f"{ABI} has {name}, and surface.toml doesn't: programs have it, so it has to stay")
        if wanted[name] != number:
            raise Wrong(f"{ABI} has {name} = {number}, and surface.toml {wanted[name]}: programs have {number}, so it has to stay")
    has, versions = versions_in(text), surface.versions
    for name, version in sorted(has.items()):
        if name not in versions:
            raise Wrong(f"{ABI} has {name}, and surface.toml doesn't export it: programs call it, so it has to stay")
        if versions[name] != version:
            raise Wrong(f"{ABI} has {name} under version {version}, and surface.toml under {versions[name]}: packages that call it would "
                        "accept an earlier library")
    added = [f"NUMBER({name}, {number})" for name, number in wanted.items() if name not in numbers]
    lines = {**{name: f"CALL({name}, {calls[name]})" for name in surface.calls}, **helpers}
    added += lines_under_versions(text, {name: line for name, line in lines.items() if name not in has}, versions)
    return text.replace("\nint main(void)", "".join(f"{line}\n" for line in added) + "\nint main(void)")


def manual(words: list[str]) -> str:
    """Returns a manual page that the current headers give."""
    return subprocess.run([sys.executable, ROOT / "c/manual.py", *words], check=True, stdout=subprocess.PIPE, text=True).stdout


def wanted_files(surface: Surface) -> dict[str, str]:
    """Returns what each file should contain, except for the manual pages, which are generated from the headers."""
    wanted = {path: render(surface) for path, render in FILES.items()}
    for (path, name), render in REGIONS.items():
        text = wanted.get(path) or (ROOT / path).read_text()
        wanted[path] = with_region(path, text, name, render(surface))
    calls = prototypes((ROOT / HEADER).read_text())
    helpers = helpers_in((ROOT / path).read_text() for path in HELPERS)
    check_calls(HEADER, calls, "exports", surface.calls)
    bindings = re.findall(r"^    pub fn (bes_\w+)\(", (ROOT / BINDINGS).read_text(), re.M)
    check_calls(BINDINGS, bindings, "exports", surface.calls)
    check_calls(" and ".join(HELPERS), helpers, "helpers", surface.all_helpers)
    wanted[ABI] = with_abi(surface, (ROOT / ABI).read_text(), calls, helpers)
    return wanted


def differs(path: str, wanted: str) -> bool:
    """Returns whether a file differs, and prints the differences."""
    file = ROOT / path
    found = file.read_text() if file.exists() else ""
    shown = unified_diff(found.splitlines(), wanted.splitlines(), path, f"{path} by surface.toml", lineterm="", n=1)
    for line in list(shown)[:20]:
        print(line)
    return found != wanted


def write(path: str, wanted: str) -> bool:
    """Writes a file if it differs."""
    file = ROOT / path
    if file.exists() and file.read_text() == wanted:
        return False
    file.write_text(wanted)
    print(f"wrote {path}")
    return True


def run(checks: bool) -> None:
    """Writes or checks everything."""
    surface = without_planned(load(), (ROOT / HEADER).read_text())
    wanted = wanted_files(surface)
    act = differs if checks else write
    count = sum(act(path, text) for path, text in wanted.items())
    count += sum(act(path, manual(words)) for path, words in MANUALS.items())
    if checks and count:
        raise Wrong(f"{count} files differ from surface.toml: run tools/surface.py")
    print(f"surface: {len(REGIONS)} regions and {len(FILES) + 1 + len(MANUALS)} files have what surface.toml says")


def main() -> None:
    words = sys.argv[1:]
    if words not in ([], ["--check"]):
        sys.exit((__doc__ or "").strip())
    try:
        run(checks=words == ["--check"])
    except Wrong as wrong:
        sys.exit(f"surface: {wrong}")


if __name__ == "__main__":
    main()
