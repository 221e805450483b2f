"""The table surface.toml: its rows' fields, and the rules that they have to follow."""
from __future__ import annotations

import re
import tomllib
from dataclasses import dataclass, fields
from pathlib import Path
from typing import Any, Iterable, Optional, TypeVar

ROOT = Path(__file__).resolve().parent.parent
TABLE = ROOT / "surface.toml"
MOST_OF_A_TEXT = 90
FIRST_OF_CLIENT = 256


class Wrong(Exception):
    """The table, or a file generated from it, breaks a rule."""


@dataclass(frozen=True)
class Class:
    """What a program can do about an error."""

    name: str
    number: int
    about: str

    @property
    def c(self) -> str:
        return f"BES_CLASS_{self.name.upper()}"


@dataclass(frozen=True)
class Kind:
    """A kind of value."""

    number: int
    code: str
    be: str
    c: str
    name: str
    tool: str
    rust: str
    rust_about: str
    shown: str
    python: str
    value: str
    indexable: bool
    made: str
    read: str
    script: str
    printed: str
    about: str = ""
    sign: Optional[bool] = None
    bits: int = 0
    python_class: str = ""

    @property
    def type_code(self) -> int:
        """The four letters as a number."""
        return int.from_bytes(self.code.encode(), "big")

    @property
    def is_number(self) -> bool:
        return self.sign is not None

    @property
    def c_type(self) -> str:
        """The type of an integer in C."""
        return f"{'' if self.sign else 'u'}int{self.bits}_t"


@dataclass(frozen=True)
class Fault:
    """One of the library's errors."""

    number: int
    c: str
    name: str
    klass: str
    what: str
    advice: str = ""
    python: str = ""
    rust_about: str = ""
    bases: str = ""
    protocol: Optional[str] = None
    script: Optional[str] = None
    argument: str = ""
    script_about: str = ""

    @property
    def constant(self) -> str:
        return f"BES_{self.c}"

    @property
    def exception(self) -> str:
        """The Python exception."""
        return self.python or self.name

    @property
    def text(self) -> str:
        """What was wrong and what would be right."""
        return f"{self.what}; {self.advice}" if self.advice else self.what


@dataclass(frozen=True)
class ServerFault:
    """An error that only servers report."""

    name: str
    klass: str
    what: str
    advice: str = ""
    about: str = ""
    protocol: Optional[str] = None
    python: bool = True
    number: Optional[int] = None
    c: str = ""

    @property
    def constant(self) -> str:
        return f"BEC_{self.c}"


@dataclass(frozen=True)
class ClientFault:
    """An error that the client for C and C++ finds itself."""

    number: int
    c: str
    klass: str
    what: str
    advice: str = ""

    @property
    def constant(self) -> str:
        return f"BEC_{self.c}"


@dataclass(frozen=True)
class Numbered:
    """An operation, an item or a form."""

    number: int
    c: str
    about: str = ""


@dataclass(frozen=True)
class Surface:
    """The whole table."""

    classes: list[Class]
    kinds: list[Kind]
    faults: list[Fault]
    server_faults: list[ServerFault]
    client_faults: list[ClientFault]
    operations: list[Numbered]
    items: list[Numbered]
    forms: list[Numbered]
    helpers: dict[str, list[str]]
    exports: dict[str, list[str]]

    @property
    def numbers(self) -> list[Kind]:
        """The kinds of integers."""
        return [it for it in self.kinds if it.is_number]

    def flag_of(self, kind: Kind) -> str:
        """Returns the name of the first kind with the same integers. A comparison's flag for it is right for this kind too."""
        return next(it.tool for it in self.numbers if it.c_type == kind.c_type)

    @property
    def plain_faults(self) -> list[Fault]:
        """The errors whose variants in Rust have no fields."""
        return [it for it in self.faults if it.rust_about]

    @property
    def all_faults(self) -> list[Fault | ServerFault]:
        """The library's errors, followed by the server's."""
        return [*self.faults, *self.server_faults]

    @property
    def numbered_server_faults(self) -> list[ServerFault]:
        """The server's errors that the client for C and C++ knows."""
        return [it for it in self.server_faults if it.number is not None]

    @property
    def calls(self) -> list[str]:
        """The library's calls, which are proved."""
        return [call for calls in self.exports.values() for call in calls]

    @property
    def all_helpers(self) -> list[str]:
        """The library's helpers, which are plain C."""
        return [call for calls in self.helpers.values() for call in calls]

    @property
    def versions(self) -> dict[str, str]:
        """The versions that brought the calls and helpers, by name."""
        tables = [*self.exports.items(), *self.helpers.items()]
        return {call: version for version, calls in tables for call in calls}


Row = TypeVar("Row", Class, Kind, Fault, ServerFault, ClientFault, Numbered)


def rows_of(kind: type[Row], part: str, found: Iterable[dict[str, Any]]) -> list[Row]:
    """Returns the rows in one part of the table."""
    known, rows = {field.name for field in fields(kind)}, []
    for at, row in enumerate(found):
        values = {"klass" if key == "class" else key: value for key, value in row.items()}
        if unknown := values.keys() - known:
            raise Wrong(f"surface.toml: [[{part}]] {at + 1} has {sorted(unknown)[0]!r}, and may have {', '.join(sorted(known))}")
        try:
            rows.append(kind(**values))
        except TypeError as error:
            raise Wrong(f"surface.toml: [[{part}]] {at + 1} lacks something: {error}") from None
    return rows


def named(key: str, found: dict[str, dict[str, Any]]) -> Iterable[dict[str, Any]]:
    """Returns the rows in a part whose keys are the names."""
    return ({key: name, **row} for name, row in found.items())


def once(part: str, what: str, values: Iterable[object]) -> None:
    """Raises an error if two rows have the same value."""
    seen: set[object] = set()
    for value in values:
        if value in seen:
            raise Wrong(f"surface.toml: two rows of {part} have the {what} {value}, and each needs one of its own")
        seen.add(value)


def check_texts(surface: Surface) -> None:
    """Checks the classes and the errors' texts."""
    classes = {it.name for it in surface.classes}
    for it in [*surface.all_faults, *surface.client_faults]:
        name = it.c if isinstance(it, ClientFault) else it.name
        if it.klass not in classes:
            raise Wrong(f"surface.toml: {name} has the class {it.klass!r}, and the classes are {', '.join(sorted(classes))}")
        for text in (it.what, it.advice):
            if len(text) > MOST_OF_A_TEXT or text.endswith(".") or not text.isascii() or '"' in text:
                raise Wrong(f"surface.toml: a text of {name} has up to {MOST_OF_A_TEXT} characters of ASCII, no quotes and "
                            f"no full stop at its end, and this one is {text!r}")


def check_numbers(surface: Surface) -> None:
    """Checks the errors' numbers. Those of the client for C and C++ are greater than any that the library will have."""
    of_client = [*surface.client_faults, *surface.numbered_server_faults]
    once("errors", "number", [*(it.number for it in surface.faults), *(it.number for it in of_client)])
    once("errors", "name in C", (it.constant for it in of_client))
    for it in of_client:
        if it.number is None or it.number < FIRST_OF_CLIENT or not it.c:
            raise Wrong(f"surface.toml: an error of the client for C has a name and a number from {FIRST_OF_CLIENT} on, not {it.number}")
    if any(it.number >= FIRST_OF_CLIENT for it in surface.faults):
        raise Wrong(f"surface.toml: the library's errors have numbers below {FIRST_OF_CLIENT}")


def check(surface: Surface) -> None:
    """Checks that the rows are consistent."""
    for kind in surface.kinds:
        if not re.fullmatch("[A-Z]{4}", kind.code):
            raise Wrong(f"surface.toml: a type code has four capitals, and that of {kind.name} is {kind.code!r}")
        if kind.is_number != (kind.bits > 0) or kind.is_number != (kind.python_class != ""):
            raise Wrong(f"surface.toml: an integer has sign, bits and python_class, and {kind.name} only some of them")
    once("kinds", "number", (it.number for it in surface.kinds))
    once("kinds", "code", (it.code for it in surface.kinds))
    check_numbers(surface)
    once("errors", "name", (it.name for it in surface.all_faults))
    for part, rows in (("operations", surface.operations), ("items", surface.items), ("forms", surface.forms)):
        if [it.number for it in rows] != list(range(len(rows))):
            raise Wrong(f"surface.toml: the {part} are numbered from 0, without a gap and in their order")
    once("exports and helpers", "call", [*surface.calls, *surface.all_helpers])
    check_texts(surface)


def load(path: Path = TABLE) -> Surface:
    """Reads the table."""
    with path.open("rb") as file:
        try:
            found = tomllib.load(file)
        except tomllib.TOMLDecodeError as error:
            raise Wrong(f"{path.name}: {error}") from None
    surface = Surface(
        classes=rows_of(Class, "classes", named("name", found["classes"])),
        kinds=rows_of(Kind, "kinds", found["kinds"]),
        faults=rows_of(Fault, "errors", found["errors"]),
        server_faults=rows_of(ServerFault, "server_errors", found["server_errors"]),
        client_faults=rows_of(ClientFault, "client_errors", found["client_errors"]),
        operations=rows_of(Numbered, "operations", named("c", found["operations"])),
        items=rows_of(Numbered, "items", named("c", found["items"])),
        forms=rows_of(Numbered, "forms", named("c", found["forms"])),
        helpers=found["helpers"],
        exports=found["exports"],
    )
    check(surface)
    return surface
