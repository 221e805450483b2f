"""The shared object, with the declarations of bestore.h."""

from __future__ import annotations

import ctypes
import os
from typing import Any, List, Optional

from ._version import VERSION
from .errors import BadBytes, Forked, encoded_query, refusal
from .values import Kind, Typed, encode_value, kind_mismatch

try:
    from . import _native
except ImportError as error:
    if error.name == f"{__package__}._native":
        raise
    raise ImportError(
        "bestore's compiled part, bestore._native, is missing. Run `make -C python` at the top of the repository, which needs a C "
        "compiler and Python.h; or install bestore's wheel (`make -C c wheel`).", name=error.name) from None

SONAME = "libbestore.so.0"


class Handle(ctypes.Structure):
    """A bes_pass, a bes_prepared, a bes_builder or a bes_witness, which all have the same layout."""

    _fields_ = [("live", ctypes.c_bool), ("at", ctypes.c_void_p)]


class Operation(ctypes.Structure):
    kind: int
    code: int
    node: int
    number: int
    name_at: int
    name_length: int
    value_at: int
    value_length: int
    _fields_ = [
        ("kind", ctypes.c_uint32), ("code", ctypes.c_uint32), ("node", ctypes.c_uint64), ("number", ctypes.c_uint64),
        ("name_at", ctypes.c_uint32), ("name_length", ctypes.c_uint32),
        ("value_at", ctypes.c_uint32), ("value_length", ctypes.c_uint32),
    ]


class Attribute(ctypes.Structure):
    code: int
    length: int
    number: int
    _fields_ = [("code", ctypes.c_uint32), ("length", ctypes.c_uint64), ("number", ctypes.c_uint64)]


class HeldName(ctypes.Structure):
    length: int
    _fields_ = [("length", ctypes.c_uint64), ("bytes", ctypes.c_uint8 * 64)]


class Cell(ctypes.Structure):
    error: int
    code: int
    number: int
    offset: int
    length: int
    _fields_ = [
        ("error", ctypes.c_uint32), ("code", ctypes.c_uint32), ("number", ctypes.c_uint64),
        ("offset", ctypes.c_uint64), ("length", ctypes.c_uint64),
    ]


class Position(ctypes.Structure):
    """A bes_cursor."""

    kind: int
    length: int
    _fields_ = [("kind", ctypes.c_uint32), ("length", ctypes.c_uint32), ("key", ctypes.c_uint8 * 264)]


class Usage(ctypes.Structure):
    pages: int
    free: int
    retired: int
    entries: int
    commits: int
    is_held: bool
    oldest: int
    holder: int
    _fields_ = [
        ("pages", ctypes.c_uint64), ("free", ctypes.c_uint64), ("retired", ctypes.c_uint64), ("entries", ctypes.c_uint64),
        ("commits", ctypes.c_uint64), ("is_held", ctypes.c_bool), ("oldest", ctypes.c_uint64), ("holder", ctypes.c_uint64),
    ]


class Updates(ctypes.Structure):
    created: int
    removed: int
    _fields_ = [("created", ctypes.c_uint64), ("removed", ctypes.c_uint64)]


class Counts(ctypes.Structure):
    operations: int
    bytes: int
    _fields_ = [("operations", ctypes.c_uint64), ("bytes", ctypes.c_uint64)]


class Compared(ctypes.Structure):
    at: int
    end: int
    name_at: int
    name_end: int
    value_at: int
    value_end: int
    plain_name_at: int
    plain_value_at: int
    plain_end: int
    kind: int
    kind_in_text: int
    form: int
    is_never_int32: bool
    is_never_int64: bool
    is_never_uint32: bool
    is_never_uint64: bool
    _fields_ = [
        ("at", ctypes.c_uint64), ("end", ctypes.c_uint64), ("name_at", ctypes.c_uint64), ("name_end", ctypes.c_uint64),
        ("value_at", ctypes.c_uint64), ("value_end", ctypes.c_uint64), ("plain_name_at", ctypes.c_uint64),
        ("plain_value_at", ctypes.c_uint64), ("plain_end", ctypes.c_uint64), ("kind", ctypes.c_uint32),
        ("kind_in_text", ctypes.c_uint32), ("form", ctypes.c_uint32), ("is_never_int32", ctypes.c_bool),
        ("is_never_int64", ctypes.c_bool), ("is_never_uint32", ctypes.c_bool), ("is_never_uint64", ctypes.c_bool),
    ]


def _arguments() -> dict[str, List[Any]]:
    """Returns the types of each call's parameters."""
    handle, word, size, text = ctypes.POINTER(Handle), ctypes.c_uint64, ctypes.c_size_t, ctypes.c_char_p
    words = ctypes.POINTER(ctypes.c_uint64)
    write = [handle, ctypes.POINTER(Operation), size, text, size]
    items = [text, size, text, size]
    put_out = [words, size, words]
    listed = [ctypes.POINTER(Counts), ctypes.POINTER(Operation), size, text, size]
    return {
        "bes_open": [word, word, word, handle],
        "bes_build": [word, word, word, handle],
        "bes_build_index": [handle, text, size, ctypes.c_uint32],
        "bes_build_node": [handle, word],
        "bes_build_attribute": [handle, text, size, ctypes.c_uint32, word, text, size, ctypes.c_uint32],
        "bes_build_finish": [handle, word, handle],
        "bes_build_close": [handle],
        "bes_another": [handle, handle],
        "bes_close": [handle],
        "bes_finish": [handle, text, size, words],
        "bes_meet": [handle, words],
        "bes_witness_of": [handle, handle],
        "bes_join": [handle, handle, words],
        "bes_dismiss": [handle],
        "bes_number": [handle, words],
        "bes_pin": [handle, words],
        "bes_unpin": [handle],
        "bes_next": [handle, words],
        "bes_apply": [*write, *put_out],
        "bes_apply_if": [handle, word, *write[1:], *put_out],
        "bes_query": [handle, text, size, *put_out],
        "bes_query_items": [handle, *items, *put_out],
        "bes_prepare": [text, size, handle, words],
        "bes_prepare_items": [*items, handle, words],
        "bes_prepared_text": [handle, text, size, words],
        "bes_release": [handle],
        "bes_query_prepared": [handle, handle, *put_out],
        "bes_ordered": [
            handle, handle, ctypes.POINTER(HeldName), ctypes.c_uint32, ctypes.POINTER(Position), *put_out,
            ctypes.POINTER(ctypes.c_uint32)],
        "bes_first": [handle, handle, word, *put_out],
        "bes_any": [handle, handle, *put_out],
        "bes_found": [handle, word, *put_out],
        "bes_refresh": [handle, handle, ctypes.POINTER(Updates)],
        "bes_refresh_changed": [handle, handle, ctypes.POINTER(Updates)],
        "bes_changes": [handle, words, size, words, size],
        "bes_explain": [handle, text, size, text, size, words],
        "bes_ways": [handle, text, size, text, size, words],
        "bes_nodes": [handle, word, *put_out],
        "bes_status": [handle, ctypes.POINTER(Usage), words],
        "bes_get": [handle, word, text, size, ctypes.POINTER(Attribute), text, size],
        "bes_check_name": [text, size, ctypes.POINTER(HeldName)],
        "bes_columns": [handle, words, size, ctypes.POINTER(HeldName), size, ctypes.POINTER(Cell), size, text, size, words],
        "bes_attributes": [handle, word, *listed],
        "bes_indices": [handle, *listed],
        "bes_is_held": [handle, word, text, size, ctypes.POINTER(ctypes.c_uint32)],
        "bes_journal": [handle, text, size, words],
        "bes_journal_from": [handle, word, words, *listed, words],
        "bes_begin_change": [handle, handle, words, words],
        "bes_change_any_kind": [handle],
        "bes_change_add": [handle, ctypes.POINTER(Operation), text, size, words],
        "bes_change_get": [handle, handle, word, text, size, ctypes.POINTER(Attribute), text, size],
        "bes_change_batch": [handle, *listed],
        "bes_end_change": [handle, handle, words],
        "bes_abandon_change": [handle, handle],
        "bes_query_comparisons": [text, size, ctypes.POINTER(Counts), ctypes.POINTER(Compared), size, text, size, words],
        "bes_escape_bytes": [text, size, text, size, words],
        "bes_any_case_bytes": [text, size, text, size, words],
        "bes_version": [],
    }


def _path() -> str:
    """Returns the path of the shared object. This is the file named by BESTORE_LIBRARY, the file in the package, the file in
    the repository's c/, or a file that the system finds."""
    here = os.path.dirname(os.path.abspath(__file__))
    named = os.environ.get("BESTORE_LIBRARY")
    if named:
        return named
    for folder in (here, os.path.join(here, "..", "..", "c")):
        if os.path.exists(os.path.join(folder, SONAME)):
            return os.path.join(folder, SONAME)
    return SONAME


def dotted(version: int) -> str:
    """Returns a version number from bes_version as text."""
    return f"{version // 1000000}.{version // 1000 % 1000}.{version % 1000}"


def _check_age(path: str, loaded: ctypes.CDLL) -> None:
    """Raises OSError if the library lacks a call that this package needs, or if its version is too old."""
    missing = [name for name in _arguments() if not hasattr(loaded, name)]
    if missing:
        raise OSError(f"{path}: libbestore.so is older than this package: it has no {missing[0]}")
    found = dotted(loaded.bes_version())
    if [int(part) for part in found.split(".")] < [int(part) for part in VERSION.split(".")]:
        raise OSError(f"{path}: libbestore.so is older than this package: it is {found}, not {VERSION}")


def _load() -> ctypes.CDLL:
    path = _path()
    try:
        loaded = ctypes.CDLL(path)
        _check_age(path, loaded)
    except OSError as error:
        raise ImportError(
            f"bestore can't load its library: {error}. Install the Debian package libbestore0 or bestore's wheel, or run `make -C c` "
            f"at the top of the repository; the variable BESTORE_LIBRARY can name another {SONAME}.", path=path) from error
    for name, arguments in _arguments().items():
        call = getattr(loaded, name)
        call.argtypes, call.restype = arguments, ctypes.c_uint32
    return loaded


calls = _load()


def addresses() -> dict[str, int]:
    """Returns the addresses of the library's calls."""
    return {name: ctypes.cast(getattr(calls, name), ctypes.c_void_p).value or 0 for name in _arguments()}


_native.use(addresses())
_native.know(
    refusal=refusal, forked=Forked, encoded_query=encoded_query, kinds=tuple(Kind), typed=Typed, encode_value=encode_value,
    wrong_kind=kind_mismatch, bad_bytes=BadBytes)
os.register_at_fork(after_in_child=_native.after_fork)


def check(answer: int, carried: Optional[int] = None, query: Optional[str] = None, listed: Optional[str] = None) -> None:
    """Raises the error that a call returned, if any. `carried` is the number reported with the error, `query` is the text of
    the query that was run, and `listed` is what the call's list contains."""
    if answer != 0:
        raise refusal(answer, carried, query, listed)
