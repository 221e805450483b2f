"""Refreshes that compare whole answers, because the library's last answer is a different one or is missing."""

from __future__ import annotations

from typing import TYPE_CHECKING, Iterable, List, Tuple

from .queries import Prepared

if TYPE_CHECKING:
    from .versions import Version


def refreshed(prepared: Prepared, nodes: Iterable[int], is_in_library: bool) -> Tuple[List[int], List[int]]:
    """Returns the nodes that joined the answer and those that left it since the query's last refresh. `nodes` is the current
    answer, and `is_in_library` says whether the library has these nodes."""
    found, seen = set(nodes), prepared._seen
    came, went = sorted(found - seen), sorted(seen - found)
    prepared._seen, prepared._is_in_library = found, is_in_library
    return came, went


def refreshed_by_all(prepared: Prepared, version: Version) -> Tuple[List[int], List[int]]:
    """Returns the nodes that joined the answer and those that left it, for a version that the library doesn't know."""
    if not isinstance(prepared, Prepared):
        raise TypeError(f"{prepared!r} isn't a prepared query")
    prepared._check_process()
    with prepared._refreshing:
        return refreshed(prepared, version._nodes_of(prepared), is_in_library=False)
