"""A Find row's query, made from an attribute, a comparison, and the typed text."""

from __future__ import annotations

import enum
from typing import Callable, List, Mapping, Optional

import bestore
from bestore.language import quoted
from bestore.values import RANGES

from . import columns


class Relation(enum.Enum):
    """How an attribute is compared. The value is the text that the row shows."""

    CONTAINS = "contains"
    IS = "is"
    BEGINS = "begins with"
    ENDS = "ends with"
    ISNT = "isn't"
    LESS = "is less than"
    GREATER = "is greater than"
    BEFORE = "is before"
    AFTER = "is after"
    SINCE = "is since"
    ON = "is on"


_TEXT = [Relation.CONTAINS, Relation.IS, Relation.BEGINS, Relation.ENDS, Relation.ISNT]
_NUMBER = [Relation.GREATER, Relation.LESS, Relation.IS, Relation.ISNT]
_TIME = [Relation.SINCE, Relation.AFTER, Relation.BEFORE, Relation.ON]
_SIGNS = {Relation.LESS: "<", Relation.GREATER: ">", Relation.BEFORE: "<", Relation.AFTER: ">", Relation.SINCE: ">=",
          Relation.ISNT: "!=", Relation.IS: "==", Relation.ON: "=="}


def relations_of(attribute: str, kind: Optional[bestore.Kind]) -> List[Relation]:
    """Returns the comparisons for an attribute with an index of this kind."""
    if not columns.is_number(kind):
        return _TEXT
    return _TIME if columns.is_time(attribute) else _NUMBER


def attributes_of(indices: Mapping[str, bestore.Kind]) -> List[str]:
    """Returns the attributes that can be searched, with the most common ones first."""
    order = ["name", "MAIL:subject", "MAIL:from", "MAIL:to", "size", "last_modified", "MAIL:when", "BEOS:TYPE"]
    return sorted(indices, key=lambda name: (order.index(name) if name in order else len(order), name))


def everything(indices: Mapping[str, bestore.Kind]) -> Optional[str]:
    """Returns the query that finds all files, or otherwise all nodes with some other attribute, or None if there are no indices."""
    for attribute in attributes_of(indices)[:1]:
        numbers = RANGES.get(indices[attribute])
        return query_of(attribute, Relation.CONTAINS, "") if numbers is None else f"{_quoted(attribute)}>={numbers[0]}"
    return None


def _quoted(attribute: str) -> str:
    """Returns an attribute's name as written in a query."""
    is_word = attribute.replace("_", "").replace(":", "").isalnum()
    return attribute if is_word else quoted(attribute)


def _made(make: Callable[[str], str], text: str) -> str:
    """Returns what `make` returns for a text. A text with half of a character is left as it is, because the window shows what is
    wrong with such a query."""
    try:
        return make(text)
    except bestore.NotUTF8:
        return text


def query_of(attribute: str, relation: Relation, typed: str) -> str:
    """Returns a row's query. Strings match regardless of case. An empty row finds all nodes that have the attribute."""
    name, text = _quoted(attribute), typed.strip()
    if relation in _TIME:
        return f"{name}{_SIGNS[relation]}%{text}%" if text else f"{name}>=0"
    if relation in (Relation.LESS, Relation.GREATER):
        return f'{name}{_SIGNS[relation]}"{_made(bestore.escape, text)}"' if not text.isdigit() else f"{name}{_SIGNS[relation]}{text}"
    if not text:
        return f'{name}=="*"'
    pattern = _made(bestore.any_case, text)
    begin = "*" if relation in (Relation.CONTAINS, Relation.ENDS) else ""
    end = "*" if relation in (Relation.CONTAINS, Relation.BEGINS) else ""
    return f'{name}{_SIGNS.get(relation, "==")}"{begin}{pattern}{end}"'
