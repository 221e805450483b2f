"""The package's errors. Each error number in bestore.h has its own class, with fields for the details."""

from __future__ import annotations

import unicodedata
from dataclasses import dataclass, fields
from typing import ClassVar, Dict, Iterable, Optional, Tuple, Type

from ._surface import KIND_MEMBERS, MEANINGS, ErrorClass, ErrorNumber


class Error(Exception):
    """The base class of every exception that the package defines."""

    error_class: ErrorClass = ErrorClass.MINE
    """What a program can do about the error."""


@dataclass(eq=False, repr=False)
class _Detailed(Error):
    """An error that stores its parameters as fields."""

    def __post_init__(self) -> None:
        self.args = tuple(getattr(self, field.name) for field in fields(self))


@dataclass(eq=False, repr=False)
class _OfPath(_Detailed):
    """An error from a file or a server. The message begins with the path."""

    _summary: ClassVar[str] = "it can't be used"  # to be formatted with the fields
    path: str
    """The file, or the server's socket."""

    @property
    def summary(self) -> str:
        """What went wrong, without the path."""
        return self._summary.format_map(vars(self))

    def __str__(self) -> str:
        return f"{self.path}: {self.summary}"


class Forked(Error):
    """The handle was created before this process was forked. It belongs to the parent, and can't be used in this process."""

    error_class = ErrorClass.GONE

    def __str__(self) -> str:
        return "the handle belongs to the process that this one was forked from; open a store here"


@dataclass(eq=False, repr=False)
class TooManyAttempts(_Detailed):
    """On every attempt, another write came between the change's snapshot and its commit. Nothing was written. `__cause__` is
    the last `Conflict`."""

    error_class = ErrorClass.RETRY

    attempts: int
    """The number of attempts that were made."""

    def __str__(self) -> str:
        return (f"another write came first at each of {self.attempts} attempts; "
                "shorten the function, or allow more time (within) or more attempts")


class OtherStore(Error):
    """The witness belongs to a pass of another store."""

    def __str__(self) -> str:
        return "the witness belongs to another store; join one of this store"


@dataclass(eq=False, repr=False)
class NotReached(_Detailed):
    """The journal was still shorter than expected when the timeout expired."""

    error_class = ErrorClass.RETRY

    expected: int
    """The number of entries that the journal should have had."""
    found: int
    """How many entries it had."""

    def __str__(self) -> str:
        return f"the journal has {self.found} entries, and not {self.expected} yet; ask again"


@dataclass(eq=False, repr=False)
class BadBytes(_Detailed, ValueError):
    """The bytes aren't a valid batch."""

    offset: int
    """The offset of the first byte of the part that can't be read."""
    reason: str

    def __str__(self) -> str:
        return f"the bytes aren't those of a batch: {self.reason} at byte {self.offset}"


class Refusal(Error):
    """A library call returned this error and wrote nothing. Unknown details are None."""

    number: int = 0
    """The error's number, one of `ErrorNumber`."""
    meaning: str = "the library has an error that this package doesn't know"
    """What was wrong."""
    advice: str = ""
    """What would be right, or an empty string."""

    _classes: ClassVar[Dict[int, Type[Refusal]]] = {}

    def __init_subclass__(cls, number: Optional[ErrorNumber] = None) -> None:
        super().__init_subclass__()
        if number is not None:
            cls.number = number
            cls.error_class, cls.meaning, cls.advice = MEANINGS[number]
            Refusal._classes[number] = cls

    def __init__(self, carried: Optional[int] = None, query: Optional[str] = None, listed: Optional[str] = None) -> None:
        super().__init__(carried, query, listed)
        self.query = query
        """The query's text, if it was given as text."""
        self.pass_number: Optional[int] = None
        """For `Busy`: the number of the pass that is writing."""
        self.least: Optional[int] = None
        """For `Full`: the commit number of the oldest snapshot that a pass may still read. The pages of that snapshot are
        kept."""
        self.offset: Optional[int] = None
        """For a `QueryError`: the position of the error in the query's text, in bytes of UTF-8, counting from 0."""
        self.item: Optional[int] = None
        """For items that can't be read or don't form a query: the index of the item at which the error is detected, counting
        from 0."""
        self.operation: Optional[int] = None
        """For a batch that can't be read: the index of the first invalid operation, counting from 0."""
        self._carry(carried, listed)

    def _carry(self, carried: Optional[int], listed: Optional[str]) -> None:
        """Stores the error's details. `listed` says what the call's list contains: "item" or "operation"."""

    @property
    def _what(self) -> str:
        """Returns what was wrong, with details."""
        return self.meaning

    @property
    def summary(self) -> str:
        """What was wrong and what would be right, in one line."""
        return f"{self._what}; {self.advice}" if self.advice else self._what

    def __str__(self) -> str:
        return self.summary


def refusal(number: int, carried: Optional[int] = None, query: Optional[str] = None, listed: Optional[str] = None) -> Refusal:
    """Returns the error with this number, given its details, the query's text, and what the call's list contains."""
    found = Refusal._classes.get(number)
    if found is not None:
        return found(carried, query, listed)
    unknown = Refusal(carried, query, listed)
    unknown.number = number
    return unknown


class _OfList(Refusal):
    """An error in one operation or item of a call that takes a list of them."""

    def _carry(self, carried: Optional[int], listed: Optional[str]) -> None:
        if listed is not None:
            setattr(self, listed, carried)

    @property
    def _what(self) -> str:
        for listed, place in (("operation", self.operation), ("item", self.item)):
            if place is not None:
                return f"{self.meaning} ({listed} {place}, counted from 0)"
        return self.meaning


def columns_of(text: str) -> int:
    """Returns the number of columns that a text takes on a terminal."""
    return sum(0 if unicodedata.combining(it) else 2 if unicodedata.east_asian_width(it) in "WF" else 1 for it in text)


def pointed(text: str, column: int, width: int = 8192) -> str:
    """Returns the text with a caret below one of its characters. If the text is wider than `width` columns (4 or more), only
    the part around the caret is shown, between `…`."""
    text = "".join(character if character.isprintable() else " " for character in text)
    first, last = 0, len(text)
    if columns_of(text) > width:
        first, last = max(column - width, 0), min(column + width, len(text))
        while columns_of(text[first:last]) > width - 2:
            first, last = (first + 1, last) if column - first >= last - column else (first, last - 1)
    front = ("…" if first > 0 else "") + text[first:column]
    shown = front + text[column:last] + ("…" if last < len(text) else "")
    return f"{shown}\n{' ' * columns_of(front)}^"


class QueryError(Refusal):
    """The text isn't a valid query, or the query can't be answered."""

    @property
    def column(self) -> Optional[int]:
        """The position, counting from 0, of the character in the query's text that contains the byte with the error."""
        if self.query is None or self.offset is None:
            return None
        return len(self.query.encode(errors="surrogatepass")[:self.offset].decode(errors="ignore"))

    def shown(self, width: int = 8192) -> Optional[str]:
        """Returns the query with a caret under the character with the error, in two lines, or None if that character is
        unknown. If the query is wider than `width` columns, only the part around the caret is shown."""
        if self.query is None or self.column is None:
            return None
        return pointed(self.query, self.column, width)

    def __str__(self) -> str:
        shown = self.shown()
        return self.summary if shown is None else f"{self.summary}\n  " + shown.replace("\n", "\n  ")


class _AtPlace(QueryError, _OfList):
    """An error at a position in a query: a byte of its text, or one of its items."""

    def _carry(self, carried: Optional[int], listed: Optional[str]) -> None:
        if self.query is None:
            super()._carry(carried, listed)
        else:
            self.offset = carried


# surface.toml: exceptions
class TooManyAttributes(Refusal, number=ErrorNumber.TOO_MANY_ATTRS): ...
class IndexExists(Refusal, number=ErrorNumber.INDEX_EXISTS): ...
class TooManyIndices(Refusal, number=ErrorNumber.TOO_MANY_INDICES): ...
class NotIndexable(Refusal, number=ErrorNumber.NOT_INDEXABLE): ...
class CommitsSpent(Refusal, number=ErrorNumber.COMMITS_SPENT): ...
class NoMemory(Refusal, MemoryError, number=ErrorNumber.NO_MEMORY): ...
class QuerySyntax(_AtPlace, number=ErrorNumber.SYNTAX): ...
class BadPattern(_AtPlace, number=ErrorNumber.BAD_PATTERN): ...
class TooLong(QueryError, number=ErrorNumber.TOO_LONG): ...
class TooDeep(QueryError, number=ErrorNumber.TOO_DEEP): ...
class TooMany(QueryError, number=ErrorNumber.TOO_MANY): ...
class NameLength(_OfList, ValueError, number=ErrorNumber.NAME_LENGTH): ...
class DataLength(_OfList, ValueError, number=ErrorNumber.DATA_LENGTH): ...
class HasNul(_OfList, ValueError, number=ErrorNumber.HAS_NUL): ...
class BadLimits(Refusal, ValueError, number=ErrorNumber.BAD_LIMITS): ...
class BadItems(_AtPlace, number=ErrorNumber.BAD_RPN): ...
class Closed(Refusal, number=ErrorNumber.CLOSED): ...
class Opened(Refusal, number=ErrorNumber.OPEN): ...
class NotPinned(Refusal, number=ErrorNumber.NOT_PINNED): ...
class Pinned(Refusal, number=ErrorNumber.PINNED): ...
class NoPass(Refusal, number=ErrorNumber.NO_PASS): ...
class BadCount(Refusal, ValueError, number=ErrorNumber.BAD_COUNT): ...
class NotUTF8(_OfList, ValueError, number=ErrorNumber.NOT_UTF8): ...
class NoOperation(_OfList, ValueError, number=ErrorNumber.NO_OPERATION): ...
class NoValue(_OfList, ValueError, number=ErrorNumber.NO_VALUE): ...
class BadPart(_OfList, ValueError, number=ErrorNumber.BAD_PART): ...
class NoItem(_OfList, QueryError, ValueError, number=ErrorNumber.NO_ITEM): ...
class InUse(Refusal, number=ErrorNumber.IN_USE): ...
class Nested(Refusal, number=ErrorNumber.NESTED): ...
# surface.toml: end


class Busy(Refusal, number=ErrorNumber.BUSY):
    def _carry(self, carried: Optional[int], listed: Optional[str]) -> None:
        self.pass_number = carried

    @property
    def _what(self) -> str:
        return self.meaning if self.pass_number is None else f"{self.meaning} (pass {self.pass_number})"


class NoNode(Refusal, KeyError, number=ErrorNumber.NO_NODE):
    nodes: Tuple[int, ...] = ()
    """The missing node. If the write names several nodes, all of them."""

    def _carry(self, carried: Optional[int], listed: Optional[str]) -> None:
        if carried is not None and listed is None:
            self.nodes = (carried,)

    def _name(self, node: int, name: str) -> None:
        """Records what was looked up."""
        self.nodes = (node,)

    @property
    def node(self) -> Optional[int]:
        """The node that doesn't exist, if it is known."""
        return self.nodes[0] if len(self.nodes) == 1 else None

    @property
    def _what(self) -> str:
        if self.node is not None:
            return f"there is no node {self.node}"
        return f"one of the nodes {', '.join(map(str, self.nodes))} isn't there" if self.nodes else self.meaning


class NoAttribute(Refusal, KeyError, number=ErrorNumber.NO_ATTRIBUTE):
    node: Optional[int] = None
    """The node that lacks the attribute, if known."""
    name: Optional[str] = None
    """The attribute's name."""

    def _name(self, node: int, name: str) -> None:
        """Records what was looked up."""
        self.node, self.name = node, name

    @property
    def _what(self) -> str:
        return self.meaning if self.name is None else f'node {self.node} has no attribute "{self.name}"'


class NoIndex(Refusal, number=ErrorNumber.NO_INDEX):
    name: Optional[str] = None
    """The name that has no index, if known."""
    indices: Tuple[str, ...] = ()
    """The names that have an index, if `name` is known."""

    @property
    def _what(self) -> str:
        if self.name is None:
            return self.meaning
        names = ", ".join(f'"{name}"' for name in self.indices)
        return f'there is no index "{self.name}"; ' + (f"indices: {names}" if names else "there are no indices")




class Full(Refusal, number=ErrorNumber.FULL):
    def _carry(self, carried: Optional[int], listed: Optional[str]) -> None:
        self.least = carried

    @property
    def _what(self) -> str:
        if self.least is None:
            return self.meaning
        return f"{self.meaning} (the oldest snapshot that may still be read is {self.least})"


class NotCovered(QueryError, number=ErrorNumber.NOT_COVERED):
    """The query needs another index. `offset` or `item` is the position of the first comparison whose name has no index."""

    missing: Optional[str] = None
    """The name of that comparison."""
    indices: Tuple[str, ...] = ()
    """The names that have an index."""

    @property
    def summary(self) -> str:
        if self.missing is None:
            return super().summary
        names = ", ".join(f'"{name}"' for name in self.indices)
        return f'{self.meaning}: "{self.missing}" has none; ' + (f"names with an index: {names}" if names else "there are no indices")


class NoKind(_OfList, ValueError, number=ErrorNumber.NO_KIND):
    @property
    def summary(self) -> str:
        return f"{self._what}; the kinds are {', '.join(KIND_MEMBERS)}"


class QueryNotUTF8(_AtPlace, NotUTF8):
    """A query's text contains half of a surrogate pair, so it can't be encoded in UTF-8."""

    meaning = "the query has half of a surrogate pair here, which isn't valid UTF-8"


class BadCursor(Refusal, ValueError, number=ErrorNumber.BAD_CURSOR):
    reason: Optional[str] = None
    """The reason why no page can begin there, if known."""

    @property
    def summary(self) -> str:
        return super().summary if self.reason is None else self.reason


class NoRoom(Refusal, ValueError, number=ErrorNumber.NO_ROOM):
    limit: Optional[int] = None
    """The number of nodes that was requested."""

    @property
    def _what(self) -> str:
        return self.meaning if self.limit is None else f"{self.meaning}, and {self.limit} were asked for"


class WrongKind(Refusal, TypeError, number=ErrorNumber.WRONG_KIND):
    """A change sets a value whose kind differs from its index's kind, so no query would find it."""

    name: Optional[str] = None
    """The attribute's name, if known. If it is known, both kinds are known too."""
    kind: Optional[str] = None
    """The name of the value's kind, such as "INT64"."""
    index_kind: Optional[str] = None
    """The name of the index's kind."""

    @property
    def summary(self) -> str:
        if self.name is None:
            return super().summary
        return (f'the index "{self.name}" takes values of kind {self.index_kind}, and this one is {self.kind}: '
                f"set it as {self.index_kind}, or no query finds it")


class Conflict(Refusal, number=ErrorNumber.CONFLICT):
    expected: Optional[int] = None
    """The number of entries that the journal should have had."""
    found: Optional[int] = None
    """How many entries it had."""

    def _carry(self, carried: Optional[int], listed: Optional[str]) -> None:
        self.found = carried

    @property
    def _what(self) -> str:
        return f"{self.meaning} ({self.found}, not {self.expected})"


def no_index(name: str, indices: Iterable[str]) -> NoIndex:
    """Returns the error for a page ordered by a name that has no index. `indices` lists the existing indices."""
    error = NoIndex()
    error.name, error.indices = name, tuple(indices)
    return error


def bad_cursor(reason: str) -> BadCursor:
    """Returns the error for a cursor that no page can continue from."""
    error = BadCursor()
    error.reason = reason
    return error


def wrong_kind(name: str, kind: str, index_kind: str) -> WrongKind:
    """Returns the error for a value of this kind whose index takes another kind."""
    error = WrongKind()
    error.name, error.kind, error.index_kind = name, kind, index_kind
    return error


def no_room(limit: int) -> NoRoom:
    """Returns the error for a page whose limit is too small."""
    error = NoRoom()
    error.limit = limit
    return error


def encoded(text: str) -> bytes:
    """Encodes a name or a value. Raises a TypeError if it isn't a str, and `NotUTF8` if it contains half of a surrogate pair."""
    if not isinstance(text, str):
        raise TypeError(f"{text!r} isn't a str")
    try:
        return text.encode()
    except UnicodeEncodeError:
        raise NotUTF8() from None


def encoded_query(text: str) -> bytes:
    """Encodes a query's text. Raises a TypeError if it isn't a str, and `QueryNotUTF8` if it contains half of a surrogate pair."""
    if not isinstance(text, str):
        raise TypeError(f"{text!r} isn't a query's text, which is a str")
    try:
        return text.encode()
    except UnicodeEncodeError as error:
        raise QueryNotUTF8(len(text[:error.start].encode(errors="surrogatepass")), text) from None


def decoded(text: bytes) -> str:
    """Decodes these bytes. Raises `NotUTF8` if they aren't valid UTF-8."""
    try:
        return text.decode()
    except UnicodeDecodeError:
        raise NotUTF8() from None
