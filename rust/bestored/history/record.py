"""The record of a history: what each client requested and received, and when, according to a single clock.

A store has registers, which are the nodes 1 to REGISTERS. A batch sets some of them to a value that no other batch uses. It also
creates a node with this value, so that the store lists its batches in order. This list is the trail. A batch's number is its
position in the trail, counting from 1. A snapshot's number is the number of the last batch in it.
"""
from __future__ import annotations

import enum
from dataclasses import dataclass, field
from typing import List, Optional, Tuple

REGISTERS = 6
Values = Tuple[int, ...]
"""The registers' values, in order."""
NO_VALUES: Values = (0,) * REGISTERS


@dataclass(frozen=True)
class Snapshot:
    """What a client read from a pinned snapshot, in one run of a server."""

    run: str
    commit: int
    number: int
    values: Values
    counts: Tuple[int, ...] = ()
    """What queries of a large store counted."""


@dataclass
class Read:
    """A snapshot that a client read between the times `begin` and `end`, in seconds. If `is_latest` is true, it must show
    everything that was acknowledged before the read."""

    snapshot: Snapshot
    begin: float
    end: float
    is_latest: bool


class Outcome(enum.Enum):
    """What a client knows about a batch."""

    ACKNOWLEDGED = "acknowledged"
    REFUSED = "refused"
    UNKNOWN = "unknown"


@dataclass
class Write:
    """A batch that may be written only directly after this snapshot. `commit` and `number` come from the reply, if there is one.
    If the reply was repeated, all that is known about `commit` is that it isn't earlier than the batch."""

    value: int
    registers: Tuple[int, ...]
    on: Snapshot
    begin: float
    end: Optional[float] = None
    outcome: Outcome = Outcome.UNKNOWN
    run: str = ""
    commit: int = 0
    number: int = 0
    entry: Optional[int] = None
    is_repeated: bool = False
    errors: List[str] = field(default_factory=list)
    """The outcomes of the attempts to send the batch, in order, except for an acknowledgement."""


@dataclass
class History:
    """The operations of all clients, and the trail at the end."""

    writes: List[Write] = field(default_factory=list)
    reads: List[Read] = field(default_factory=list)
    trail: List[int] = field(default_factory=list)
