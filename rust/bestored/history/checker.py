"""Checks whether a history is strictly serializable, with its batches in the order of their numbers.

Four conditions must hold. The trail contains each acknowledged batch exactly once, at the position that its reply gives, and no
batch that was refused. Throughout a run, the batches' numbers differ from the commit numbers by the same amount. Each snapshot is
the state obtained by replaying the trail up to the snapshot's number, and each batch in the trail comes directly after the
snapshot that it was based on. The order respects real time: if one operation ended before another began, it comes first.
"""
from __future__ import annotations

from dataclasses import replace
from typing import Dict, Iterator, List, Optional, Tuple, Union

from crowd import Crowd
from record import NO_VALUES, History, Outcome, Read, Snapshot, Values, Write

Event = Tuple[float, int, int]
BEGIN, END = 1, 0
"""If two events have the same time, an end is ordered before a beginning, since they may have happened in this order."""


def violations(history: History, crowd: Optional[Crowd] = None) -> Iterator[str]:
    """Yields a description of everything in the history that a correct store wouldn't do. `crowd` is what the store also had."""
    yield from _wrong_trail(history)
    yield from _wrong_outcomes(history)
    yield from _wrong_commits(history)
    yield from _wrong_states(history)
    yield from _wrong_times(history)
    if crowd:
        yield from _wrong_counts(history, crowd)


def _wrong_trail(history: History) -> Iterator[str]:
    """Yields batches in the trail that no client sent, or that occur twice."""
    sent = {write.value for write in history.writes}
    places: Dict[int, int] = {}
    for number, value in enumerate(history.trail, 1):
        if value not in sent:
            yield f"batch {number} has the value {value}, which nobody sent"
        if value in places:
            yield f"value {value} was written twice, as batch {places[value]} and as batch {number}"
        places[value] = number


def _wrong_outcomes(history: History) -> Iterator[str]:
    """Yields batches that are missing, that aren't at the acknowledged position, or that are present although they were refused."""
    places = _places(history)
    for write in history.writes:
        place = places.get(write.value)
        if write.outcome is Outcome.ACKNOWLEDGED and place is None:
            yield f"value {write.value} was acknowledged as batch {write.number}, and is lost"
        elif write.outcome is Outcome.ACKNOWLEDGED and place != write.number:
            yield f"value {write.value} was acknowledged as batch {write.number}, and is batch {place}"
        elif write.outcome is Outcome.REFUSED and place is not None:
            yield f"value {write.value} was refused, and is batch {place}: {', '.join(write.errors)}"
        if place is not None and place != write.on.number + 1:
            yield f"batch {place} was to be written only on batch {write.on.number}"


def _places(history: History) -> Dict[int, int]:
    """Returns the batch number of each value in the trail."""
    return {value: number for number, value in enumerate(history.trail, 1)}


def _wrong_commits(history: History) -> Iterator[str]:
    """Yields numbers whose difference from their run's commit numbers, or from the numbers of the log's entries, isn't the same as
    for the first one."""
    shifts: Dict[str, int] = {}

    def wrong(what: str, run: str, commit: int, number: int) -> Iterator[str]:
        shift = shifts.setdefault(run, commit - number)
        if commit - number != shift:
            yield f"{what} {number} has commit number {commit} in run {run}, and {number + shift} would be right"

    for read in history.reads:
        yield from wrong("snapshot", read.snapshot.run, read.snapshot.commit, read.snapshot.number)
    for write in history.writes:
        if write.outcome is Outcome.ACKNOWLEDGED:
            yield from wrong("the snapshot below a batch,", write.on.run, write.on.commit, write.on.number)
            if write.entry is not None:
                yield from wrong("batch", "of the log's entries", write.entry, write.number)
            if not write.is_repeated:
                yield from wrong("batch", write.run, write.commit, write.number)


def _wrong_states(history: History) -> Iterator[str]:
    """Yields snapshots that don't agree with the trail."""
    written = {write.value: write for write in history.writes}
    waiting: Dict[int, List[Tuple[str, Snapshot]]] = {}
    for read in history.reads:
        waiting.setdefault(read.snapshot.number, []).append(("a read", read.snapshot))
    for value in history.trail:
        if value in written:
            on = written[value].on
            waiting.setdefault(on.number, []).append((f"the batch of value {value}", on))
    for number, values in enumerate(_states(history, written)):
        for who, snapshot in waiting.pop(number, []):
            if snapshot.values != values:
                yield f"{who} saw {snapshot.values} after batch {number}, and {values} would be right"
    for number in waiting:
        yield f"a snapshot shows batch {number}, and there are {len(history.trail)} batches"


def _wrong_counts(history: History, crowd: Crowd) -> Iterator[str]:
    """Yields snapshots in which queries counted something else than what the snapshot's number says."""
    for snapshot in [*(read.snapshot for read in history.reads), *(write.on for write in history.writes)]:
        right = crowd.counts_after(snapshot.number)
        if snapshot.counts != right:
            yield f"queries counted {snapshot.counts} after batch {snapshot.number}, and {right} would be right"


def _states(history: History, written: Dict[int, Write]) -> Iterator[Values]:
    """Yields the registers before the first batch, and after each batch."""
    values = list(NO_VALUES)
    yield tuple(values)
    for value in history.trail:
        for register in written[value].registers if value in written else ():
            values[register - 1] = value
        yield tuple(values)


def _wrong_times(history: History) -> Iterator[str]:
    """Yields batches and latest reads that are ordered before an operation that had ended when they began."""
    timed: List[Union[Read, Write]] = [*_timed_writes(history), *history.reads]
    events: List[Event] = []
    for place, it in enumerate(timed):
        events.append((it.begin, BEGIN, place))
        if it.end is not None:
            events.append((it.end, END, place))
    floor, number_at_floor = 0, "nothing"
    for _, which, place in sorted(events):
        it, number = timed[place], _number(timed[place])
        if which == END and number > floor:
            floor, number_at_floor = number, f"batch {number} was acknowledged or read before"
        elif which == BEGIN and isinstance(it, Write) and number <= floor:
            yield f"batch {number}, value {it.value}, was sent when {number_at_floor}"
        elif which == BEGIN and isinstance(it, Read) and it.is_latest and number < floor:
            yield f"a read that saw batch {number} as the last one began when {number_at_floor}"


def _timed_writes(history: History) -> Iterator[Write]:
    """Yields the trail's batches. A batch that wasn't acknowledged may have been written at any time after it was sent."""
    places = _places(history)
    for write in history.writes:
        place = places.get(write.value)
        if place is not None:
            is_known = write.outcome is Outcome.ACKNOWLEDGED
            yield replace(write, end=write.end if is_known else None, number=write.number if is_known else place)


def _number(it: Union[Read, Write]) -> int:
    return it.number if isinstance(it, Write) else it.snapshot.number
