"""Dates as people type them: 2024-01-01, 24 Dec 2024, yesterday, last week, 2 days ago, monday 9:30."""

from __future__ import annotations

import calendar
import re
from datetime import datetime, timedelta
from typing import Callable, List, NamedTuple, Optional

FORMS = "2024-01-31, 31 Jan 2024, yesterday, last week, 2 days ago"
_MONTHS = [name.lower() for name in (
    "January February March April May June July August September October November December".split())]
_DAYS = "monday tuesday wednesday thursday friday saturday sunday".split()
_UNITS = ("second", "minute", "hour", "day", "week", "month", "year")
_REASONS = {
    "day is out of range for month": "that month doesn't have that many days", "month must be in 1..12": "a year has 12 months",
    "hour must be in 0..23": "hours go from 0 to 23", "minute must be in 0..59": "minutes go from 0 to 59",
    "second must be in 0..59": "seconds go from 0 to 59", "year 0 is out of range": "it is outside the calendar",
}
_TIME = re.compile(r"(?:^|[ t]|\bat )(\d{1,2}):(\d{2})(?::(\d{2}))?$", re.ASCII)
_AGO = re.compile(r"(\d{1,9}|an?|one) (second|minute|hour|day|week|month|year)s? ago", re.ASCII)
_ISO = re.compile(r"(\d{4})(?:-(\d{1,2})(?:-(\d{1,2}))?)?", re.ASCII)
_DOTTED = re.compile(r"(\d{1,2})\.(\d{1,2})\.(\d{4})", re.ASCII)
_NAMED = re.compile(r"(?:(\d{1,2})\.? )?([a-z]{3,9})\.?(?: (\d{1,2})(?!\d),?)?(?: (\d{4}))?", re.ASCII)


class NotADate(ValueError):
    """The text isn't a date."""

    def __init__(self, text: str, reason: Optional[str] = None) -> None:
        super().__init__(text, reason)
        self.text, self.reason = text, reason

    def __str__(self) -> str:
        return f"“{self.text}” isn't a date" + (f": {self.reason}" if self.reason else f", such as {FORMS}")


class Span(NamedTuple):
    """The period that a date means, in seconds since 1970: from `begin` up to but not including `end`."""

    begin: int
    end: int


class _Moment(NamedTuple):
    """A time, and the unit of the calendar that it means, such as "day"."""

    at: datetime
    unit: str


def span_of(text: str, now: Optional[datetime] = None) -> Span:
    """Returns the period that a typed date means in local time: a date is the whole day, a month the whole month, and a time of
    day one minute. Raises `NotADate`."""
    at = datetime.now() if now is None else now
    words = " ".join(text.lower().split())
    try:
        found = _moment(words, at)
        if found is None:
            raise NotADate(text)
        begin = found.at.replace(microsecond=0)
        return Span(int(begin.timestamp()), int(_moved(begin, found.unit, 1).timestamp()))
    except (ValueError, OverflowError, OSError) as error:
        if isinstance(error, NotADate):
            raise
        raise NotADate(text, _REASONS.get(str(error), str(error))) from None


def _moment(words: str, now: datetime) -> Optional[_Moment]:
    for read in _FORMS:
        found = read(words, now)
        if found is not None:
            return found
    return _with_time(words, now)


def _with_time(words: str, now: datetime) -> Optional[_Moment]:
    """Parses a time of day with an optional day, which is today by default."""
    found = _TIME.search(words)
    if found is None:
        return None
    before = words[:found.start()].rstrip(", ")
    day = _moment(before, now) if before else _Moment(now, "day")
    if day is None or day.unit != "day":
        return None
    hour, minute, second = (int(it or 0) for it in found.groups())
    return _Moment(day.at.replace(hour=hour, minute=minute, second=second, microsecond=0), "second" if found[3] else "minute")


def _start_of(unit: str, at: datetime) -> datetime:
    """Returns the start of the calendar unit that contains a time."""
    if unit == "week":
        at -= timedelta(days=at.weekday())
    fields = {"second": 5, "minute": 4, "hour": 3, "day": 2, "week": 2, "month": 1, "year": 0}[unit]
    parts = [at.year, at.month, at.day, at.hour, at.minute, at.second]
    year, month, day, hour, minute, second = [*parts[:fields + 1], *[0, 1, 1, 0, 0, 0][fields + 1:]]
    return datetime(year, month, day, hour, minute, second)


def _moved(at: datetime, unit: str, count: int) -> datetime:
    """Returns the time that is the given number of units later. A day past the end of its month becomes the month's last
    day."""
    if unit in ("month", "year"):
        months = at.year * 12 + at.month - 1 + count * (12 if unit == "year" else 1)
        year, month = divmod(months, 12)
        if not 1 <= year <= 9999:
            raise ValueError("it is outside the calendar")
        return at.replace(year=year, month=month + 1, day=min(at.day, calendar.monthrange(year, month + 1)[1]))
    return at + timedelta(**{f"{unit}s": count})


def _word(words: str, now: datetime) -> Optional[_Moment]:
    """Parses now, today, yesterday, tomorrow, this week, last month, next year and the like."""
    days = {"today": 0, "yesterday": -1, "tomorrow": 1}
    if words == "now":
        return _Moment(now, "second")
    if words in days:
        return _Moment(_moved(_start_of("day", now), "day", days[words]), "day")
    which, _, unit = words.partition(" ")
    steps = {"this": 0, "last": -1, "next": 1}
    if which not in steps or unit not in _UNITS:
        return None
    return _Moment(_moved(_start_of(unit, now), unit, steps[which]), unit)


def _ago(words: str, now: datetime) -> Optional[_Moment]:
    """Parses text such as "2 days ago", which means that moment rather than the whole day."""
    found = _AGO.fullmatch(words)
    if found is None:
        return None
    count = int(found[1]) if found[1].isdigit() else 1
    return _Moment(_moved(now, found[2], -count), "second")


def _weekday(words: str, now: datetime) -> Optional[_Moment]:
    """Parses a day of the week, which means the last such day before today. `next monday` is the first Monday after today."""
    which, _, name = words.rpartition(" ")
    days = [place for place, day in enumerate(_DAYS) if len(name) >= 3 and day.startswith(name)]
    if which not in ("", "last", "next") or len(days) != 1:
        return None
    today = _start_of("day", now)
    away = (today.weekday() - days[0]) % 7 or 7
    return _Moment(today + timedelta(days=(days[0] - today.weekday()) % 7 or 7) if which == "next" else
                   today - timedelta(days=away), "day")


def _iso(words: str, now: datetime) -> Optional[_Moment]:
    """Parses 2024, 2024-01 and 2024-01-31."""
    found = _ISO.fullmatch(words)
    if found is None:
        return None
    year, month, day = found.groups()
    return _date(int(year), month, day)


def _date(year: int, month: Optional[str], day: Optional[str]) -> _Moment:
    unit = "day" if day else "month" if month else "year"
    return _Moment(datetime(year, int(month or 1), int(day or 1)), unit)


def _dotted(words: str, now: datetime) -> Optional[_Moment]:
    """Parses 31.1.2024. A date with `/` is ambiguous, so it isn't accepted."""
    if re.fullmatch(r"[0-9]{1,4}/[0-9]{1,2}/[0-9]{1,4}", words):
        raise NotADate(words, "it is ambiguous; type a date like 2024-01-31")
    found = _DOTTED.fullmatch(words)
    return None if found is None else _date(int(found[3]), found[2], found[1])


def _named(words: str, now: datetime) -> Optional[_Moment]:
    """Parses 31 Jan 2024, Jan 31, 2024, Jan 2024 and 31 Jan. Without a year, the text means the last such date up to today."""
    found = _NAMED.fullmatch(words)
    if found is None:
        return None
    months = [place for place, name in enumerate(_MONTHS, 1) if name.startswith(found[2])]
    before, after, year = found[1], found[3], found[4]
    if len(months) != 1 or before and after:
        return None
    day = before or after
    if year:
        return _date(int(year), str(months[0]), day)
    moment = _date(now.year, str(months[0]), day)
    return moment if moment.at <= now else _Moment(_moved(moment.at, "year", -1), moment.unit)


_FORMS: List[Callable[[str, datetime], Optional[_Moment]]] = [_word, _ago, _weekday, _iso, _dotted, _named]
