//! Dates as people type them: 2024-01-31, 24 Dec 2024, yesterday, last week, 2 days ago, monday 9:30. The query window accepts the same
//! forms, and its tests read the same table.

use chrono::{Datelike, Duration, NaiveDate, NaiveDateTime, NaiveTime};
use std::fmt;
use std::ops::RangeInclusive;
use std::time::{SystemTime, UNIX_EPOCH};

const FORMS: &str = "2024-01-31, 31 Jan 2024, yesterday, last week, 2 days ago";
const MONTHS: [&str; 12] = [
    "january",
    "february",
    "march",
    "april",
    "may",
    "june",
    "july",
    "august",
    "september",
    "october",
    "november",
    "december",
];
const DAYS: [&str; 7] = [
    "monday",
    "tuesday",
    "wednesday",
    "thursday",
    "friday",
    "saturday",
    "sunday",
];
const YEARS: RangeInclusive<i32> = 1..=9999;

const NO_YEAR: &str = "it is outside the calendar";
const NO_MONTH: &str = "a year has 12 months";
const NO_DAY: &str = "that month doesn't have that many days";

/// The maximum number of seconds by which a clock is ever put back.
const TURNED: i64 = 86_400;

/// The last words in the names of attributes that are times.
const TIMES: [&str; 6] = ["modified", "created", "changed", "when", "date", "time"];

/// The time that a date means, in seconds since 1970, from `begin` up to but not including `end`.
#[derive(Clone, Copy, Debug, PartialEq, Eq)]
pub struct Span {
    pub begin: i64,
    pub end: i64,
}

/// An error for text that isn't a date.
#[derive(Debug, PartialEq, Eq)]
pub struct NotADate {
    text: String,
    reason: Option<&'static str>,
}

impl fmt::Display for NotADate {
    fn fmt(&self, f: &mut fmt::Formatter<'_>) -> fmt::Result {
        write!(f, "“{}” isn't a date", self.text)?;
        match self.reason {
            Some(reason) => write!(f, ": {reason}"),
            None => write!(f, ", such as {FORMS}"),
        }
    }
}

/// A clock: what it shows now, and a function that returns how many seconds it is ahead of UTC at a given time, in seconds since 1970.
#[derive(Clone, Copy, Debug)]
pub struct Clock {
    now: NaiveDateTime,
    ahead: fn(i64) -> i64,
}

impl Clock {
    /// Returns this machine's clock, in the time zone given by `TZ` or, without it, in the machine's own.
    pub fn of_machine() -> Self {
        let now = SystemTime::now()
            .duration_since(UNIX_EPOCH)
            .unwrap_or_default()
            .as_secs() as i64;
        let shown = NaiveDateTime::from_timestamp_opt(now + ahead_here(now), 0);
        Self {
            now: shown.unwrap_or_default(),
            ahead: ahead_here,
        }
    }

    /// Returns the date that the clock shows at this time, in seconds since 1970, in a form that [`span_of`] reads. `None` if it is outside
    /// the calendar.
    pub fn shown(&self, seconds: i64) -> Option<String> {
        let shown = seconds.checked_add((self.ahead)(seconds))?;
        let shown = NaiveDateTime::from_timestamp_opt(shown, 0).filter(|shown| (1..=9_999).contains(&shown.year()))?;
        Some(shown.format("%Y-%m-%d %H:%M:%S").to_string())
    }

    /// Returns the time at which the clock shows this. If the clock shows it twice, the first time counts. If the clock was put forward and
    /// never shows it, returns the time at which it would have shown it without the change.
    fn seconds(&self, shown: NaiveDateTime) -> i64 {
        let shown = shown.timestamp();
        let near = shown - (self.ahead)(shown);
        let one_day_before = shown - (self.ahead)(near - TURNED);
        let same_day = shown - (self.ahead)(near);
        let shows = |seconds: &i64| seconds + (self.ahead)(*seconds) == shown;
        let both = [one_day_before.min(same_day), one_day_before.max(same_day)];
        both.into_iter().find(shows).unwrap_or(one_day_before)
    }
}

/// Returns whether integers with this attribute's name are times in seconds since 1970: `last_modified`, `MAIL:when`.
pub fn is_time(name: &str) -> bool {
    let last = name.rsplit(['_', ':']).next().unwrap_or(name);
    TIMES.iter().any(|time| last.eq_ignore_ascii_case(time))
}

/// Returns how many seconds local time is ahead of UTC.
fn ahead_here(seconds: i64) -> i64 {
    // SAFETY: the structure may be all zeros, and localtime_r reads and writes only these two values.
    unsafe {
        let mut parts: libc::tm = std::mem::zeroed();
        let seconds: libc::time_t = seconds;
        match libc::localtime_r(&seconds, &mut parts).is_null() {
            true => 0,
            false => parts.tm_gmtoff,
        }
    }
}

/// A unit of the calendar.
#[derive(Clone, Copy, Debug, PartialEq, Eq)]
enum Unit {
    Second,
    Minute,
    Hour,
    Day,
    Week,
    Month,
    Year,
}

impl Unit {
    fn named(name: &str) -> Option<Self> {
        Some(match name {
            "second" => Unit::Second,
            "minute" => Unit::Minute,
            "hour" => Unit::Hour,
            "day" => Unit::Day,
            "week" => Unit::Week,
            "month" => Unit::Month,
            "year" => Unit::Year,
            _ => return None,
        })
    }
}

/// A time, and the calendar unit that it stands for.
#[derive(Clone, Copy, Debug)]
struct Moment {
    at: NaiveDateTime,
    unit: Unit,
}

/// A moment if the words have the expected form, or the reason why they aren't a valid date.
type Read = Result<Option<Moment>, Option<&'static str>>;

/// Returns the time that a typed date means on this clock. A day means the whole day, a month means the whole month, and a time of day
/// means one minute.
pub fn span_of(text: &str, clock: &Clock) -> Result<Span, NotADate> {
    let words = text.to_lowercase();
    let words: Vec<&str> = words.split_whitespace().collect();
    let span = |moment: Moment| {
        Ok(Span {
            begin: clock.seconds(moment.at),
            end: clock.seconds(moved(moment.at, moment.unit, 1)?),
        })
    };
    let found = moment(&words.join(" "), clock.now).and_then(|found| span(found.ok_or(None)?));
    found.map_err(|reason| NotADate {
        text: text.into(),
        reason,
    })
}

fn moment(words: &str, now: NaiveDateTime) -> Read {
    for read in [word, ago, weekday, iso, dotted, named] {
        if let Some(found) = read(words, now)? {
            return Ok(Some(found));
        }
    }
    with_time(words, now)
}

/// Parses a day and a time on that day, which is today if none is given.
fn with_time(words: &str, now: NaiveDateTime) -> Read {
    let before = words.trim_end_matches(|sign: char| sign == ':' || sign.is_ascii_digit());
    let (day, time) = words.split_at(before.len());
    let (time, unit) = match time_of_day(time)? {
        Some(read) => read,
        None => return Ok(None),
    };
    let day = match day.strip_suffix(' ').or_else(|| day.strip_suffix('t')) {
        None if !day.is_empty() => return Ok(None),
        day => without_at(day.unwrap_or_default()).trim_end_matches([',', ' ']),
    };
    let day = match day {
        "" => Some(Moment {
            at: now,
            unit: Unit::Day,
        }),
        day => moment(day, now)?,
    };
    let day = day.filter(|day| day.unit == Unit::Day);
    Ok(day.map(|day| Moment {
        at: day.at.date().and_time(time),
        unit,
    }))
}

/// Returns the words without a trailing "at".
fn without_at(words: &str) -> &str {
    match words.strip_suffix("at") {
        Some(day) if !day.ends_with(char::is_alphanumeric) => day,
        _ => words,
    }
}

/// Parses 9:30 or 9:30:05. Returns the time, and whether it means a minute or a second.
fn time_of_day(text: &str) -> Result<Option<(NaiveTime, Unit)>, Option<&'static str>> {
    let parts: Vec<&str> = text.split(':').collect();
    let (hour, minute, second, unit) = match parts[..] {
        [hour, minute] => (hour, minute, "00", Unit::Minute),
        [hour, minute, second] => (hour, minute, second, Unit::Second),
        _ => return Ok(None),
    };
    let read = (digits(hour, 1..=2), digits(minute, 2..=2), digits(second, 2..=2));
    let (hour, minute, second) = match read {
        (Some(hour), Some(minute), Some(second)) => (hour, minute, second),
        _ => return Ok(None),
    };
    let wrong = match () {
        () if hour > 23 => "hours go from 0 to 23",
        () if minute > 59 => "minutes go from 0 to 59",
        () => "seconds go from 0 to 59",
    };
    let time = NaiveTime::from_hms_opt(hour, minute, second).ok_or(Some(wrong))?;
    Ok(Some((time, unit)))
}

/// Returns the number that these digits form, if their count is within the range.
fn digits(text: &str, count: RangeInclusive<usize>) -> Option<u32> {
    let fits = count.contains(&text.len()) && text.bytes().all(|byte| byte.is_ascii_digit());
    text.parse().ok().filter(|_| fits)
}

/// Returns the beginning of a day.
fn day(year: i32, month: u32, day: u32) -> Result<NaiveDateTime, Option<&'static str>> {
    let wrong = match () {
        () if !YEARS.contains(&year) => NO_YEAR,
        () if !(1..=12).contains(&month) => NO_MONTH,
        () => NO_DAY,
    };
    let date = NaiveDate::from_ymd_opt(year, month, day).filter(|date| YEARS.contains(&date.year()));
    Ok(date.ok_or(Some(wrong))?.and_time(NaiveTime::default()))
}

/// Returns the beginning of the calendar unit that contains this time.
fn start_of(unit: Unit, at: NaiveDateTime) -> Result<NaiveDateTime, Option<&'static str>> {
    let midnight = at.date().and_time(NaiveTime::default());
    let since = at - midnight;
    Ok(match unit {
        Unit::Second => at,
        Unit::Minute => midnight + Duration::minutes(since.num_minutes()),
        Unit::Hour => midnight + Duration::hours(since.num_hours()),
        Unit::Day => midnight,
        Unit::Week => midnight - Duration::days(at.weekday().num_days_from_monday().into()),
        Unit::Month => day(at.year(), at.month(), 1)?,
        Unit::Year => day(at.year(), 1, 1)?,
    })
}

/// Returns the time this many units later. A day beyond the end of a month becomes the month's last day.
fn moved(at: NaiveDateTime, unit: Unit, count: i64) -> Result<NaiveDateTime, Option<&'static str>> {
    let by = match unit {
        Unit::Second => Duration::seconds(count),
        Unit::Minute => Duration::minutes(count),
        Unit::Hour => Duration::hours(count),
        Unit::Day => Duration::days(count),
        Unit::Week => Duration::weeks(count),
        Unit::Month => return moved_by_months(at, count),
        Unit::Year => return moved_by_months(at, 12 * count),
    };
    let there = at.checked_add_signed(by).filter(|there| YEARS.contains(&there.year()));
    there.ok_or(Some(NO_YEAR))
}

fn moved_by_months(at: NaiveDateTime, count: i64) -> Result<NaiveDateTime, Option<&'static str>> {
    let months = i64::from(at.year()) * 12 + i64::from(at.month0()) + count;
    let year = i32::try_from(months.div_euclid(12)).map_err(|_| Some(NO_YEAR))?;
    let month = u32::try_from(months.rem_euclid(12)).map_err(|_| Some(NO_YEAR))? + 1;
    let first = day(year, month, 1)?;
    let last = (28..=31)
        .rev()
        .find_map(|last| day(year, month, last).ok())
        .unwrap_or(first);
    Ok(last
        .date()
        .min(first.date() + Duration::days(at.day0().into()))
        .and_time(at.time()))
}

/// Parses now, today, yesterday, tomorrow, this week, last month, next year.
fn word(words: &str, now: NaiveDateTime) -> Read {
    let (which, unit) = match words {
        "now" => {
            return Ok(Some(Moment {
                at: now,
                unit: Unit::Second,
            }))
        }
        "today" => ("this", "day"),
        "yesterday" => ("last", "day"),
        "tomorrow" => ("next", "day"),
        _ => words.split_once(' ').unwrap_or_default(),
    };
    let count = match which {
        "this" => 0,
        "last" => -1,
        "next" => 1,
        _ => return Ok(None),
    };
    match Unit::named(unit) {
        Some(unit) => Ok(Some(Moment {
            at: moved(start_of(unit, now)?, unit, count)?,
            unit,
        })),
        None => Ok(None),
    }
}

/// Parses 2 days ago, which means that moment and not the whole day.
fn ago(words: &str, now: NaiveDateTime) -> Read {
    let (count, unit) = match words.strip_suffix(" ago").and_then(|words| words.split_once(' ')) {
        Some(("a" | "an" | "one", unit)) => (Some(1), unit),
        Some((count, unit)) => (digits(count, 1..=9), unit),
        None => return Ok(None),
    };
    match (count, Unit::named(unit.strip_suffix('s').unwrap_or(unit))) {
        (Some(count), Some(unit)) => Ok(Some(Moment {
            at: moved(now, unit, -i64::from(count))?,
            unit: Unit::Second,
        })),
        _ => Ok(None),
    }
}

/// Returns the position of the only name in the list that begins with this text.
fn named_so(names: &[&str], begin: &str) -> Option<usize> {
    let mut places = (0..names.len()).filter(|place| begin.len() >= 3 && names[*place].starts_with(begin));
    places.next().filter(|_| places.next().is_none())
}

/// Parses a day of the week, which means the last such day before today. `next monday` is the first one after today.
fn weekday(words: &str, now: NaiveDateTime) -> Read {
    let (which, name) = words.rsplit_once(' ').unwrap_or(("", words));
    let wanted = match named_so(&DAYS, name) {
        Some(wanted) => wanted as i64,
        None => return Ok(None),
    };
    let today = i64::from(now.weekday().num_days_from_monday());
    let away = match which {
        "" | "last" => -1 - (today - wanted - 1).rem_euclid(7),
        "next" => 1 + (wanted - today - 1).rem_euclid(7),
        _ => return Ok(None),
    };
    Ok(Some(Moment {
        at: moved(start_of(Unit::Day, now)?, Unit::Day, away)?,
        unit: Unit::Day,
    }))
}

/// Builds a day, a month or a year from its numbers.
fn date(year: u32, month: Option<u32>, of_month: Option<u32>) -> Read {
    let unit = match (month, of_month) {
        (_, Some(_)) => Unit::Day,
        (Some(_), None) => Unit::Month,
        (None, None) => Unit::Year,
    };
    let at = day(year as i32, month.unwrap_or(1), of_month.unwrap_or(1))?;
    Ok(Some(Moment { at, unit }))
}

/// Parses 2024, 2024-01, 2024-01-31.
fn iso(words: &str, _: NaiveDateTime) -> Read {
    let parts: Vec<&str> = words.split('-').collect();
    let year = digits(parts[0], 4..=4);
    let rest: Option<Vec<u32>> = parts[1..].iter().map(|part| digits(part, 1..=2)).collect();
    match (year, rest.as_deref()) {
        (Some(year), Some([])) => date(year, None, None),
        (Some(year), Some([month])) => date(year, Some(*month), None),
        (Some(year), Some([month, day])) => date(year, Some(*month), Some(*day)),
        _ => Ok(None),
    }
}

/// Parses 31.1.2024. A date with `/` is ambiguous, so it is refused.
fn dotted(words: &str, _: NaiveDateTime) -> Read {
    let parts: Vec<&str> = words.split('/').collect();
    if parts.len() == 3 && parts.iter().all(|part| digits(part, 1..=4).is_some()) {
        return Err(Some("it is ambiguous; type a date like 2024-01-31"));
    }
    let parts: Vec<&str> = words.split('.').collect();
    let (day, month, year) = match parts[..] {
        [day, month, year] => (digits(day, 1..=2), digits(month, 1..=2), digits(year, 4..=4)),
        _ => return Ok(None),
    };
    match (day, month, year) {
        (Some(day), Some(month), Some(year)) => date(year, Some(month), Some(day)),
        _ => Ok(None),
    }
}

/// Parses 31 Jan 2024, Jan 31, 2024, Jan 2024, 31 Jan. Without a year, this means the last such day that isn't after today.
fn named(words: &str, now: NaiveDateTime) -> Read {
    let mut words: &[&str] = &words.split(' ').collect::<Vec<_>>();
    let mut next = |read: &dyn Fn(&str) -> Option<u32>| {
        let found = words.first().and_then(|word| read(word));
        words = if found.is_some() { &words[1..] } else { words };
        found
    };
    let before = next(&|word| digits(word.strip_suffix('.').unwrap_or(word), 1..=2));
    let month = next(&|word| {
        let place = named_so(&MONTHS, word.strip_suffix('.').unwrap_or(word))?;
        u32::try_from(place + 1).ok()
    });
    let after = next(&|word| digits(word.strip_suffix(',').unwrap_or(word), 1..=2));
    let year = next(&|word| digits(word, 4..=4));
    if month.is_none() || before.is_some() && after.is_some() || !words.is_empty() {
        return Ok(None);
    }
    let of_month = before.or(after);
    if let Some(year) = year {
        return date(year, month, of_month);
    }
    let this_year = date(now.year().unsigned_abs(), month, of_month)?;
    match this_year {
        Some(moment) if moment.at > now => Ok(Some(Moment {
            at: moved(moment.at, Unit::Year, -1)?,
            ..moment
        })),
        moment => Ok(moment),
    }
}

#[cfg(test)]
pub mod tests {
    use super::*;
    use std::path::Path;

    /// Half past four on Friday, 27 November 2026, in Berlin.
    pub fn clock() -> Clock {
        Clock {
            now: shown("2026-11-27 16:30:05"),
            ahead: ahead_in_berlin,
        }
    }

    fn shown(text: &str) -> NaiveDateTime {
        NaiveDateTime::parse_from_str(text, "%Y-%m-%d %H:%M:%S").unwrap()
    }

    #[test]
    fn a_date_is_read_back_as_it_is_shown() {
        for (seconds, shown) in [
            (0, "1970-01-01 01:00:00"),
            (1_795_647_605, "2026-11-26 00:00:05"),
            (1_782_000_000, "2026-06-21 02:00:00"),
            (-1, "1970-01-01 00:59:59"),
        ] {
            assert_eq!(clock().shown(seconds).as_deref(), Some(shown));
            assert_eq!(span_of(shown, &clock()).map(|span| span.begin).ok(), Some(seconds));
        }
        let utc = Clock {
            ahead: |_| 0,
            ..clock()
        };
        let beyond = [i64::MAX, i64::MIN, 1 << 40];
        assert_eq!(beyond.map(|seconds| utc.shown(seconds)), [None, None, None]);
    }

    #[test]
    fn a_name_says_whether_its_integers_are_times() {
        let names = [
            "last_modified",
            "MAIL:when",
            "created",
            "Date",
            "a_b:TIME",
            "size",
            "whenever",
            "modified_by",
            "",
        ];
        assert_eq!(
            names.map(is_time),
            [true, true, true, true, true, false, false, false, false]
        );
    }

    /// One hour in winter, and two from the last Sunday in March to the last Sunday in October.
    fn ahead_in_berlin(seconds: i64) -> i64 {
        let year = NaiveDateTime::from_timestamp_opt(seconds, 0).unwrap().year();
        let turned = |month: u32| {
            let last = day(year, month, 31).unwrap() + Duration::hours(1);
            (last - Duration::days(last.weekday().num_days_from_sunday().into())).timestamp()
        };
        match (turned(3)..turned(10)).contains(&seconds) {
            true => 7_200,
            false => 3_600,
        }
    }

    /// The lines of tests/dates.txt, split into their parts.
    fn lines() -> Vec<Vec<String>> {
        let path = Path::new(env!("CARGO_MANIFEST_DIR")).join("../../tests/dates.txt");
        let text = std::fs::read_to_string(path).unwrap();
        let lines = text.lines().filter(|line| !line.is_empty() && !line.starts_with('#'));
        lines
            .map(|line| line.split(" | ").map(String::from).collect())
            .collect()
    }

    #[test]
    fn texts_are_dates_or_are_refused_with_a_reason() {
        let lines = lines();
        assert!(lines.len() > 40);
        for line in lines {
            match &line[..] {
                [text, begin, end] => {
                    let span = span_of(text, &clock()).unwrap();
                    let shows = |at: i64| NaiveDateTime::from_timestamp_opt(at + ahead_in_berlin(at), 0);
                    assert_eq!(shows(span.begin), Some(shown(begin)), "{text}");
                    assert_eq!(shows(span.end), Some(shown(end)), "{text}");
                }
                [text, reason] => {
                    let said = span_of(text, &clock()).unwrap_err().to_string();
                    assert!(said.contains(reason), "{said}");
                }
                _ => panic!("{line:?}"),
            }
        }
    }

    #[test]
    fn a_day_has_the_hours_that_the_clock_shows() {
        for (day, hours) in [("2026-10-25", 25), ("2026-03-29", 23), ("2026-03-30", 24)] {
            let span = span_of(day, &clock()).unwrap();
            assert_eq!(span.end - span.begin, hours * 3_600, "{day}");
        }
        // The clock shows the first of these times twice, and never shows the second.
        for (time, seconds) in [("2026-10-25 2:30", 1_792_888_200), ("2026-03-29 2:30", 1_774_747_800)] {
            assert_eq!(span_of(time, &clock()).unwrap().begin, seconds, "{time}");
        }
    }
}
