//! Converts a typed query to the form that is sent to the server, in which dates between `%` signs become numbers. Errors are shown at
//! their position in the typed text.

use crate::dates::{span_of, Clock, NotADate, Span};
use crate::query_text::{comparisons, Comparison, Form};

/// A comparison with a date, and the text that is sent instead of it.
#[derive(Debug)]
struct Part {
    start: usize,
    end: usize,
    sent: String,
}

/// A query as typed and as sent.
#[derive(Debug)]
pub struct TypedQuery {
    pub typed: String,
    pub sent: String,
    parts: Vec<Part>,
}

/// An error for an invalid date in a query.
#[derive(Debug)]
pub struct BadDate {
    pub typed: String,
    /// The byte offset at which the date begins in the typed text.
    pub offset: usize,
    pub why: NotADate,
}

impl TypedQuery {
    /// Parses a query, reading its dates by this clock.
    pub fn read(typed: &str, clock: &Clock) -> Result<Self, BadDate> {
        let with_date = |comparison: &Comparison<'_>| comparison.value.form == Form::Date;
        let parts: Vec<Part> = comparisons(typed)
            .iter()
            .filter(|comparison| with_date(comparison))
            .map(|comparison| {
                let span = span_of(comparison.value.inner(), clock).map_err(|why| BadDate {
                    typed: typed.into(),
                    offset: comparison.value.start,
                    why,
                })?;
                Ok(Part {
                    start: comparison.name.start,
                    end: comparison.value.end(),
                    sent: with_numbers(comparison, span),
                })
            })
            .collect::<Result<_, _>>()?;
        let (mut sent, mut at) = (String::new(), 0);
        for part in &parts {
            sent.push_str(&typed[at..part.start]);
            sent.push_str(&part.sent);
            at = part.end;
        }
        sent.push_str(&typed[at..]);
        let typed = typed.into();
        Ok(Self { typed, sent, parts })
    }

    /// Returns the offset in the typed text for an offset in the sent text. Within a comparison with a date, this is where the comparison
    /// begins.
    pub fn place_of(&self, mut offset: usize) -> usize {
        for part in &self.parts {
            if offset < part.start {
                break;
            }
            if offset < part.start + part.sent.len() {
                return part.start;
            }
            offset = offset - part.sent.len() + (part.end - part.start);
        }
        offset
    }
}

/// Returns a comparison with numbers that finds the times after the date, before it, or within it.
fn with_numbers(comparison: &Comparison<'_>, span: Span) -> String {
    let Span { begin, end } = span;
    let name = comparison.name.text;
    match comparison.operator.text {
        "<" => format!("{name}<{begin}"),
        "<=" => format!("{name}<{end}"),
        ">" => format!("{name}>={end}"),
        ">=" => format!("{name}>={begin}"),
        "!=" => format!("({name}<{begin} || {name}>={end})"),
        _ => format!("({name}>={begin} && {name}<{end})"),
    }
}

#[cfg(test)]
mod tests {
    use super::*;
    use crate::dates::tests::clock;

    fn read(typed: &str) -> TypedQuery {
        TypedQuery::read(typed, &clock()).unwrap()
    }

    #[test]
    fn dates_become_numbers() {
        for (typed, sent) in [
            ("last_modified>=%yesterday%", "last_modified>=1795647600"),
            ("last_modified > %2024-01-01%", "last_modified>=1704150000"),
            ("last_modified<=%2024%", "last_modified<1735686000"),
            ("last_modified<%31 Jan 2024%", "last_modified<1706655600"),
            (
                "a==1 && last_modified==%2024-01-01% || b==2",
                "a==1 && (last_modified>=1704063600 && last_modified<1704150000) || b==2",
            ),
            (
                "!(last_modified!=%today%)",
                "!((last_modified<1795734000 || last_modified>=1795820400))",
            ),
            ("'a b'>%2024%", "'a b'>=1735686000"),
            ("last_modified>1700000000", "last_modified>1700000000"),
            ("last_modified>2024-01-01", "last_modified>2024-01-01"),
            ("name==%today", "name==%today"),
            ("name==50%", "name==50%"),
            ("100%==a%b", "100%==a%b"),
            ("name==\"%x%\"", "name==\"%x%\""),
            ("", ""),
            ("größe==\"", "größe==\""),
        ] {
            assert_eq!(read(typed).sent, sent);
        }
    }

    #[test]
    fn a_place_of_what_is_sent_is_one_of_what_was_typed() {
        let query = read("é>%2024% && b==%today% && c==[");
        let place = |text: &str| query.place_of(query.sent.find(text).unwrap());
        assert_eq!([place("é"), place("17"), place("b<"), place("c==")], [0, 0, 13, 27]);
        assert_eq!(query.place_of(query.sent.len()), query.typed.len());
        assert_eq!(&query.typed[place("[")..], "[");
    }

    #[test]
    fn what_is_no_date_is_an_error_at_its_place() {
        let BadDate { offset, why, .. } = TypedQuery::read("name==x && t>%2024-13-01%", &clock()).unwrap_err();
        assert_eq!(offset, 13);
        assert_eq!(why.to_string(), "“2024-13-01” isn't a date: a year has 12 months");
    }
}
