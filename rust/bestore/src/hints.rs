//! The comparisons in a query, and which of them are never true.

use crate::raw::{comparisons, Comparisons};
use crate::refused::of_query;
use crate::{Hint, Kind, Result};
use bestore_sys::{self as sys, bes_compared};

/// The form of a comparison's value.
#[derive(Clone, Copy, Debug, PartialEq, Eq)]
pub enum Form {
    /// A whole number from -2^63 to 2^64 - 1.
    Number,
    /// Any other string.
    Text,
    /// A pattern, which matches more than one string.
    Pattern,
}

/// A comparison in a query, as returned by [`compared`].
#[derive(Clone, Debug, PartialEq, Eq)]
pub struct Compared {
    /// The attribute's name.
    pub name: String,
    /// `==`, `!=`, `<`, `<=`, `>` or `>=`, as written in the text.
    pub operator: &'static str,
    /// The value to compare with: a string without backslashes, or a pattern in its canonical form.
    pub value: String,
    /// The form of the value.
    pub form: Form,
    /// The byte offset in the query at which the comparison begins.
    pub offset: usize,
    /// The length of the comparison in bytes.
    pub length: usize,
    /// Whether the comparison is negated by a `!`.
    pub is_negated: bool,
    /// The kinds of indices for which the comparison is never true, such as the integer kinds for `size>1.5`.
    pub never: Vec<Kind>,
}

/// Returns the comparisons in a query, from left to right, without reading any store.
///
/// ```
/// use bestore::{compared, Form, Kind};
/// let found = compared("name==a* && !(size<=1.5)")?;
/// assert_eq!((found[0].operator, found[0].form, found[1].form), ("==", Form::Pattern, Form::Text));
/// assert!(found[1].is_negated && found[1].never.contains(&Kind::Int64));
/// # Ok::<(), bestore::Error>(())
/// ```
///
/// # Errors
/// [`Error::Query`](crate::Error::Query) if the text isn't a query. [`Error::OutOfMemory`](crate::Error::OutOfMemory).
pub fn compared(query: &str) -> Result<Vec<Compared>> {
    let found = comparisons(query).map_err(|refused| of_query(refused, || query.into()))?;
    Ok(found.list.iter().map(|one| read(&found, one)).collect())
}

fn read(found: &Comparisons, one: &bes_compared) -> Compared {
    Compared {
        name: found.name(one),
        operator: sign(one.kind_in_text),
        value: found.value(one),
        form: match one.form {
            sys::BES_FORM_NUMBER => Form::Number,
            sys::BES_FORM_PATTERN => Form::Pattern,
            _ => Form::Text,
        },
        offset: one.at as usize,
        length: (one.end - one.at) as usize,
        is_negated: one.kind != one.kind_in_text,
        never: Kind::ALL.into_iter().filter(|kind| is_never(one, *kind)).collect(),
    }
}

/// Returns an operator as it is written in a query. An operator that this crate doesn't know is shown as `?`.
const fn sign(kind: u32) -> &'static str {
    match kind {
        sys::BES_ITEM_EQ => "==",
        sys::BES_ITEM_NE => "!=",
        sys::BES_ITEM_LT => "<",
        sys::BES_ITEM_LE => "<=",
        sys::BES_ITEM_GT => ">",
        sys::BES_ITEM_GE => ">=",
        _ => "?",
    }
}

/// Returns `true` if the comparison is false for every value in an index of this kind.
const fn is_never(one: &bes_compared, kind: Kind) -> bool {
    match kind {
        // surface.toml: never true
        Kind::Int32 => one.is_never_int32,
        Kind::Int64 => one.is_never_int64,
        Kind::Uint32 => one.is_never_uint32,
        Kind::Uint64 => one.is_never_uint64,
        Kind::Text | Kind::Mime | Kind::Raw => false,
        // surface.toml: end
    }
}

/// Returns the comparisons in a query that are never true, given the kinds of the indices. `kind_of` returns the kind of the index with a
/// given name, if there is one.
///
/// ```
/// use bestore::{hints, Kind};
/// let found = hints("name==a* && size>1.5", |name| (name == "size").then(|| Kind::Int64))?;
/// assert_eq!(found[0].to_string(), r#"never true: "size" is i64, and "1.5" isn't a whole number"#);
/// assert_eq!(found[0].offset, 12);
/// # Ok::<(), bestore::Error>(())
/// ```
///
/// # Errors
/// The same errors as [`compared`].
pub fn hints(query: &str, kind_of: impl Fn(&str) -> Option<Kind>) -> Result<Vec<Hint>> {
    let hint = |one: Compared| {
        let kind = kind_of(&one.name).filter(|kind| one.never.contains(kind))?;
        Some(Hint {
            name: one.name,
            value: one.value,
            kind,
            offset: one.offset,
            is_number: one.form == Form::Number,
        })
    };
    Ok(compared(query)?.into_iter().filter_map(hint).collect())
}

#[cfg(test)]
mod tests {
    use super::*;

    /// Returns the offsets of the comparisons that are never true, given a text index `t` and integer indices `i`, `l`, `u` and `w`.
    fn offsets(query: &str) -> Vec<usize> {
        let kind_of = |name: &str| match name {
            "t" => Some(Kind::Text),
            "i" => Some(Kind::Int32),
            "l" => Some(Kind::Int64),
            "u" => Some(Kind::Uint32),
            "w" => Some(Kind::Uint64),
            _ => None,
        };
        hints(query, kind_of).unwrap().iter().map(|hint| hint.offset).collect()
    }

    #[test]
    fn values_that_are_no_number_of_the_kind_are_found() {
        for (query, expected) in [
            ("l>1.5", &[0][..]),
            ("l>15 && t>1.5 && x>1.5", &[]),
            ("t==é || (l=2024-01-01)", &[10]),
            ("!(l!=\"\") || l==1*", &[2, 12]),
            ("i==2147483648 || i<=2147483648 || i>-2147483649", &[0]),
            ("i<-2147483648 || i<=-2147483648", &[0]),
            ("u<0 || u<=0 || u==-1 || u!=-1", &[0, 15]),
            ("w>18446744073709551615 || w>18446744073709551614", &[0]),
            ("l>=9223372036854775808 || l>99999999999999999999", &[0, 26]),
            ("l==\\5 || l==\\x", &[9]),
        ] {
            assert_eq!(offsets(query), expected, "{query}");
        }
    }

    #[test]
    fn comparisons_have_their_parts() {
        let query = r#"!("a b" = 'x\'y' || n<=5) && (größe!=*.c)"#;
        let found = compared(query).unwrap();
        let parts: Vec<_> = found
            .iter()
            .map(|one| {
                (
                    &query[one.offset..][..one.length],
                    one.operator,
                    &*one.value,
                    one.form,
                    one.is_negated,
                )
            })
            .collect();
        let expected = [
            (r#""a b" = 'x\'y'"#, "==", "x'y", Form::Text, true),
            ("n<=5", "<=", "5", Form::Number, true),
            ("größe!=*.c", "!=", "*.c", Form::Pattern, false),
        ];
        assert_eq!(parts, expected);
        assert_eq!((&*found[0].name, &*found[2].name), ("a b", "größe"));
        let integers = [Kind::Int32, Kind::Int64, Kind::Uint32, Kind::Uint64];
        assert_eq!(
            [&found[0].never[..], &found[1].never, &found[2].never],
            [&integers[..], &[], &integers]
        );
        assert_eq!(compared("n>4294967295").unwrap()[0].never, [Kind::Int32, Kind::Uint32]);
        assert_eq!(compared(r"n==\x\*y*").unwrap()[0].value, r"x\*y*");
    }

    #[test]
    fn a_query_has_up_to_256_comparisons() {
        let query = |count: usize| vec!["a=1"; count].join("||");
        assert_eq!(compared(&query(256)).unwrap().len(), 256);
        assert!(matches!(compared(&query(257)), Err(crate::Error::Query(_))));
    }

    #[test]
    fn what_is_no_query_is_refused() {
        assert!(matches!(hints("l>", |_| None), Err(crate::Error::Query(_))));
    }
}
