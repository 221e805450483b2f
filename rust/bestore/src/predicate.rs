//! Queries that are built rather than parsed.

use crate::refused::{of_query, without_offset};
use crate::{Error, Kind, Prepared, Result};
use bestore_sys as sys;
use bestore_types::raw::narrow;
use std::ops::{BitAnd, BitOr, Not};
use sys::bes_item;

/// A query built from comparisons with `&`, `|` and `!`. Strings need no quotes or backslashes.
///
/// # Panics
/// A call that makes or joins predicates panics if their names and strings take 4 GiB or more.
///
/// ```
/// use bestore::attribute;
/// let query = attribute("size").ge(1000) & !attribute("name").begins_with("[draft]");
/// let prepared = query.prepare()?;
/// assert_eq!(prepared.text()?, r#""size">="1000" && "name"!="\[draft]*""#);
/// # Ok::<(), bestore::Error>(())
/// ```
#[derive(Clone, Debug)]
pub struct Predicate {
    items: Vec<bes_item>,
    bytes: Vec<u8>,
}

/// The left side of a comparison, from [`attribute`].
#[derive(Clone, Debug)]
pub struct Attribute(Predicate);

/// The right side of a comparison: a string or an integer.
#[derive(Clone, Debug, PartialEq, Eq)]
pub enum Operand {
    /// A string.
    Text(String),
    /// An integer.
    Int64(i64),
    /// An unsigned integer.
    Uint64(u64),
}

/// Returns the attribute with this name, ready to be compared.
#[must_use]
pub fn attribute(name: &str) -> Attribute {
    let mut predicate = Predicate {
        items: Vec::new(),
        bytes: Vec::new(),
    };
    predicate.push(sys::BES_ITEM_ATTRIBUTE, name, 0);
    Attribute(predicate)
}

macro_rules! comparisons {
    ($($(#[$about:meta])* $name:ident by $item:ident;)*) => {$(
        $(#[$about])*
        #[must_use]
        pub fn $name(self, value: impl Into<Operand>) -> Predicate {
            self.compare(sys::$item, value.into())
        }
    )*};
}

impl Attribute {
    comparisons! {
        /// The attribute matches the pattern.
        eq by BES_ITEM_EQ;
        /// The attribute exists but doesn't match the pattern.
        ne by BES_ITEM_NE;
        /// The attribute is less than the value.
        lt by BES_ITEM_LT;
        /// The attribute is less than or equal to the value.
        le by BES_ITEM_LE;
        /// The attribute is greater than the value.
        gt by BES_ITEM_GT;
        /// The attribute is greater than or equal to the value.
        ge by BES_ITEM_GE;
        /// The attribute contains the text, which isn't read as a pattern.
        contains by BES_ITEM_CONTAINS;
        /// The attribute begins with the text, which isn't read as a pattern.
        begins_with by BES_ITEM_BEGINS_WITH;
        /// The attribute ends with the text, which isn't read as a pattern.
        ends_with by BES_ITEM_ENDS_WITH;
    }

    /// Matches the nodes whose attribute is in the index of its name. `kind` is the kind of that index.
    #[must_use]
    pub fn any(self, kind: Kind) -> Predicate {
        match kind.least() {
            Some(least) => self.ge(least),
            None => self.eq("*"),
        }
    }

    fn compare(self, operator: u32, value: Operand) -> Predicate {
        let mut predicate = self.0;
        match value {
            Operand::Text(text) => predicate.push(sys::BES_ITEM_TEXT, &text, 0),
            Operand::Int64(number) => predicate.push(sys::BES_ITEM_INT64, "", number as u64),
            Operand::Uint64(number) => predicate.push(sys::BES_ITEM_UINT64, "", number),
        }
        predicate.with(operator)
    }
}

impl Predicate {
    fn push(&mut self, kind: u32, text: &str, number: u64) {
        let at = narrow(self.bytes.len());
        let length = narrow(text.len());
        self.bytes.extend_from_slice(text.as_bytes());
        self.items.push(bes_item {
            kind,
            at,
            length,
            number,
        });
    }

    fn with(mut self, operator: u32) -> Self {
        self.push(operator, "", 0);
        self
    }

    fn joined(mut self, other: &Predicate, operator: u32) -> Self {
        let shift = self.bytes.len();
        self.bytes.extend_from_slice(&other.bytes);
        self.items.extend(other.items.iter().map(|item| bes_item {
            at: narrow(shift + item.at as usize),
            ..*item
        }));
        self.with(operator)
    }

    /// Builds the query.
    ///
    /// # Errors
    /// [`Error::Query`] if a pattern is malformed, with the pattern's text, or if the query is too large. [`Error::NameLength`],
    /// [`Error::HasNul`], [`Error::OutOfMemory`].
    pub fn prepare(&self) -> Result<Prepared> {
        let answer = crate::raw::RawPrepared::build(&self.items, &self.bytes);
        answer.map(Prepared::of_raw).map_err(|refused| match refused.code {
            sys::BES_BAD_RPN => Error::HasNul { operation: None },
            _ => without_offset(of_query(refused, || self.pattern_before(refused.carried))),
        })
    }

    /// Returns the text of the item before the one at this index. If that item is a comparison, the text is its value.
    fn pattern_before(&self, item: u64) -> String {
        let index = usize::try_from(item).unwrap_or(usize::MAX).checked_sub(1);
        let value = index.and_then(|index| self.items.get(index));
        let bytes = value.and_then(|value| self.bytes.get(value.at as usize..)?.get(..value.length as usize));
        String::from_utf8_lossy(bytes.unwrap_or_default()).into_owned()
    }
}

impl BitAnd for Predicate {
    type Output = Predicate;

    fn bitand(self, other: Predicate) -> Predicate {
        self.joined(&other, sys::BES_ITEM_AND)
    }
}

impl BitOr for Predicate {
    type Output = Predicate;

    fn bitor(self, other: Predicate) -> Predicate {
        self.joined(&other, sys::BES_ITEM_OR)
    }
}

impl Not for Predicate {
    type Output = Predicate;

    fn not(self) -> Predicate {
        self.with(sys::BES_ITEM_NOT)
    }
}

macro_rules! from {
    ($($type:ty => $variant:ident),*) => {$(
        impl From<$type> for Operand {
            fn from(value: $type) -> Self {
                Operand::$variant(value.into())
            }
        }
    )*};
}

from!(&str => Text, String => Text, &String => Text, i32 => Int64, i64 => Int64, u32 => Uint64, u64 => Uint64);

#[cfg(test)]
mod tests {
    use super::*;

    fn text(predicate: &Predicate) -> String {
        predicate.prepare().unwrap().text().unwrap()
    }

    #[test]
    fn a_predicate_has_the_text_of_its_query() {
        let either = attribute("a").eq("x*") | attribute("größe").ne(-5);
        assert_eq!(text(&either), r#""a"=="x*" || "größe"!="-5""#);
        let both = attribute("n").le(u64::MAX) & either.clone();
        assert_eq!(
            text(&both),
            r#""n"<="18446744073709551615" && ("a"=="x*" || "größe"!="-5")"#
        );
        assert_eq!(
            text(&!both),
            r#""n">"18446744073709551615" || "a"!="x*" && "größe"=="-5""#
        );
        let literal = attribute("a").contains("*") | attribute("a").ends_with("\"[");
        assert_eq!(text(&literal), r#""a"=="*\**" || "a"=="*\"\[""#);
        let ordered = attribute("a").lt("b") & attribute("a").gt("") & attribute("b").ge(1);
        assert_eq!(text(&ordered), r#""a"<"b" && "a">"" && "b">="1""#);
    }

    #[test]
    #[should_panic(expected = "less than 4 GiB")]
    fn an_offset_beyond_4_gib_is_not_cut_off() {
        let mut far = attribute("a").eq("b");
        far.items[0].at = u32::MAX;
        let _ = attribute("a").eq("b") & far;
    }

    #[test]
    fn what_is_no_query_is_refused() {
        let bad = attribute("a").lt(1) & attribute("b").eq("x[");
        let said = concat!(
            "this pattern isn't valid here; a set such as [a-d] must be closed by ], must not be empty, and its ranges must ascend\n",
            "  x["
        );
        assert_eq!(bad.prepare().unwrap_err().to_string(), said);
        assert!(matches!(attribute("").eq(1).prepare(), Err(Error::NameLength { .. })));
        assert!(matches!(attribute("a").eq("\0").prepare(), Err(Error::HasNul { .. })));
        assert!(matches!(attribute("\0").eq("a").prepare(), Err(Error::HasNul { .. })));
        let one = attribute("a").eq(1);
        let many = (0..256).fold(one.clone(), |all, _| all | one.clone());
        assert!(matches!(many.prepare(), Err(Error::Query(_))));
    }
}
