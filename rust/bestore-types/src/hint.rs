//! Comparisons that are never true.

use crate::Kind;
use std::fmt;

/// A comparison that is never true because its name has an integer index and its value isn't an integer or is out of range, as in
/// `size>1.5`.
#[derive(Clone, Debug, PartialEq, Eq)]
pub struct Hint {
    /// The attribute's name.
    pub name: String,
    /// The value that it is compared with.
    pub value: String,
    /// The index's kind.
    pub kind: Kind,
    /// The byte offset in the query at which the comparison begins.
    pub offset: usize,
    /// Whether the value is a whole number but out of the kind's range.
    pub is_number: bool,
}

impl fmt::Display for Hint {
    fn fmt(&self, f: &mut fmt::Formatter<'_>) -> fmt::Result {
        let Self { name, value, kind, .. } = self;
        write!(f, "never true: {name:?} is {kind}, and {value:?} ")?;
        f.write_str(match self.is_number {
            true => "is out of its range",
            false => "isn't a whole number",
        })
    }
}
