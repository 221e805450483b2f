//! The reply to `text`: the comparisons of a query.

use super::value::{kind_name, kind_named};
use bestore_types::Kind;
use serde::{Deserialize, Serialize};

/// The form of the value in a comparison.
#[derive(Clone, Copy, Debug, PartialEq, Eq, Serialize, Deserialize)]
#[serde(rename_all = "lowercase")]
pub enum Form {
    /// A whole number from -2^63 to 2^64 - 1.
    Number,
    /// Any other string.
    Text,
    /// A pattern, which may match more than one string.
    Pattern,
}

/// A comparison in a query.
#[derive(Clone, Debug, PartialEq, Eq, Serialize, Deserialize)]
pub struct Comparison {
    /// The name of the attribute.
    pub name: String,
    /// `==`, `!=`, `<`, `<=`, `>` or `>=`, as written in the text.
    pub operator: String,
    /// The value to compare with.
    pub value: String,
    /// The form of the value.
    pub form: Form,
    /// The byte offset in the text at which the comparison begins.
    pub offset: u64,
    /// The length of the comparison in bytes.
    pub length: u64,
    /// Whether the comparison is negated: whether it is inside an odd number of `!` operators.
    #[serde(default, skip_serializing_if = "std::ops::Not::not")]
    pub negated: bool,
    /// The names of the index kinds for which the comparison is never true.
    #[serde(default, skip_serializing_if = "Vec::is_empty")]
    pub never: Vec<String>,
}

impl Comparison {
    /// Returns whether the comparison can never be true, given that its attribute's index has this kind.
    #[must_use]
    pub fn is_never(&self, kind: Kind) -> bool {
        self.never.iter().any(|name| kind_named(name) == Some(kind))
    }

    /// Returns the names of these kinds, as [`never`](Self::never) lists them.
    #[must_use]
    pub fn names_of(kinds: &[Kind]) -> Vec<String> {
        kinds.iter().map(|kind| kind_name(*kind).into()).collect()
    }
}

/// The reply to `text`.
#[derive(Clone, Debug, Default, PartialEq, Eq, Serialize, Deserialize)]
pub struct Comparisons {
    /// The comparisons, from left to right.
    pub comparisons: Vec<Comparison>,
}

#[cfg(test)]
mod tests {
    use super::*;

    #[test]
    fn a_comparison_goes_there_and_back() {
        let line = r#"{"name":"size","operator":">","value":"1.5","form":"text","offset":3,"length":8,"negated":true,"never":["int32"]}"#;
        let read: Comparison = serde_json::from_str(line).unwrap();
        assert!(read.is_never(Kind::Int32) && !read.is_never(Kind::Int64));
        assert_eq!(serde_json::to_string(&read).unwrap(), line);
        let short = r#"{"name":"a","operator":"==","value":"*","form":"pattern","offset":0,"length":4}"#;
        let read: Comparison = serde_json::from_str(short).unwrap();
        assert_eq!((read.negated, read.never.len(), read.form), (false, 0, Form::Pattern));
        assert_eq!(serde_json::to_string(&read).unwrap(), short);
    }
}
