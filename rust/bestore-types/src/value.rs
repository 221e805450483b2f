//! Values.

use crate::Kind;
use std::fmt;

/// A value of an attribute. `into` converts a string, a 32-bit or 64-bit integer, or bytes to a value.
///
/// ```
/// use bestore_types::{Kind, Value};
/// assert_eq!(Value::from(5_i64).kind(), Kind::Int64);
/// assert_eq!(Value::from("Ada").as_str(), Some("Ada"));
/// ```
#[derive(Clone, Debug, PartialEq, Eq, Hash)]
pub enum Value {
    /// A string.
    Text(String),
    /// A 32-bit integer.
    Int32(i32),
    /// A 64-bit integer.
    Int64(i64),
    /// A MIME type.
    Mime(String),
    /// Raw bytes.
    Raw(Vec<u8>),
    /// An unsigned 32-bit integer.
    Uint32(u32),
    /// An unsigned 64-bit integer.
    Uint64(u64),
}

impl Value {
    /// Returns the kind of the value.
    #[must_use]
    pub const fn kind(&self) -> Kind {
        match self {
            Value::Text(_) => Kind::Text,
            Value::Int32(_) => Kind::Int32,
            Value::Int64(_) => Kind::Int64,
            Value::Mime(_) => Kind::Mime,
            Value::Raw(_) => Kind::Raw,
            Value::Uint32(_) => Kind::Uint32,
            Value::Uint64(_) => Kind::Uint64,
        }
    }

    /// Returns the value if it is a string or a MIME type.
    #[must_use]
    pub fn as_str(&self) -> Option<&str> {
        match self {
            Value::Text(text) | Value::Mime(text) => Some(text),
            _ => None,
        }
    }

    /// Returns the bytes of a string, a MIME type or a raw value, or `None` for an integer.
    #[must_use]
    pub fn as_bytes(&self) -> Option<&[u8]> {
        match self {
            Value::Text(text) | Value::Mime(text) => Some(text.as_bytes()),
            Value::Raw(bytes) => Some(bytes),
            _ => None,
        }
    }

    /// Returns the value if it is an integer that fits into an `i64`, whatever its kind.
    #[must_use]
    pub fn as_i64(&self) -> Option<i64> {
        match *self {
            Value::Int32(number) => Some(number.into()),
            Value::Int64(number) => Some(number),
            Value::Uint32(number) => Some(number.into()),
            Value::Uint64(number) => i64::try_from(number).ok(),
            _ => None,
        }
    }

    /// Returns the value if it is an integer that fits into a `u64`, whatever its kind.
    #[must_use]
    pub fn as_u64(&self) -> Option<u64> {
        match *self {
            Value::Uint64(number) => Some(number),
            _ => self.as_i64().and_then(|number| u64::try_from(number).ok()),
        }
    }

    /// Returns an integer in the form that the C library takes, or 0 for any other value.
    #[must_use]
    pub fn number(&self) -> u64 {
        match *self {
            Value::Int32(number) => i64::from(number) as u64,
            Value::Int64(number) => number as u64,
            Value::Uint32(number) => number.into(),
            Value::Uint64(number) => number,
            Value::Text(_) | Value::Mime(_) | Value::Raw(_) => 0,
        }
    }

    /// Parses a decimal integer as a value of this kind. Returns `None` if the text isn't such an integer, or if the kind can't hold it.
    #[must_use]
    pub fn integer(kind: Kind, text: &str) -> Option<Value> {
        let least = i128::from(kind.least()?);
        let most = least + (1 << (8 * kind.width()?)) - 1;
        let number: i128 = text.parse().ok()?;
        (least..=most)
            .contains(&number)
            .then(|| Value::of_parts(kind, number as u64, &[]))
    }

    /// Assembles a value from parts that the library has written. They are valid: strings are UTF-8, and numbers fit their kinds.
    #[must_use]
    pub fn of_parts(kind: Kind, number: u64, bytes: &[u8]) -> Value {
        let text = || String::from_utf8_lossy(bytes).into_owned();
        match kind {
            Kind::Text => Value::Text(text()),
            Kind::Int32 => Value::Int32(number as i32),
            Kind::Int64 => Value::Int64(number as i64),
            Kind::Mime => Value::Mime(text()),
            Kind::Raw => Value::Raw(bytes.to_vec()),
            Kind::Uint32 => Value::Uint32(number as u32),
            Kind::Uint64 => Value::Uint64(number),
        }
    }
}

/// A value whose bytes are borrowed, such as one that has just been read from a batch.
///
/// ```
/// use bestore_types::{Value, ValueRef};
/// let value = Value::from("Ada");
/// assert_eq!(ValueRef::from(&value).to_value(), value);
/// ```
#[derive(Clone, Copy, Debug, PartialEq, Eq, Hash)]
pub struct ValueRef<'a> {
    kind: Kind,
    number: u64,
    bytes: &'a [u8],
}

impl<'a> ValueRef<'a> {
    /// Assembles a value from parts, as [`Value::of_parts`] does. Of an integer, only the number is kept; of any other value, the bytes are.
    #[must_use]
    pub const fn of_parts(kind: Kind, number: u64, bytes: &'a [u8]) -> Self {
        match kind.is_number() {
            true => Self {
                kind,
                number,
                bytes: &[],
            },
            false => Self { kind, number: 0, bytes },
        }
    }

    /// Returns the kind of the value.
    #[must_use]
    pub const fn kind(self) -> Kind {
        self.kind
    }

    /// Returns an integer in the form that the C library takes, or 0 for any other value.
    #[must_use]
    pub const fn number(self) -> u64 {
        self.number
    }

    /// Returns the bytes of a string, a MIME type or a raw value; of an integer, none.
    #[must_use]
    pub const fn bytes(self) -> &'a [u8] {
        self.bytes
    }

    /// Copies the value.
    #[must_use]
    pub fn to_value(self) -> Value {
        Value::of_parts(self.kind, self.number, self.bytes)
    }
}

impl<'a> From<&'a Value> for ValueRef<'a> {
    fn from(value: &'a Value) -> Self {
        Self {
            kind: value.kind(),
            number: value.number(),
            bytes: value.as_bytes().unwrap_or_default(),
        }
    }
}

macro_rules! borrow {
    ($($type:ty => $kind:ident with $value:ident: $number:expr, $bytes:expr;)*) => {$(
        impl<'a> From<$type> for ValueRef<'a> {
            fn from($value: $type) -> Self {
                Self::of_parts(Kind::$kind, $number, $bytes)
            }
        }
    )*};
}

borrow! {
    &'a str => Text with text: 0, text.as_bytes();
    &'a String => Text with text: 0, text.as_bytes();
    i32 => Int32 with number: i64::from(number) as u64, &[];
    i64 => Int64 with number: number as u64, &[];
    u32 => Uint32 with number: number.into(), &[];
    u64 => Uint64 with number: number, &[];
    &'a [u8] => Raw with bytes: 0, bytes;
    &'a Vec<u8> => Raw with bytes: 0, bytes;
}

/// Formats a string in quotes, a number, or bytes as hexadecimal digits.
impl fmt::Display for Value {
    fn fmt(&self, f: &mut fmt::Formatter<'_>) -> fmt::Result {
        match self {
            Value::Text(text) | Value::Mime(text) => write!(f, "{text:?}"),
            Value::Int32(number) => number.fmt(f),
            Value::Int64(number) => number.fmt(f),
            Value::Uint32(number) => number.fmt(f),
            Value::Uint64(number) => number.fmt(f),
            Value::Raw(bytes) => bytes.iter().try_for_each(|byte| write!(f, "{byte:02x}")),
        }
    }
}

macro_rules! from {
    ($($type:ty => $variant:ident by $convert:expr;)*) => {$(
        impl From<$type> for Value {
            fn from(value: $type) -> Self {
                Value::$variant($convert(value))
            }
        }
    )*};
}

from! {
    &str => Text by String::from;
    String => Text by std::convert::identity;
    &String => Text by String::clone;
    i32 => Int32 by std::convert::identity;
    i64 => Int64 by std::convert::identity;
    u32 => Uint32 by std::convert::identity;
    u64 => Uint64 by std::convert::identity;
    &[u8] => Raw by Vec::from;
    Vec<u8> => Raw by std::convert::identity;
}

#[cfg(test)]
mod tests {
    use super::*;

    #[test]
    fn numbers_are_converted_if_they_fit() {
        assert_eq!(Value::from(-1_i32).as_i64(), Some(-1));
        assert_eq!(Value::from(-1_i32).as_u64(), None);
        assert_eq!(Value::from(u64::MAX).as_i64(), None);
        assert_eq!(Value::from(u64::MAX).as_u64(), Some(u64::MAX));
        assert_eq!(Value::from("5").as_i64(), None);
        assert_eq!(Value::from(-1_i32).number(), u64::MAX);
    }

    #[test]
    fn a_borrowed_value_is_the_value() {
        assert_eq!(ValueRef::from(-1_i32), ValueRef::from(&Value::from(-1_i32)));
        assert_eq!(ValueRef::from(-1_i64).to_value(), Value::from(-1_i64));
        assert_eq!(ValueRef::from(u64::MAX).to_value(), Value::from(u64::MAX));
        assert_eq!(ValueRef::from("a"), ValueRef::from(&Value::from("a")));
        assert_eq!(ValueRef::from(&vec![0, 255]), ValueRef::from(&[0, 255][..]));
    }

    #[test]
    fn a_value_is_shown_as_it_is_written() {
        assert_eq!(Value::from("a\"b").to_string(), "\"a\\\"b\"");
        assert_eq!(Value::from(vec![0, 255]).to_string(), "00ff");
    }
}
