//! The types of values, with their names in the tools.

use crate::failure::Failure;
use bestore_types::{Kind, Value};
use clap::ValueEnum;

/// The type of a value.
#[derive(Clone, Copy, Debug, ValueEnum)]
pub enum Type {
    #[value(alias = "CSTR")]
    String,
    #[value(alias = "MIMS")]
    Mime,
    #[value(aliases = ["int", "LONG"])]
    Int32,
    #[value(aliases = ["llong", "LLNG"])]
    Int64,
    #[value(aliases = ["uint", "ULNG"])]
    Uint32,
    #[value(aliases = ["ullong", "ULLG"])]
    Uint64,
    #[value(alias = "RAWT")]
    Raw,
}

impl Type {
    /// Returns the library's kind for this type.
    pub fn kind(self) -> Kind {
        match self {
            Type::String => Kind::Text,
            Type::Mime => Kind::Mime,
            Type::Int32 => Kind::Int32,
            Type::Int64 => Kind::Int64,
            Type::Uint32 => Kind::Uint32,
            Type::Uint64 => Kind::Uint64,
            Type::Raw => Kind::Raw,
        }
    }

    /// Parses the bytes as a value of this type. Numbers are in decimal digits, and may have spaces around them.
    pub fn value(self, bytes: Vec<u8>) -> Result<Value, Failure> {
        let value = match self {
            Type::String => String::from_utf8(bytes).ok().map(Value::Text),
            Type::Mime => String::from_utf8(bytes).ok().map(Value::Mime),
            Type::Raw => Some(Value::Raw(bytes)),
            _ => std::str::from_utf8(&bytes)
                .ok()
                .and_then(|text| Value::integer(self.kind(), text.trim())),
        };
        value.ok_or_else(|| Failure::Value(kind_name(self.kind())))
    }
}

/// Returns a kind's name in the tools, which is its name in the protocol except for strings.
pub fn kind_name(kind: Kind) -> &'static str {
    match kind {
        Kind::Text => "string",
        _ => bestore_client::wire::kind_name(kind),
    }
}

/// Returns the tools' name for the kind that has this name in the protocol.
pub fn shown_name(protocol: &str) -> &str {
    match bestore_client::wire::kind_named(protocol) {
        Some(kind) => kind_name(kind),
        None => protocol,
    }
}

/// Returns the size of a value in BeOS, in bytes.
pub fn size(value: &Value) -> usize {
    let bytes = value.as_bytes().unwrap_or_default();
    value.kind().width().unwrap_or(bytes.len())
}

#[cfg(test)]
mod tests {
    use super::*;

    fn value(kind: Type, text: &str) -> Option<Value> {
        kind.value(text.as_bytes().to_vec()).ok()
    }

    #[test]
    fn values_have_to_fit_their_types() {
        assert_eq!(value(Type::Int32, " -5\n"), Some(Value::Int32(-5)));
        assert_eq!(value(Type::Int32, "2147483648"), None);
        assert_eq!(value(Type::Uint32, "-1"), None);
        assert_eq!(value(Type::Uint64, "18446744073709551615"), Some(u64::MAX.into()));
        assert_eq!(value(Type::Int64, "5 6"), None);
        assert_eq!(value(Type::String, " a\n"), Some(" a\n".into()));
        assert!(Type::Mime.value(vec![255]).is_err());
        assert_eq!(Type::Raw.value(vec![255]).ok(), Some(vec![255].into()));
    }
}
