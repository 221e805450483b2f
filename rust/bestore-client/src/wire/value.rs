//! Values as JSON.

use super::EXACT;
use bestore_types::{Kind, Value};
use serde::de::{self, Deserialize, Deserializer, MapAccess, Visitor};
use serde::ser::{Serialize, SerializeMap, Serializer};
use std::borrow::Cow;
use std::fmt;
use std::str::FromStr;

/// Returns a kind's name in the protocol.
#[must_use]
pub const fn kind_name(kind: Kind) -> &'static str {
    match kind {
        // surface.toml: names of kinds
        Kind::Text => "text",
        Kind::Int32 => "int32",
        Kind::Int64 => "int64",
        Kind::Mime => "mime",
        Kind::Raw => "raw",
        Kind::Uint32 => "uint32",
        Kind::Uint64 => "uint64",
        // surface.toml: end
    }
}

/// The error text for an unknown name.
// surface.toml: list of kinds
pub(super) const NO_KIND: &str = "no kind has this name; the kinds are text, int32, int64, mime, raw, uint32, uint64";
// surface.toml: end

/// Lists of bytes, as base64 with padding.
pub(super) mod blobs {
    use super::{raw, Text};
    use serde::de::{Deserializer, SeqAccess, Visitor};
    use serde::Serializer;
    use std::fmt;

    pub(in crate::wire) fn serialize<S: Serializer>(list: &[Vec<u8>], to: S) -> Result<S::Ok, S::Error> {
        to.collect_seq(list.iter().map(base64::encode))
    }

    pub(in crate::wire) fn deserialize<'de, D: Deserializer<'de>>(from: D) -> Result<Vec<Vec<u8>>, D::Error> {
        from.deserialize_seq(List)
    }

    struct List;

    impl<'de> Visitor<'de> for List {
        type Value = Vec<Vec<u8>>;

        fn expecting(&self, f: &mut fmt::Formatter<'_>) -> fmt::Result {
            f.write_str("a list of batches in base64")
        }

        fn visit_seq<A: SeqAccess<'de>>(self, mut list: A) -> Result<Self::Value, A::Error> {
            let mut read = Vec::new();
            while let Some(text) = list.next_element::<Text<'de>>()? {
                read.push(raw(text)?);
            }
            Ok(read)
        }
    }
}

/// Returns the kind with this name.
#[must_use]
pub fn kind_named(name: &str) -> Option<Kind> {
    Kind::ALL.into_iter().find(|kind| kind_name(*kind) == name)
}

/// A value in the protocol's form: strings and int64 values are plain JSON, and all other values carry the name of their kind.
#[derive(Clone, Debug, PartialEq, Eq)]
pub struct Json(pub Value);

impl Serialize for Json {
    fn serialize<S: Serializer>(&self, to: S) -> Result<S::Ok, S::Error> {
        match &self.0 {
            Value::Text(text) => to.serialize_str(text),
            Value::Int64(number) if number.unsigned_abs() <= EXACT => to.serialize_i64(*number),
            Value::Int64(number) => with_kind(to, Kind::Int64, &number.to_string()),
            Value::Int32(number) => with_kind(to, Kind::Int32, number),
            Value::Uint32(number) => with_kind(to, Kind::Uint32, number),
            Value::Uint64(number) if *number <= EXACT => with_kind(to, Kind::Uint64, number),
            Value::Uint64(number) => with_kind(to, Kind::Uint64, &number.to_string()),
            Value::Mime(text) => with_kind(to, Kind::Mime, text),
            Value::Raw(bytes) => with_kind(to, Kind::Raw, &base64::encode(bytes)),
        }
    }
}

fn with_kind<S: Serializer, T: Serialize>(to: S, kind: Kind, value: &T) -> Result<S::Ok, S::Error> {
    let mut map = to.serialize_map(Some(1))?;
    map.serialize_entry(kind_name(kind), value)?;
    map.end()
}

impl Json {
    /// Returns how many bytes of JSON the value takes, or slightly more.
    #[must_use]
    pub fn length(&self) -> usize {
        match &self.0 {
            Value::Text(text) | Value::Mime(text) => 12 + text.bytes().map(escaped_length).sum::<usize>(),
            Value::Raw(bytes) => 16 + bytes.len() * 4 / 3,
            _ => 36,
        }
    }
}

fn escaped_length(byte: u8) -> usize {
    match byte {
        0..=31 => 6,
        b'"' | b'\\' => 2,
        _ => 1,
    }
}

impl<'de> Deserialize<'de> for Json {
    fn deserialize<D: Deserializer<'de>>(from: D) -> Result<Self, D::Error> {
        from.deserialize_any(JsonVisitor)
    }
}

struct JsonVisitor;

impl<'de> Visitor<'de> for JsonVisitor {
    type Value = Json;

    fn expecting(&self, f: &mut fmt::Formatter<'_>) -> fmt::Result {
        f.write_str("a string, an integer, or an object with a kind and a value")
    }

    fn visit_str<E: de::Error>(self, text: &str) -> Result<Json, E> {
        Ok(Json(text.into()))
    }

    fn visit_string<E: de::Error>(self, text: String) -> Result<Json, E> {
        Ok(Json(text.into()))
    }

    fn visit_i64<E: de::Error>(self, number: i64) -> Result<Json, E> {
        Ok(Json(number.into()))
    }

    fn visit_u64<E: de::Error>(self, number: u64) -> Result<Json, E> {
        let number = i64::try_from(number)
            .map_err(|_| E::custom("the integer doesn't fit an int64; a larger one is written as {\"uint64\":5}"))?;
        Ok(Json(number.into()))
    }

    fn visit_map<A: MapAccess<'de>>(self, mut map: A) -> Result<Json, A::Error> {
        let name: Text<'_> = map.next_key()?.ok_or_else(|| de::Error::custom("a kind is missing"))?;
        let kind = kind_named(&name.0).ok_or_else(|| de::Error::custom(NO_KIND))?;
        let value = match kind {
            Kind::Text => Value::Text(map.next_value()?),
            Kind::Mime => Value::Mime(map.next_value()?),
            Kind::Raw => Value::Raw(raw(map.next_value::<Text<'_>>()?)?),
            Kind::Int32 => Value::Int32(map.next_value::<Integer<i32>>()?.0),
            Kind::Int64 => Value::Int64(map.next_value::<Integer<i64>>()?.0),
            Kind::Uint32 => Value::Uint32(map.next_value::<Integer<u32>>()?.0),
            Kind::Uint64 => Value::Uint64(map.next_value::<Integer<u64>>()?.0),
        };
        match map.next_key::<Text<'_>>()? {
            None => Ok(Json(value)),
            Some(_) => Err(de::Error::custom("a value has one kind")),
        }
    }
}

fn raw<E: de::Error>(text: Text<'_>) -> Result<Vec<u8>, E> {
    if text.0.len() % 4 != 0 {
        return Err(E::custom("bytes are base64 with padding, such as \"AP8=\""));
    }
    base64::decode(text.0.as_bytes()).map_err(|error| E::custom(format_args!("bytes are base64 with padding: {error}")))
}

/// A string, borrowed from the line if it contains no escapes.
#[derive(serde::Deserialize)]
pub(super) struct Text<'a>(#[serde(borrow)] pub(super) Cow<'a, str>);

/// What an integer of a given kind must look like in JSON.
const INTEGER: &str = "an integer in the kind's range, or its digits as a string, such as \"-5\"";

/// An integer, read from a JSON number or from a string of digits.
struct Integer<T>(T);

impl<'de, T> Deserialize<'de> for Integer<T>
where
    T: FromStr + ToString + TryFrom<i64> + TryFrom<u64>,
{
    fn deserialize<D: Deserializer<'de>>(from: D) -> Result<Self, D::Error> {
        from.deserialize_any(IntegerVisitor(std::marker::PhantomData))
    }
}

struct IntegerVisitor<T>(std::marker::PhantomData<T>);

impl<T> IntegerVisitor<T> {
    fn fitting<E: de::Error, F>(number: Result<T, F>) -> Result<Integer<T>, E> {
        number
            .map(Integer)
            .map_err(|_| E::custom(format_args!("the value has to be {INTEGER}")))
    }
}

impl<T> Visitor<'_> for IntegerVisitor<T>
where
    T: FromStr + ToString + TryFrom<i64> + TryFrom<u64>,
{
    type Value = Integer<T>;

    fn expecting(&self, f: &mut fmt::Formatter<'_>) -> fmt::Result {
        f.write_str(INTEGER)
    }

    fn visit_i64<E: de::Error>(self, number: i64) -> Result<Self::Value, E> {
        Self::fitting(T::try_from(number))
    }

    fn visit_u64<E: de::Error>(self, number: u64) -> Result<Self::Value, E> {
        Self::fitting(T::try_from(number))
    }

    fn visit_str<E: de::Error>(self, text: &str) -> Result<Self::Value, E> {
        Self::fitting(
            text.parse()
                .ok()
                .filter(|number: &T| number.to_string() == text)
                .ok_or(()),
        )
    }
}

#[cfg(test)]
mod tests {
    use super::*;

    fn there_and_back(value: Value, json: &str) {
        assert_eq!(serde_json::to_string(&Json(value.clone())).unwrap(), json);
        assert_eq!(serde_json::from_str::<Json>(json).unwrap().0, value);
        assert!(Json(value).length() >= json.len());
    }

    #[test]
    fn no_value_loses_anything() {
        there_and_back("Ada \u{1}\"é\\".into(), r#""Ada \u0001\"é\\""#);
        there_and_back((-5_i64).into(), "-5");
        there_and_back(9_007_199_254_740_991_i64.into(), "9007199254740991");
        there_and_back(i64::MAX.into(), r#"{"int64":"9223372036854775807"}"#);
        there_and_back(i64::MIN.into(), r#"{"int64":"-9223372036854775808"}"#);
        there_and_back(i32::MIN.into(), r#"{"int32":-2147483648}"#);
        there_and_back(u32::MAX.into(), r#"{"uint32":4294967295}"#);
        there_and_back(u64::MAX.into(), r#"{"uint64":"18446744073709551615"}"#);
        there_and_back(7_u64.into(), r#"{"uint64":7}"#);
        there_and_back(vec![0, 255].into(), r#"{"raw":"AP8="}"#);
        there_and_back(Value::Raw(vec![]), r#"{"raw":""}"#);
        there_and_back(Value::Mime("text/plain".into()), r#"{"mime":"text/plain"}"#);
    }

    #[test]
    fn more_forms_are_accepted() {
        for (json, value) in [
            (r#"{"text":"a"}"#, Value::from("a")),
            ("9223372036854775807", i64::MAX.into()),
            (r#"{"int64":9223372036854775807}"#, i64::MAX.into()),
            (r#"{"uint64":18446744073709551615}"#, u64::MAX.into()),
            (r#"{"int32":"-5"}"#, (-5_i32).into()),
        ] {
            assert_eq!(serde_json::from_str::<Json>(json).unwrap().0, value, "{json}");
        }
    }

    #[test]
    fn what_is_no_value_is_refused() {
        for json in [
            "1.5",
            "null",
            "true",
            "[]",
            "{}",
            "9223372036854775808",
            r#"{"int32":2147483648}"#,
            r#"{"uint32":-1}"#,
            r#"{"uint64":"-1"}"#,
            r#"{"int64":""}"#,
            r#"{"int64":"+5"}"#,
            r#"{"int64":"05"}"#,
            r#"{"int64":"-0"}"#,
            r#"{"int64":" 5"}"#,
            r#"{"int64":"5.0"}"#,
            r#"{"raw":"AP8"}"#,
            r#"{"raw":"AP9="}"#,
            r#"{"raw":"AP8=\n"}"#,
            r#"{"raw":"A"}"#,
            r#"{"raw":[1]}"#,
            r#"{"date":5}"#,
            r#"{"int32":1,"int64":1}"#,
            r#""\ud800""#,
        ] {
            assert!(serde_json::from_str::<Json>(json).is_err(), "{json}");
        }
    }
}
