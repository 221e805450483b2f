//! Tokens of batches.

use serde::de::{self, Deserialize, Deserializer};
use serde::Serialize;

/// The maximum number of bytes in a token.
const MOST: usize = 64;

/// A string of 1 to 64 bytes, none of them zero, that makes it safe to resend a batch. The client chooses a different token for each
/// batch. A database couldn't store a zero byte.
#[derive(Clone, Debug, PartialEq, Eq, Serialize)]
#[serde(transparent)]
pub struct Token(String);

impl Token {
    /// Returns a token with this text, or `None` if the text is empty, longer than 64 bytes, or has a zero byte.
    #[must_use]
    pub fn new(text: impl Into<String>) -> Option<Self> {
        let text = text.into();
        ((1..=MOST).contains(&text.len()) && !text.contains('\0')).then_some(Self(text))
    }

    /// Returns the token's text.
    #[must_use]
    pub fn as_str(&self) -> &str {
        &self.0
    }
}

impl<'de> Deserialize<'de> for Token {
    fn deserialize<D: Deserializer<'de>>(from: D) -> Result<Self, D::Error> {
        let text = String::deserialize(from)?;
        let length = text.len();
        Self::new(text).ok_or_else(|| match length {
            1..=MOST => de::Error::custom(format!("a token has 1 to {MOST} bytes, none of them zero")),
            _ => de::Error::custom(format!("a token has 1 to {MOST} bytes; this one has {length}")),
        })
    }
}

#[cfg(test)]
mod tests {
    use super::*;

    #[test]
    fn a_token_has_1_to_64_bytes() {
        for (length, is_good) in [(0, false), (1, true), (64, true), (65, false)] {
            assert_eq!(Token::new("a".repeat(length)).is_some(), is_good, "{length}");
            let line = format!("\"{}\"", "a".repeat(length));
            assert_eq!(serde_json::from_str::<Token>(&line).is_ok(), is_good, "{length}");
        }
        assert!(Token::new("a\0").is_none() && serde_json::from_str::<Token>(r#""\u0000""#).is_err());
        let error = serde_json::from_str::<Token>(&format!("\"{}\"", "ä".repeat(33))).unwrap_err();
        assert!(error
            .to_string()
            .starts_with("a token has 1 to 64 bytes; this one has 66"));
    }
}
