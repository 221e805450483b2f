//! Encoded words in mail headers, as defined by RFC 2047.

use encoding_rs::{Encoding, WINDOWS_1252};
use std::borrow::Cow;

/// The maximum number of bytes in a word's text. A line of a mail has up to 998. Without a maximum, a header of many words without an end
/// would take seconds.
const MOST: usize = 4_096;

/// Decodes bytes as UTF-8 if they are valid UTF-8, and as windows-1252 otherwise.
pub fn text_of(bytes: &[u8]) -> Cow<'_, str> {
    match std::str::from_utf8(bytes) {
        Ok(text) => text.into(),
        Err(_) => WINDOWS_1252.decode_without_bom_handling(bytes).0,
    }
}

/// Decodes the encoded words in a text, leaving those that can't be decoded unchanged.
pub fn decoded(text: &str) -> String {
    let mut said = Said::default();
    let mut rest = text;
    while let Some(at) = rest.find("=?") {
        match Word::read(&rest[at..]) {
            Some((word, after)) => {
                said.word(&rest[..at], word);
                rest = after;
            }
            None => {
                said.text(&rest[..at + 2]);
                rest = &rest[at + 2..];
            }
        }
    }
    said.text(rest);
    said.text
}

/// An encoded word: its decoded bytes, and their character encoding.
struct Word {
    encoding: &'static Encoding,
    bytes: Vec<u8>,
}

impl Word {
    /// Parses `=?charset?encoding?text?=`, and returns the word and the rest of the text.
    fn read(text: &str) -> Option<(Self, &str)> {
        let (charset, rest) = text.strip_prefix("=?")?.split_once('?')?;
        let (form, rest) = rest.split_once('?')?;
        let near = &rest.as_bytes()[..rest.len().min(MOST)];
        let end = near.windows(2).position(|two| two == b"?=")?;
        let (content, after) = (&rest[..end], &rest[end + 2..]);
        if content.contains(' ') && !form.eq_ignore_ascii_case("q") {
            return None;
        }
        let label = charset.split('*').next()?;
        let encoding = Encoding::for_label(label.as_bytes())?;
        let bytes = match form {
            "b" | "B" => base64::decode_config(content.trim_end_matches('='), base64::STANDARD_NO_PAD).ok()?,
            "q" | "Q" => quoted(content)?,
            _ => return None,
        };
        Some((Self { encoding, bytes }, after))
    }
}

/// Decodes text in the `Q` encoding.
fn quoted(text: &str) -> Option<Vec<u8>> {
    let mut bytes = Vec::with_capacity(text.len());
    let mut left = text.bytes();
    while let Some(byte) = left.next() {
        bytes.push(match byte {
            b'_' => b' ',
            b'=' => {
                let digits = [left.next()?, left.next()?];
                u8::from_str_radix(std::str::from_utf8(&digits).ok()?, 16).ok()?
            }
            other => other,
        });
    }
    Some(bytes)
}

/// Collects the decoded text. Spaces between two encoded words are dropped, and a character may be split across the two words.
#[derive(Default)]
struct Said {
    text: String,
    last: Option<Word>,
}

impl Said {
    fn text(&mut self, text: &str) {
        if let Some(word) = self.last.take() {
            self.text
                .push_str(&word.encoding.decode_without_bom_handling(&word.bytes).0);
        }
        self.text.push_str(text);
    }

    fn word(&mut self, before: &str, word: Word) {
        let follows = self.last.is_some() && before.trim().is_empty();
        match &mut self.last {
            Some(last) if follows && last.encoding == word.encoding => last.bytes.extend(word.bytes),
            _ => {
                self.text(if follows { "" } else { before });
                self.last = Some(word);
            }
        }
    }
}

#[cfg(test)]
mod tests {
    use super::*;

    #[test]
    fn words_are_decoded() {
        for (encoded, text) in [
            ("=?ISO-8859-1?Q?Keld_J=F8rn?= <k@x>", "Keld Jørn <k@x>"),
            ("=?utf-8?B?w7w=?=", "ü"),
            ("=?utf-8?b?w7w?=", "ü"),
            ("a =?utf-8?q?b?= c", "a b c"),
            ("=?utf-8?q?a?= =?utf-8?q?b?=", "ab"),
            ("=?utf-8?q?a?= =?iso-8859-1?q?=FC?=", "aü"),
            ("=?utf-8?q?=C3?= =?utf-8?q?=BC?=", "ü"),
            ("=?utf-8*de?q?a?=", "a"),
            ("=?koi8-r?B?8NLJ18XU?=", "Привет"),
            ("=?iso-2022-jp?B?GyRCRnxLXBsoQg==?=", "日本"),
        ] {
            assert_eq!(decoded(encoded), text, "{encoded}");
        }
    }

    #[test]
    fn what_is_no_word_stays() {
        for text in [
            "",
            "=?",
            "=?utf-8",
            "=?utf-8?q?a",
            "=?none?q?a?=",
            "=?utf-8?x?a?=",
            "=?utf-8?q?=G0?=",
            "=?utf-8?q?=C?=",
            "=?utf-8?b?*?=",
            "a =? b ?= c",
            "é",
        ] {
            assert_eq!(decoded(text), text);
        }
        let endless = "=?utf-8?b?x".repeat(5_000);
        assert_eq!(decoded(&endless), endless);
        assert_eq!(decoded("=?=?utf-8?q?a?="), "=?a");
        assert_eq!(text_of(b"\xc3\xbc"), "ü");
        assert_eq!(text_of(b"\xfc"), "ü");
    }
}
