//! Converts a mail's headers to attributes with the names that BeOS uses.

use super::encoded_words::{decoded, text_of};
use bestore_types::Value;
use chrono::DateTime;
use std::ffi::OsStr;
use std::os::unix::ffi::OsStrExt;
use std::path::Path;

/// The type that BeOS uses for mails.
pub const TYPE: &str = "text/x-email";

/// How many bytes of a mail to read. Any headers beyond that are ignored.
pub const HEAD: usize = 1 << 18;

/// The headers that are copied to attributes unchanged, with the names of those attributes.
const ATTRIBUTES: [(&str, &str); 5] = [
    ("from", "MAIL:from"),
    ("to", "MAIL:to"),
    ("cc", "MAIL:cc"),
    ("reply-to", "MAIL:reply"),
    ("subject", "MAIL:subject"),
];

/// The folder of a Maildir that contains the file.
#[derive(Clone, Copy, Debug, PartialEq, Eq)]
pub enum Side {
    New,
    Current,
}

impl Side {
    /// Recognises a Maildir folder: it is named `cur` or `new`, and has a `tmp` next to it.
    pub fn of_folder(folder: &Path) -> Option<Self> {
        let side = match folder.file_name()?.as_bytes() {
            b"cur" => Side::Current,
            b"new" => Side::New,
            _ => return None,
        };
        let maildir = folder.parent()?;
        let all = ["cur", "new", "tmp"].iter().all(|name| maildir.join(name).is_dir());
        all.then_some(side)
    }

    /// Returns the mail's status. A mail has been read if it is in `cur` and its name has the flag `S`.
    fn status(self, name: &OsStr) -> &'static str {
        let name = name.as_bytes();
        let flags = name
            .windows(3)
            .rposition(|part| part == b":2,")
            .map(|at| &name[at + 3..]);
        match self == Side::Current && flags.map_or(false, |flags| flags.contains(&b'S')) {
            true => "Read",
            false => "New",
        }
    }
}

/// Returns the attributes of a mail that begins with these bytes.
pub fn attributes(begin: &[u8], side: Option<Side>, name: &OsStr) -> Vec<(&'static str, Value)> {
    let headers = headers(begin);
    let first = |wanted: &str| headers.iter().find(|(name, _)| name == wanted).map(|(_, value)| value);
    let mut values: Vec<(&'static str, Value)> = Vec::new();
    for (header, attribute) in ATTRIBUTES {
        values.extend(first(header).map(|value| (attribute, cut(&decoded(value)).into())));
    }
    values.extend(
        first("from")
            .and_then(|from| name_of(from))
            .map(|name| ("MAIL:name", cut(&name).into())),
    );
    values.extend(
        first("date")
            .and_then(|date| seconds(date))
            .map(|when| ("MAIL:when", when.into())),
    );
    values.extend(side.map(|side| ("MAIL:status", side.status(name).into())));
    values
}

/// Returns as much of a text as fits into a value, leaving out bytes that a value can't contain.
pub fn cut(text: &str) -> String {
    let mut kept = String::new();
    for character in text.chars().filter(|character| *character != '\0') {
        if kept.len() + character.len_utf8() > 255 {
            break;
        }
        kept.push(character);
    }
    kept
}

/// Returns the headers, with their names in lower case. Lines that aren't headers are skipped.
fn headers(begin: &[u8]) -> Vec<(String, String)> {
    let mut headers: Vec<(String, Vec<u8>)> = Vec::new();
    for line in begin.split(|byte| *byte == b'\n') {
        let line = line.strip_suffix(b"\r").unwrap_or(line);
        match (line.first(), headers.last_mut()) {
            (None, _) => break,
            (Some(b' ' | b'\t'), Some((_, value))) => {
                value.push(b' ');
                value.extend_from_slice(line);
            }
            _ => headers.extend(header(line)),
        }
    }
    let in_text = |(name, value): (String, Vec<u8>)| {
        let text = text_of(&value);
        let words: Vec<&str> = text.split_whitespace().collect();
        (name, words.join(" "))
    };
    headers.into_iter().map(in_text).collect()
}

fn header(line: &[u8]) -> Option<(String, Vec<u8>)> {
    let colon = line.iter().position(|byte| *byte == b':')?;
    let name = std::str::from_utf8(&line[..colon]).ok()?.trim_end();
    let is_name = !name.is_empty() && name.bytes().all(|byte| (b'!'..=b'~').contains(&byte));
    is_name.then(|| (name.to_ascii_lowercase(), line[colon + 1..].to_vec()))
}

/// Returns the name that precedes an address in angle brackets.
fn name_of(from: &str) -> Option<String> {
    let (before, _) = from.split_once('<')?;
    let before = before.trim();
    let quoted = before.strip_prefix('"').and_then(|rest| rest.strip_suffix('"'));
    let name = decoded(quoted.unwrap_or(before)).replace("\\\"", "\"");
    (!name.is_empty()).then_some(name)
}

/// Converts an RFC 5322 date to seconds since 1970. A wrong weekday is ignored.
fn seconds(date: &str) -> Option<i64> {
    let without_weekday = date.split_once(',').map_or(date, |(_, rest)| rest);
    let without_comment = without_weekday
        .split_once('(')
        .map_or(without_weekday, |(time, _)| time);
    let time = DateTime::parse_from_rfc2822(without_comment.trim()).ok()?;
    Some(time.timestamp())
}

#[cfg(test)]
mod tests {
    use super::*;

    fn read(head: &[u8]) -> Vec<(&'static str, Value)> {
        attributes(head, None, OsStr::new("1"))
    }

    fn value(head: &[u8], name: &str) -> Option<String> {
        let values = read(head);
        let found = values.iter().find(|(attribute, _)| *attribute == name);
        found.map(|(_, value)| value.as_str().map_or_else(|| value.to_string(), String::from))
    }

    #[test]
    fn headers_become_attributes() {
        let head = b"Received: x\r\nFrom: \"Ada L.\" <ada@example.org>\r\nTO: bob@example.org,\r\n\tcy@example.org\r\n\
                     Subject: =?utf-8?q?Gr=C3=BC=C3=9Fe?=\r\nDate: Thu, 1 Jan 1970 01:00:05 +0100 (CET)\r\n\r\nSubject: no";
        assert_eq!(
            value(head, "MAIL:from").as_deref(),
            Some("\"Ada L.\" <ada@example.org>")
        );
        assert_eq!(value(head, "MAIL:name").as_deref(), Some("Ada L."));
        assert_eq!(
            value(head, "MAIL:to").as_deref(),
            Some("bob@example.org, cy@example.org")
        );
        assert_eq!(value(head, "MAIL:subject").as_deref(), Some("Grüße"));
        assert_eq!(value(head, "MAIL:when").as_deref(), Some("5"));
        assert_eq!(value(head, "MAIL:status"), None);
    }

    #[test]
    fn broken_heads_lose_nothing_else() {
        let head =
            b" begins so\nno header\n: empty\n\xff: no name\nSubject: gr\xfc\xdfe\nDate: yesterday\nFrom: <a@b>\n";
        assert_eq!(value(head, "MAIL:subject").as_deref(), Some("grüße"));
        assert_eq!(value(head, "MAIL:from").as_deref(), Some("<a@b>"));
        assert_eq!((value(head, "MAIL:when"), value(head, "MAIL:name")), (None, None));
        assert!(read(b"").is_empty() && read(b"\n\n").is_empty() && read(&[0; 1000]).is_empty());
    }

    #[test]
    fn dates_of_other_forms_are_read() {
        for (date, when) in [
            ("1 Jan 70 00:00:07 GMT", Some(7)),
            ("Mon, 01 Jan 1970 00:00 +0000", Some(0)),
            ("Thu, 1 Jan 1970 00:00:00 -0000", Some(0)),
            ("1970-01-01", None),
            ("", None),
            ("32 Jan 1970 00:00:00 GMT", None),
        ] {
            assert_eq!(seconds(date), when, "{date}");
        }
    }

    #[test]
    fn a_long_text_is_cut_between_characters() {
        assert_eq!(cut(&"é".repeat(200)).len(), 254);
        assert_eq!(cut("a\0b"), "ab");
    }

    #[test]
    fn a_mail_was_read_if_it_has_the_flag() {
        let status = |side: Side, name: &str| side.status(OsStr::new(name));
        assert_eq!(status(Side::Current, "1.a:2,FS"), "Read");
        assert_eq!(status(Side::Current, "1.S:2,F"), "New");
        assert_eq!(status(Side::Current, "S"), "New");
        assert_eq!(status(Side::New, "1:2,S"), "New");
    }
}
