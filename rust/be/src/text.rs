//! Makes strings safe to show on a terminal.

use unicode_width::UnicodeWidthChar;

/// The maximum width, in columns, of the part of a query that an error shows.
const WIDTH: usize = 72;

/// Escapes everything in the text that a terminal would obey or hide: control characters and direction marks. Backslashes are escaped too,
/// so that different strings look different.
pub fn escaped(text: &str) -> String {
    let mut shown = String::with_capacity(text.len());
    for character in text.chars() {
        push_escaped(&mut shown, character);
    }
    shown
}

/// Escapes the same, but leaves backslashes as they are.
pub fn visible(text: &str) -> String {
    let mut shown = String::with_capacity(text.len());
    text.chars().for_each(|character| push_visible(&mut shown, character));
    shown
}

fn push_escaped(shown: &mut String, character: char) {
    match character {
        '\\' => shown.push_str("\\\\"),
        _ => push_visible(shown, character),
    }
}

fn push_visible(shown: &mut String, character: char) {
    match character {
        '\n' => shown.push_str("\\n"),
        '\r' => shown.push_str("\\r"),
        '\t' => shown.push_str("\\t"),
        '\0'..='\x1f' | '\x7f' => shown.push_str(&format!("\\x{:02x}", u32::from(character))),
        _ if character.is_control() || is_hidden(character) => {
            shown.push_str(&format!("\\u{{{:x}}}", u32::from(character)));
        }
        _ => shown.push(character),
    }
}

/// Escapes everything in the JSON that a terminal would obey or hide. Such characters can occur only in its strings.
pub fn escaped_json(json: &str) -> String {
    let mut shown = String::with_capacity(json.len());
    for character in json.chars() {
        match character.is_control() || is_hidden(character) {
            true => shown.push_str(&format!("\\u{:04x}", u32::from(character))),
            false => shown.push(character),
        }
    }
    shown
}

/// Returns whether the character is invisible but affects how others are shown, like direction marks and line separators.
fn is_hidden(character: char) -> bool {
    matches!(character, '\u{200b}'..='\u{200f}' | '\u{2028}'..='\u{202e}' | '\u{2060}'..='\u{206f}' | '\u{feff}')
}

/// Escapes all bytes except visible ASCII characters.
pub fn escaped_bytes(bytes: &[u8]) -> String {
    let mut shown = String::with_capacity(bytes.len());
    for byte in bytes {
        match byte {
            b'\\' => shown.push_str("\\\\"),
            b' '..=b'~' => shown.push(char::from(*byte)),
            _ => shown.push_str(&format!("\\x{byte:02x}")),
        }
    }
    shown
}

/// Returns how many columns the text takes on a terminal.
pub fn width(text: &str) -> usize {
    text.chars().map(|character| character.width().unwrap_or(0)).sum()
}

/// Returns two lines to show below a message: the part of the text around this byte, and a caret below the byte.
pub fn pointed(text: &str, offset: usize) -> String {
    let (line, column) = excerpt(text, offset);
    format!("\n  {line}\n  {:column$}^", "")
}

/// Returns the part of the text around this byte, on one line, and the byte's column in it.
fn excerpt(text: &str, offset: usize) -> (String, usize) {
    let pieces: Vec<(usize, String)> = text
        .char_indices()
        .map(|(at, character)| (at, visible(character.encode_utf8(&mut [0; 4]))))
        .collect();
    let at = pieces.partition_point(|(start, _)| *start < offset);
    let mut first = at;
    let mut columns = 0;
    while first > 0 && columns + width(&pieces[first - 1].1) <= WIDTH / 2 {
        first -= 1;
        columns += width(&pieces[first].1);
    }
    let mut line = String::from(if first > 0 { "…" } else { "" });
    let begun = width(&line);
    let mut last = first;
    while last < pieces.len() && width(&line) < WIDTH {
        line.push_str(&pieces[last].1);
        last += 1;
    }
    if last < pieces.len() {
        line.push('…');
    }
    (line, begun + columns)
}

/// Returns a hex dump of the bytes, 16 per line: the offset, the bytes in hexadecimal, and their ASCII characters.
pub fn hexadecimal(bytes: &[u8]) -> Vec<String> {
    let line = |(index, part): (usize, &[u8])| {
        let digits: Vec<_> = part.iter().map(|byte| format!("{byte:02x}")).collect();
        let seen = |byte: &u8| {
            if matches!(byte, b' '..=b'~') {
                char::from(*byte)
            } else {
                '.'
            }
        };
        let seen: String = part.iter().map(seen).collect();
        format!("{:04x}  {:47}  {seen}", 16 * index, digits.join(" "))
    };
    bytes.chunks(16).enumerate().map(line).collect()
}

#[cfg(test)]
mod tests {
    use super::*;

    #[test]
    fn what_a_terminal_obeys_is_escaped() {
        assert_eq!(escaped("a\u{1b}[2J\n\u{9b}\u{202e}é\\"), r"a\x1b[2J\n\u{9b}\u{202e}é\\");
        assert_eq!(escaped_bytes(b"a\\\0\xff"), r"a\\\x00\xff");
    }

    #[test]
    fn json_stays_the_same_json() {
        assert_eq!(
            escaped_json("{\"a\":\"\u{9b}\u{202e}é\\n\"}"),
            r#"{"a":"\u009b\u202eé\n"}"#
        );
    }

    #[test]
    fn the_column_counts_columns_and_not_bytes() {
        assert_eq!(excerpt("a==1 b", 5), ("a==1 b".into(), 5));
        assert_eq!(excerpt("é==漢 b", 8), ("é==漢 b".into(), 6));
        assert_eq!(excerpt("a\n==", 4), (r"a\n==".into(), 5));
        assert_eq!(excerpt("a", 99), ("a".into(), 1));
        assert_eq!(excerpt("", 0), (String::new(), 0));
    }

    #[test]
    fn a_long_text_is_cut_around_the_byte() {
        let text = format!("{}!{}", "a".repeat(100), "b".repeat(100));
        let (line, column) = excerpt(&text, 100);
        assert_eq!(line.chars().nth(column), Some('!'));
        assert_eq!(width(&line), WIDTH + 1);
        assert!(line.starts_with("…a") && line.ends_with("b…"));
        let (line, column) = excerpt(&text, 201);
        assert_eq!((line.ends_with('b'), column), (true, width(&line)));
    }

    #[test]
    fn bytes_are_shown_as_lines() {
        let lines = hexadecimal(b"0123456789abcdef\0A");
        assert_eq!(
            lines[0],
            "0000  30 31 32 33 34 35 36 37 38 39 61 62 63 64 65 66  0123456789abcdef"
        );
        assert!(lines[1].starts_with("0010  00 41  ") && lines[1].ends_with("  .A"));
        assert!(hexadecimal(b"").is_empty());
    }
}
