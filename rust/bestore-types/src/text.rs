//! Query texts: how to insert strings into them, and how to display them.

use crate::Kind;

/// Returns the text with a backslash before each character that is special in a query or a pattern.
///
/// The result stands for the text itself, both as a word in a query and between quotes. Quotes are needed only if the text is empty.
///
/// ```
/// assert_eq!(bestore_types::escape("[draft].txt"), r"\[draft\]\.txt");
/// ```
#[must_use]
pub fn escape(text: &str) -> String {
    let mut escaped = String::with_capacity(text.len() + 8);
    for character in text.chars() {
        if character.is_ascii() && !character.is_ascii_alphanumeric() {
            escaped.push('\\');
        }
        escaped.push(character);
    }
    escaped
}

/// Returns the query for everything in the index of this name, which is of this kind.
///
/// ```
/// use bestore_types::{all_in, Kind};
/// assert_eq!(all_in("MAIL:when", Kind::Int64), r#""MAIL\:when">="-9223372036854775808""#);
/// ```
#[must_use]
pub fn all_in(name: &str, kind: Kind) -> String {
    let name = escape(name);
    match kind.least() {
        Some(least) => format!("\"{name}\">=\"{least}\""),
        None => format!("\"{name}\"==\"*\""),
    }
}

/// Returns the text on one line and, on the next line, a caret under the character at this byte. If the text is long, only the part around
/// that character is shown.
///
/// ```
/// assert_eq!(bestore_types::caret("size<5 || [", 10), "  size<5 || [\n            ^");
/// ```
#[must_use]
pub fn caret(text: &str, offset: usize) -> String {
    with_caret(text, Some(column_at(text, offset)))
}

/// Returns the number of characters before this byte.
pub(crate) fn column_at(text: &str, offset: usize) -> usize {
    text.char_indices().take_while(|(at, _)| *at < offset).count()
}

/// The maximum number of characters shown before and after the position of the error.
pub(crate) const SHOWN: usize = 60;

/// Returns the text on one line and, if an index is given, a caret under the character with that index. If the text is long, only the part
/// around that character is shown.
pub(crate) fn with_caret(text: &str, column: Option<usize>) -> String {
    let first = column.unwrap_or(0).saturating_sub(SHOWN);
    let shown: String = text
        .chars()
        .skip(first)
        .take(2 * SHOWN)
        .map(|character| if character.is_control() { ' ' } else { character })
        .collect();
    match column {
        Some(column) => format!("  {shown}\n  {:1$}^", "", column - first),
        None => format!("  {shown}"),
    }
}

#[cfg(test)]
mod tests {
    use super::*;

    #[test]
    fn letters_and_digits_stay() {
        assert_eq!((escape(""), escape("aß1")), (String::new(), "aß1".into()));
    }

    #[test]
    fn the_query_for_an_index_has_its_least_value() {
        assert_eq!(all_in("a\"b", Kind::Text), r#""a\"b"=="*""#);
        assert_eq!(all_in("n", Kind::Uint64), r#""n">="0""#);
        assert_eq!(all_in("n", Kind::Int32), r#""n">="-2147483648""#);
    }
}
