//! Patterns that match a string regardless of case.

use crate::raw;

/// Returns a pattern that matches the text in upper or lower case, under Unicode simple case folding. All other characters match
/// themselves.
///
/// ```
/// assert_eq!(bestore::any_case("Ab*"), r"[aA][bB]\*");
/// ```
///
/// # Panics
/// Panics if memory runs out.
#[must_use]
pub fn any_case(text: &str) -> String {
    let pattern = raw::any_case(text).expect("memory runs out");
    String::from_utf8(pattern).expect("the library writes UTF-8")
}

#[cfg(test)]
mod tests {
    use super::*;

    #[test]
    fn letters_of_one_case_match_themselves() {
        assert_eq!(any_case("漢1é"), "漢1[éÉ]");
        assert_eq!(any_case("GÜNTHER"), any_case("Günther"));
    }
}
