//! The tables of examples in the folder tests, which test the encoders of all languages.

/// Returns the lines of this table with this mark. Each line has the bytes, followed by the words that describe them.
pub(crate) fn lines(table: &str, mark: &str) -> Vec<(Vec<u8>, String)> {
    let path = concat!(env!("CARGO_MANIFEST_DIR"), "/../../tests/").to_owned() + table;
    let text = std::fs::read_to_string(path).unwrap();
    let lines = text.lines().filter(|line| !line.starts_with('#'));
    lines
        .filter_map(|line| line.split_once(mark))
        .map(|(bytes, words)| (bytes_of(bytes), words.into()))
        .collect()
}

/// Returns the bytes represented by words such as `00ff`, `61*63` and `-`.
pub(crate) fn bytes_of(words: &str) -> Vec<u8> {
    words.split_whitespace().flat_map(word_bytes).collect()
}

fn word_bytes(word: &str) -> Vec<u8> {
    let (digits, times) = word.split_once('*').unwrap_or((word, "1"));
    let byte = |at: usize| u8::from_str_radix(&digits[at..at + 2], 16).unwrap();
    let length = if digits == "-" { 0 } else { digits.len() };
    let bytes: Vec<u8> = (0..length).step_by(2).map(byte).collect();
    bytes.repeat(times.parse().unwrap())
}
