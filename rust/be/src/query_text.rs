//! The tokens and comparisons of a query as typed, with dates between `%` signs. The server never sees these dates.

/// The form of a token.
#[derive(Clone, Copy, Debug, PartialEq, Eq)]
pub enum Form {
    /// A date between `%` signs, in the position of a value.
    Date,
    /// A string in quotes.
    Quoted,
    Word,
    /// An operator such as `==`.
    Compares,
    /// A sign that combines or negates comparisons.
    Sign,
}

/// A token, with the byte offset at which it begins.
#[derive(Clone, Copy, Debug, PartialEq, Eq)]
pub struct Token<'a> {
    pub form: Form,
    pub text: &'a str,
    pub start: usize,
}

/// A name, an operator and a value.
#[derive(Clone, Copy, Debug, PartialEq, Eq)]
pub struct Comparison<'a> {
    pub name: Token<'a>,
    pub operator: Token<'a>,
    pub value: Token<'a>,
}

impl<'a> Token<'a> {
    pub fn end(&self) -> usize {
        self.start + self.text.len()
    }

    /// Returns the token's text without its quotes or `%` signs.
    pub fn inner(&self) -> &'a str {
        match self.form {
            Form::Quoted | Form::Date => &self.text[1..self.text.len() - 1],
            _ => self.text,
        }
    }

    fn is_text(&self) -> bool {
        matches!(self.form, Form::Word | Form::Quoted)
    }
}

/// Returns the tokens in a text, up to the first character that can't begin a token.
pub fn tokens(text: &str) -> Vec<Token<'_>> {
    let mut found: Vec<Token<'_>> = Vec::new();
    let mut at = 0;
    loop {
        at += text[at..].len() - text[at..].trim_start_matches([' ', '\t', '\n', '\r']).len();
        let may_be_date = found.last().map_or(false, |last| last.form == Form::Compares);
        match first_token(&text[at..], may_be_date) {
            Some((form, length)) => found.push(Token {
                form,
                text: &text[at..at + length],
                start: at,
            }),
            None => return found,
        }
        at += found.last().map_or(0, |last| last.text.len());
    }
}

/// Returns the form and the length of the token at the start of the text.
fn first_token(text: &str, may_be_date: bool) -> Option<(Form, usize)> {
    let rest = text.get(1..).unwrap_or_default();
    match text.as_bytes() {
        [b'%', ..] if may_be_date && rest.contains('%') => Some((Form::Date, rest.find('%')? + 2)),
        [quote @ (b'"' | b'\''), ..] => {
            Some((Form::Quoted, length_until(rest, |sign| sign == char::from(*quote))? + 2))
        }
        [b'=' | b'!' | b'<' | b'>', b'=', ..] => Some((Form::Compares, 2)),
        [b'=' | b'<' | b'>', ..] => Some((Form::Compares, 1)),
        [b'&', b'&', ..] | [b'|', b'|', ..] => Some((Form::Sign, 2)),
        [b'!' | b'(' | b')', ..] => Some((Form::Sign, 1)),
        _ => {
            let length =
                length_until(text, |sign| " \t\n\r\"'=!<>&|()".contains(sign)).unwrap_or_else(|| whole_length(text));
            (length > 0).then_some((Form::Word, length))
        }
    }
}

/// Returns how many bytes precede the first character for which `is_end` is true. A backslash escapes the character after it.
fn length_until(text: &str, is_end: impl Fn(char) -> bool) -> Option<usize> {
    let mut characters = text.char_indices();
    while let Some((at, character)) = characters.next() {
        match character {
            '\\' => drop(characters.next()),
            _ if is_end(character) => return Some(at),
            _ => {}
        }
    }
    None
}

/// Returns the length of a text, not counting a final backslash that escapes nothing.
fn whole_length(text: &str) -> usize {
    let backslashes = text.len() - text.trim_end_matches('\\').len();
    text.len() - backslashes % 2
}

/// Returns the comparisons in a valid query, from left to right.
pub fn comparisons(text: &str) -> Vec<Comparison<'_>> {
    let tokens = tokens(text);
    let three = tokens.windows(3).filter_map(|tokens| match tokens {
        [name, operator, value] => {
            let is_value = value.is_text() || value.form == Form::Date;
            let is_one = name.is_text() && operator.form == Form::Compares && is_value;
            let (name, operator, value) = (*name, *operator, *value);
            is_one.then_some(Comparison { name, operator, value })
        }
        _ => None,
    });
    three.collect()
}
