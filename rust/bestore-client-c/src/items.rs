//! Predicates: queries as lists of items in reverse Polish order, and the texts that stand for them.

use crate::memory::{self, fill, put};
use crate::session::guarded;
use crate::values::bes_item;
use crate::writes::check_text;
use bestore_types::sys;
use std::str;

/// The maximum number of comparisons, and of things on the stack.
const COMPARISONS: usize = 256;
const THINGS: usize = 64;

/// An error number, and the index of the item that causes it.
type Refused = (u32, usize);

/// What is on the stack.
enum Thing<'a> {
    Attribute(&'a str),
    Value(String),
    Query(Tree<'a>),
}

/// A query. Its comparisons have the operators' numbers.
enum Tree<'a> {
    Comparison(&'a str, u32, Literal),
    Join(Box<Tree<'a>>, u32, Box<Tree<'a>>),
}

/// What an attribute is compared with: a text as it is, or a pattern's text.
enum Literal {
    Text(String),
    Pattern(String),
}

/// A tree's place in the text of another, which decides whether it needs parentheses.
#[derive(Clone, Copy, PartialEq, Eq)]
enum Place {
    Side,
    Part,
    Operand,
}

/// Returns the operator that is true where the other isn't.
fn opposite(operator: u32) -> u32 {
    match operator {
        sys::BES_ITEM_EQ => sys::BES_ITEM_NE,
        sys::BES_ITEM_NE => sys::BES_ITEM_EQ,
        sys::BES_ITEM_LT => sys::BES_ITEM_GE,
        sys::BES_ITEM_GE => sys::BES_ITEM_LT,
        sys::BES_ITEM_GT => sys::BES_ITEM_LE,
        sys::BES_ITEM_LE => sys::BES_ITEM_GT,
        sys::BES_ITEM_AND => sys::BES_ITEM_OR,
        _ => sys::BES_ITEM_AND,
    }
}

fn sign_of(operator: u32) -> &'static str {
    match operator {
        sys::BES_ITEM_EQ => "==",
        sys::BES_ITEM_NE => "!=",
        sys::BES_ITEM_LT => "<",
        sys::BES_ITEM_LE => "<=",
        sys::BES_ITEM_GT => ">",
        _ => ">=",
    }
}

impl Tree<'_> {
    /// Turns the tree into its complement.
    fn turn(&mut self) {
        match self {
            Tree::Comparison(_, operator, _) => *operator = opposite(*operator),
            Tree::Join(left, operator, right) => {
                *operator = opposite(*operator);
                left.turn();
                right.turn();
            }
        }
    }

    fn write(&self, text: &mut String, place: Place) {
        match self {
            Tree::Comparison(name, operator, literal) => {
                text.push('"');
                push_escaped(text, name);
                text.push('"');
                text.push_str(sign_of(*operator));
                text.push('"');
                match literal {
                    Literal::Text(value) => push_escaped(text, value),
                    Literal::Pattern(pattern) => push_pattern(text, pattern),
                }
                text.push('"');
            }
            Tree::Join(left, operator, right) => {
                let is_and = *operator == sys::BES_ITEM_AND;
                let (sign, of_left, of_right) = match is_and {
                    true => (" && ", Place::Part, Place::Operand),
                    false => (" || ", Place::Side, Place::Part),
                };
                let is_grouped = if is_and {
                    place == Place::Operand
                } else {
                    place != Place::Side
                };
                text.push_str(if is_grouped { "(" } else { "" });
                left.write(text, of_left);
                text.push_str(sign);
                right.write(text, of_right);
                text.push_str(if is_grouped { ")" } else { "" });
            }
        }
    }
}

/// Appends a string with a backslash before each quote and each backslash.
fn push_escaped(text: &mut String, string: &str) {
    for character in string.chars() {
        if matches!(character, '"' | '\\') {
            text.push('\\');
        }
        text.push(character);
    }
}

/// Appends a pattern as it is, but with a backslash before each quote, and with both characters of a backslash that is the pattern's
/// last.
fn push_pattern(text: &mut String, pattern: &str) {
    let mut characters = pattern.chars();
    while let Some(character) = characters.next() {
        match character {
            '"' => text.push_str("\\\""),
            '\\' => {
                text.push('\\');
                text.extend(characters.next());
            }
            other => text.push(other),
        }
    }
}

/// Returns a pattern that matches this string.
fn literally(string: &str) -> String {
    let mut pattern = String::with_capacity(string.len());
    for character in string.chars() {
        if matches!(character, '*' | '?' | '[' | '\\') {
            pattern.push('\\');
        }
        pattern.push(character);
    }
    pattern
}

/// Returns whether each set in the pattern is closed, isn't empty, and has ranges that ascend, and something follows each backslash.
fn is_pattern(pattern: &str) -> bool {
    let mut rest = pattern.chars();
    while let Some(character) = rest.next() {
        let is_valid = match character {
            '\\' => rest.next().is_some(),
            '[' => match set_end(rest.as_str()) {
                Some(end) => {
                    rest = end.chars();
                    true
                }
                None => false,
            },
            _ => true,
        };
        if !is_valid {
            return false;
        }
    }
    true
}

/// Returns what follows a set, which begins after its `[`; or `None` if it isn't valid.
fn set_end(set: &str) -> Option<&str> {
    let mut rest = set.strip_prefix('^').unwrap_or(set).chars();
    let mut is_empty = true;
    loop {
        let first = match rest.next()? {
            ']' if is_empty => return None,
            ']' => return Some(rest.as_str()),
            '\\' => rest.next()?,
            other => other,
        };
        is_empty = false;
        let mut after = rest.clone();
        // A `-` at the end of the set stands for itself.
        if after.next() == Some('-') && !after.as_str().starts_with(']') {
            let last = match after.next()? {
                '\\' => after.next()?,
                other => other,
            };
            if last < first {
                return None;
            }
            rest = after;
        }
    }
}

/// Checks an item, and returns the text in its bytes.
fn text_in<'a>(item: &bes_item, bytes: &'a [u8]) -> Result<&'a str, u32> {
    let (at, length) = (item.at as usize, item.length as usize);
    let part = bytes.get(at..at + length).ok_or(sys::BES_BAD_PART)?;
    match item.kind {
        sys::BES_ITEM_ATTRIBUTE => check_text(part, 1..=63, sys::BES_NAME_LENGTH)?,
        sys::BES_ITEM_TEXT if str::from_utf8(part).is_err() => return Err(sys::BES_NOT_UTF8),
        kind if kind > sys::BES_ITEM_NOT => return Err(sys::BES_NO_ITEM),
        _ => {}
    }
    Ok(str::from_utf8(part).unwrap_or_default())
}

/// The things that the items have built so far.
#[derive(Default)]
struct Stack<'a> {
    things: Vec<Thing<'a>>,
    comparisons: usize,
}

impl<'a> Stack<'a> {
    fn take(&mut self, item: &bes_item, text: &'a str) -> Result<(), u32> {
        let thing = match item.kind {
            sys::BES_ITEM_ATTRIBUTE => Thing::Attribute(text),
            sys::BES_ITEM_TEXT if text.contains('\0') => return Err(sys::BES_BAD_RPN),
            sys::BES_ITEM_TEXT => Thing::Value(text.into()),
            sys::BES_ITEM_INT64 => Thing::Value((item.number as i64).to_string()),
            sys::BES_ITEM_UINT64 => Thing::Value(item.number.to_string()),
            sys::BES_ITEM_AND | sys::BES_ITEM_OR => Thing::Query(self.join(item.kind)?),
            sys::BES_ITEM_NOT => Thing::Query(self.turn()?),
            operator => Thing::Query(self.compare(operator)?),
        };
        self.things.push(thing);
        match self.things.len() > THINGS {
            true => Err(sys::BES_TOO_DEEP),
            false => Ok(()),
        }
    }

    fn compare(&mut self, operator: u32) -> Result<Tree<'a>, u32> {
        let (name, value) = match (self.things.pop(), self.things.pop()) {
            (Some(Thing::Value(value)), Some(Thing::Attribute(name))) => (name, value),
            _ => return Err(sys::BES_BAD_RPN),
        };
        let (operator, literal) = match operator {
            sys::BES_ITEM_CONTAINS => (sys::BES_ITEM_EQ, Literal::Pattern(format!("*{}*", literally(&value)))),
            sys::BES_ITEM_BEGINS_WITH => (sys::BES_ITEM_EQ, Literal::Pattern(literally(&value) + "*")),
            sys::BES_ITEM_ENDS_WITH => (sys::BES_ITEM_EQ, Literal::Pattern(format!("*{}", literally(&value)))),
            sys::BES_ITEM_EQ | sys::BES_ITEM_NE if !is_pattern(&value) => return Err(sys::BES_BAD_PATTERN),
            sys::BES_ITEM_EQ | sys::BES_ITEM_NE => (operator, Literal::Pattern(value)),
            _ => (operator, Literal::Text(value)),
        };
        self.comparisons += 1;
        match self.comparisons > COMPARISONS {
            true => Err(sys::BES_TOO_MANY),
            false => Ok(Tree::Comparison(name, operator, literal)),
        }
    }

    fn join(&mut self, operator: u32) -> Result<Tree<'a>, u32> {
        match (self.things.pop(), self.things.pop()) {
            (Some(Thing::Query(right)), Some(Thing::Query(left))) => {
                Ok(Tree::Join(Box::new(left), operator, Box::new(right)))
            }
            _ => Err(sys::BES_BAD_RPN),
        }
    }

    fn turn(&mut self) -> Result<Tree<'a>, u32> {
        match self.things.pop() {
            Some(Thing::Query(mut tree)) => {
                tree.turn();
                Ok(tree)
            }
            _ => Err(sys::BES_BAD_RPN),
        }
    }
}

/// Returns the text of the query that the items build.
fn text_of_items(items: &[bes_item], bytes: &[u8]) -> Result<String, Refused> {
    let mut texts = Vec::with_capacity(items.len());
    for (index, item) in items.iter().enumerate() {
        texts.push(text_in(item, bytes).map_err(|error| (error, index))?);
    }
    let mut stack = Stack::default();
    for (index, (item, text)) in items.iter().zip(texts).enumerate() {
        stack.take(item, text).map_err(|error| (error, index))?;
    }
    match (stack.things.pop(), stack.things.pop()) {
        (Some(Thing::Query(tree)), None) => {
            let mut text = String::new();
            tree.write(&mut text, Place::Side);
            Ok(text)
        }
        _ => Err((sys::BES_BAD_RPN, items.len())),
    }
}

/// Writes the text of a query that is given as items in reverse Polish order, as bes_query_items takes them. Every call that takes a
/// query takes this text. No client is needed.
/// [in] items     an array of items_count items
/// [in] bytes     the bytes that contain their names and text values
/// [out] query    the first bytes of the text; at most query_room. No zero byte follows them.
/// [out] count    how many bytes the text has; after an error, the index of an item
/// BES_BAD_PART, BES_NOT_UTF8, BES_NAME_LENGTH, BES_HAS_NUL, BES_NO_ITEM: count is the index of the first invalid item.
/// BES_BAD_RPN, BES_BAD_PATTERN: count is the index of the first item that makes the list invalid, or items_count if that shows only at
/// the end of the list. BES_TOO_MANY, BES_TOO_DEEP. A server returns BES_TOO_LONG for a text of more than 4,096 bytes.
#[no_mangle]
pub unsafe extern "C" fn bec_items_text(
    items: *const bes_item,
    items_count: usize,
    bytes: *const u8,
    bytes_count: usize,
    query: *mut u8,
    query_room: usize,
    count: *mut u64,
) -> u32 {
    // SAFETY: the header says what the pointers are.
    guarded(|| unsafe {
        put(count, 0);
        let given = memory::items(items, items_count).and_then(|items| Ok((items, memory::items(bytes, bytes_count)?)));
        let (items, bytes) = match given {
            Ok(given) => given,
            Err(fault) => return fault.fault.error,
        };
        match text_of_items(items, bytes) {
            Ok(text) => {
                fill(query, query_room, text.as_bytes());
                put(count, text.len() as u64);
                sys::BES_OK
            }
            Err((error, index)) => {
                put(count, index as u64);
                error
            }
        }
    })
}
