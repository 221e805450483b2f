//! Orders, and the positions in them at which pages begin.

use crate::{Error, Kind, Result, Value};
use std::fmt;
use std::str::FromStr;

/// An order of nodes: by their values in an index, then by node number among equal values. Nodes without a value in the index are left out.
///
/// ```
/// let newest_first = bestore_types::Order::by("MAIL:when").descending();
/// assert_eq!(newest_first.to_string(), "\"MAIL:when\" descending");
/// ```
#[derive(Clone, Debug, PartialEq, Eq, Hash)]
pub struct Order {
    name: String,
    is_descending: bool,
}

impl Order {
    /// Returns the ascending order by the index of this name.
    #[must_use]
    pub fn by(name: &str) -> Self {
        Self {
            name: name.into(),
            is_descending: false,
        }
    }

    /// Returns the exact reverse of the ascending order.
    #[must_use]
    pub fn descending(self) -> Self {
        Self {
            is_descending: true,
            ..self
        }
    }

    /// Returns the index's name.
    #[must_use]
    pub fn name(&self) -> &str {
        &self.name
    }

    /// Returns `true` if this is the reverse of the ascending order.
    #[must_use]
    pub fn is_descending(&self) -> bool {
        self.is_descending
    }
}

/// Formats the name in quotes, followed by the direction.
impl fmt::Display for Order {
    fn fmt(&self, f: &mut fmt::Formatter<'_>) -> fmt::Result {
        let direction = if self.is_descending { "descending" } else { "ascending" };
        write!(f, "{:?} {direction}", self.name)
    }
}

/// A position in a query's ordered result: the position of a [`Page`](crate::Page)'s last node. The next page begins just after it, even in
/// a later snapshot, whatever was written in between.
///
/// A cursor is formatted as a short string that [`str::parse`] accepts, so you can store it or send it elsewhere.
#[derive(Clone, Debug, PartialEq, Eq, Hash)]
pub struct Cursor {
    order: Order,
    /// The CRC-32 of the query's canonical text.
    check: u32,
    at: Option<Position>,
}

#[derive(Clone, Debug, PartialEq, Eq, Hash)]
struct Position {
    value: Value,
    node: u64,
}

impl Cursor {
    /// Returns the beginning of a result.
    #[must_use]
    pub fn beginning(order: Order, check: u32) -> Self {
        Self { order, check, at: None }
    }

    /// Returns the page's order.
    #[must_use]
    pub fn order(&self) -> &Order {
        &self.order
    }

    /// Returns the value that the page's last node has in the index, or `None` at the beginning.
    #[must_use]
    pub fn value(&self) -> Option<&Value> {
        self.at.as_ref().map(|at| &at.value)
    }

    /// Returns the page's last node, or `None` at the beginning.
    #[must_use]
    pub fn node(&self) -> Option<u64> {
        self.at.as_ref().map(|at| at.node)
    }

    /// Moves the cursor to this node, which has this value in the index.
    pub fn move_to(&mut self, value: Value, node: u64) {
        self.at = Some(Position { value, node });
    }

    /// Returns a cursor with the same value but another node.
    #[must_use]
    pub fn with_node(&self, node: u64) -> Self {
        let mut cursor = self.clone();
        if let Some(at) = &mut cursor.at {
            at.node = node;
        }
        cursor
    }

    /// Returns an error if the cursor belongs to another order or another query.
    ///
    /// # Errors
    /// [`Error::BadCursor`].
    pub fn check_fits(&self, order: &Order, check: u32) -> Result<()> {
        if self.order != *order {
            return Err(Error::BadCursor(CursorFault::OtherOrder {
                cursor: self.order.clone(),
                page: order.clone(),
            }));
        }
        match self.check == check {
            true => Ok(()),
            false => Err(Error::BadCursor(CursorFault::OtherQuery)),
        }
    }

    /// Returns the index's kind and the last node's key in the index, or `None` at the beginning. Compared byte by byte, keys sort in this
    /// order.
    #[must_use]
    pub fn key(&self) -> Option<(Kind, Vec<u8>)> {
        let at = self.at.as_ref()?;
        Some((at.value.kind(), encode_key(&at.value, at.node)))
    }

    /// Returns the cursor after the node with this key in an index of this kind. Returns the beginning if there is no kind or the key isn't
    /// valid.
    #[must_use]
    pub fn of_key(order: Order, check: u32, kind: Option<Kind>, key: &[u8]) -> Self {
        let at = kind.and_then(|kind| decode_key(kind, key));
        Self { order, check, at }
    }
}

/// Why a page can't continue from a cursor.
#[non_exhaustive]
#[derive(Clone, Debug, PartialEq, Eq)]
pub enum CursorFault {
    /// The text isn't a valid cursor.
    Text,
    /// The cursor belongs to another order.
    OtherOrder {
        /// The cursor's order.
        cursor: Order,
        /// The order of the requested page.
        page: Order,
    },
    /// The cursor belongs to another query.
    OtherQuery,
    /// The index's kind has changed since the cursor was created.
    OtherKind {
        /// The index's name.
        name: String,
        /// The kind that the index had then.
        cursor: Kind,
        /// The kind that the index has now.
        index: Kind,
    },
}

impl fmt::Display for CursorFault {
    fn fmt(&self, f: &mut fmt::Formatter<'_>) -> fmt::Result {
        match self {
            CursorFault::Text => f.write_str("this text isn't a cursor: it is cut off or changed"),
            CursorFault::OtherOrder { cursor, page } => write!(
                f,
                "the cursor belongs to the order by {cursor}, but this page is in the order by {page}: \
                 keep the order, or begin without a cursor"
            ),
            CursorFault::OtherQuery => f.write_str(
                "the cursor belongs to another query: ask the query that it came from, or begin without a cursor",
            ),
            CursorFault::OtherKind { name, cursor, index } => write!(
                f,
                "the index {name:?} has the kind {index}, and had {cursor} when the cursor was made: \
                 begin without a cursor"
            ),
        }
    }
}

// A cursor's text encodes the following bytes in base64url, without padding: the format; 1 for descending order; the kind's number, or 0 at
// the beginning; the name's length; the name; the query's checksum; the key; and a checksum of everything before it.

/// The first byte that a cursor's text encodes.
const FORMAT: u8 = 1;

/// The maximum number of bytes that a cursor's text encodes, with the longest name and the longest key.
const LONGEST: usize = 4 + 63 + 4 + 264 + 4;

/// Returns a kind's number in a cursor's text, which is its position in [`Kind::ALL`], counting from 1.
fn kind_number(kind: Kind) -> u8 {
    let place = Kind::ALL.iter().position(|other| *other == kind).unwrap_or_default();
    place as u8 + 1
}

/// Formats the cursor's text.
impl fmt::Display for Cursor {
    fn fmt(&self, f: &mut fmt::Formatter<'_>) -> fmt::Result {
        let name = self.order.name.as_bytes();
        let kind = self.at.as_ref().map_or(0, |at| kind_number(at.value.kind()));
        let length = u8::try_from(name.len()).map_err(|_| fmt::Error)?;
        let mut bytes = vec![FORMAT, u8::from(self.order.is_descending), kind, length];
        bytes.extend_from_slice(name);
        bytes.extend_from_slice(&self.check.to_be_bytes());
        if let Some(at) = &self.at {
            bytes.extend(encode_key(&at.value, at.node));
        }
        let check = crc32(&bytes);
        bytes.extend_from_slice(&check.to_be_bytes());
        f.write_str(&to_base64(&bytes))
    }
}

impl FromStr for Cursor {
    type Err = Error;

    fn from_str(text: &str) -> Result<Self> {
        let found = of_base64(text).and_then(|bytes| read(&bytes));
        // Without this check, the unused bits of the last character could differ, so that one cursor could have several texts.
        let found = found.filter(|cursor| cursor.to_string() == text);
        found.ok_or(Error::BadCursor(CursorFault::Text))
    }
}

/// Returns the cursor that these bytes encode, if any.
fn read(bytes: &[u8]) -> Option<Cursor> {
    let (front, check) = split_last(bytes)?;
    if crc32(front) != check {
        return None;
    }
    let (head, rest) = (front.get(..4)?, front.get(4..)?);
    let [format, direction, number, length] = <[u8; 4]>::try_from(head).ok()?;
    if format != FORMAT || direction > 1 || !(1..=63).contains(&length) {
        return None;
    }
    let name = std::str::from_utf8(rest.get(..length.into())?).ok()?;
    let (check, key) = (rest.get(length.into()..)?.get(..4)?, &rest[usize::from(length) + 4..]);
    let at = match number {
        0 if key.is_empty() => None,
        0 => return None,
        _ => Some(decode_key(*Kind::ALL.get(usize::from(number) - 1)?, key)?),
    };
    Some(Cursor {
        order: Order {
            name: name.into(),
            is_descending: direction == 1,
        },
        check: u32::from_be_bytes(check.try_into().ok()?),
        at,
    })
}

/// Returns all bytes except the last four, and the last four as a number.
fn split_last(bytes: &[u8]) -> Option<(&[u8], u32)> {
    let (front, last) = bytes.split_at(bytes.len().checked_sub(4)?);
    Some((front, u32::from_be_bytes(last.try_into().ok()?)))
}

/// Returns the key for a value and a node in an index. Compared byte by byte, keys sort by value, then by node.
#[must_use]
pub fn encode_key(value: &Value, node: u64) -> Vec<u8> {
    let mut key = match (value, value.kind().width()) {
        (_, Some(width)) => in_order(value.kind(), width, value.number()).to_be_bytes()[8 - width..].to_vec(),
        (Value::Raw(bytes), _) => bytes.clone(),
        _ => [value.as_bytes().unwrap_or_default(), &[0]].concat(),
    };
    key.extend_from_slice(&node.to_be_bytes());
    key
}

/// Returns the number with its sign bit inverted if the kind is signed, so that the numbers sort correctly as bits. Calling this again
/// restores the number.
fn in_order(kind: Kind, width: usize, number: u64) -> u64 {
    match kind.least() {
        Some(0) | None => number,
        Some(_) => number ^ 1 << (8 * width - 1),
    }
}

/// Returns the value and the node for a key in an index of this kind.
fn decode_key(kind: Kind, key: &[u8]) -> Option<Position> {
    let (front, node) = key.split_at(key.len().checked_sub(8)?);
    let value = match (kind, kind.width()) {
        (Kind::Text, _) => Value::Text(text_of(front)?),
        (_, Some(width)) if front.len() == width => {
            let number = front.iter().fold(0, |number, byte| number << 8 | u64::from(*byte));
            Value::of_parts(kind, in_order(kind, width, number), &[])
        }
        _ => return None,
    };
    let node = u64::from_be_bytes(node.try_into().ok()?);
    Some(Position { value, node })
}

/// Returns the text before a final zero byte, if it is valid and contains no other zero byte.
fn text_of(front: &[u8]) -> Option<String> {
    let (last, text) = front.split_last()?;
    if *last != 0 || text.contains(&0) || text.len() > 255 {
        return None;
    }
    String::from_utf8(text.to_vec()).ok()
}

/// Returns the CRC-32 checksum defined in IEEE 802.3.
#[must_use]
pub fn crc32(bytes: &[u8]) -> u32 {
    const POLYNOMIAL: u32 = 0xedb8_8320;
    let step = |check: u32| check >> 1 ^ (POLYNOMIAL & (check & 1).wrapping_neg());
    let of_byte = |check: u32, byte: &u8| (0..8).fold(check ^ u32::from(*byte), |check, _| step(check));
    !bytes.iter().fold(!0, of_byte)
}

const DIGITS: &[u8; 64] = b"ABCDEFGHIJKLMNOPQRSTUVWXYZabcdefghijklmnopqrstuvwxyz0123456789-_";

fn to_base64(bytes: &[u8]) -> String {
    let mut text = String::with_capacity(bytes.len() * 4 / 3 + 2);
    for three in bytes.chunks(3) {
        let bits = three.iter().fold(0, |bits, byte| bits << 8 | u32::from(*byte)) << (8 * (3 - three.len()));
        for digit in 0..=three.len() {
            text.push(DIGITS[(bits >> (18 - 6 * digit) & 63) as usize].into());
        }
    }
    text
}

/// Returns the bytes that a text encodes, unless it is longer than any cursor's text.
fn of_base64(text: &str) -> Option<Vec<u8>> {
    if text.len() > LONGEST * 4 / 3 {
        return None;
    }
    let mut bytes = Vec::with_capacity(text.len() * 3 / 4);
    for four in text.as_bytes().chunks(4) {
        let mut bits = 0;
        for digit in four {
            bits = bits << 6 | DIGITS.iter().position(|other| other == digit)? as u32;
        }
        let three = (bits << (6 * (4 - four.len()))).to_be_bytes();
        bytes.extend_from_slice(&three[1..four.len()]);
    }
    Some(bytes)
}

#[cfg(test)]
mod tests {
    use super::*;

    fn example() -> Cursor {
        let order = Order::by("MAIL:when").descending();
        at(order, crc32(b"\"MAIL:to\"==\"ann\""), Value::Int64(1_700_000_000), 17)
    }

    fn at(order: Order, check: u32, value: Value, node: u64) -> Cursor {
        let mut cursor = Cursor::beginning(order, check);
        cursor.move_to(value, node);
        cursor
    }

    #[test]
    fn a_text_is_as_the_format_says() {
        // The Python tests check the same text.
        let text = "AQEDCU1BSUw6d2hlbrFkq6-AAAAAZVPxAAAAAAAAAAARURq1_A";
        assert_eq!(crc32(b"123456789"), 0xcbf4_3926);
        assert_eq!(example().to_string(), text);
        assert_eq!(text.parse::<Cursor>().unwrap(), example());
    }

    #[test]
    fn every_value_comes_back() {
        let long = "é".repeat(127) + "x";
        let texts = ["", "a", "größe", &long].map(Value::from);
        let numbers = [
            Value::from(i32::MIN),
            (-1_i32).into(),
            i64::MAX.into(),
            u32::MAX.into(),
            u64::MAX.into(),
        ];
        for value in texts.into_iter().chain(numbers) {
            let cursor = at(Order::by(&"n".repeat(63)), 7, value.clone(), u64::MAX);
            assert_eq!(cursor.to_string().parse::<Cursor>().unwrap(), cursor);
            let (kind, key) = cursor.key().unwrap();
            assert_eq!(Cursor::of_key(cursor.order.clone(), 7, Some(kind), &key), cursor);
            assert_eq!((cursor.value(), cursor.node()), (Some(&value), Some(u64::MAX)));
        }
        let beginning = Cursor::beginning(Order::by("n"), 7);
        assert_eq!(beginning.to_string().parse::<Cursor>().unwrap(), beginning);
    }

    #[test]
    fn keys_are_in_the_order_of_values_and_nodes() {
        let numbers = [i64::MIN, -1, 0, 1, i64::MAX].map(Value::from);
        let texts = ["", "a", "a\u{1}", "ab", "b", "é"].map(Value::from);
        for values in [&numbers[..], &texts[..]] {
            let keys: Vec<_> = values
                .iter()
                .flat_map(|value| [1, 2, 256].map(|node| encode_key(value, node)))
                .collect();
            assert!(keys.windows(2).all(|pair| pair[0] < pair[1]));
        }
    }

    #[test]
    fn a_text_that_is_cut_or_changed_is_refused() {
        let text = example().to_string();
        let is_refused = |text: &str| matches!(text.parse::<Cursor>(), Err(Error::BadCursor(CursorFault::Text)));
        assert!((0..text.len()).all(|length| is_refused(&text[..length])));
        assert!(is_refused(&format!("{text}A")) && is_refused("é") && is_refused(&"A".repeat(1 << 20)));
        for at in 0..text.len() {
            for digit in b"A7_" {
                let mut changed = text.clone().into_bytes();
                if std::mem::replace(&mut changed[at], *digit) != *digit {
                    assert!(is_refused(std::str::from_utf8(&changed).unwrap()), "{changed:?}");
                }
            }
        }
    }

    #[test]
    fn bytes_of_no_cursor_are_refused() {
        let read_with_check = |bytes: &[u8]| read(&[bytes, &crc32(bytes).to_be_bytes()].concat());
        let beginning = b"\x01\0\0\x01n\0\0\0\x07";
        assert!(read_with_check(beginning).is_some());
        for changed in [
            &b"\x02\0\0\x01n\0\0\0\x07"[..],
            b"\x01\x02\0\x01n\0\0\0\x07",
            b"\x01\0\0\0n\0\0\0\x07",
            b"\x01\0\0\x01\xff\0\0\0\x07",
            b"\x01\0\0\x01n\0\0\0\x07x",
            b"\x01\0\x02\x01n\0\0\0\x07\0\0\0\0\0\0\0\0\0\0\0",
            b"\x01\0\x01\x01n\0\0\0\x07a\0b\0\0\0\0\0\0\0\0\x01",
            b"\x01\0\x05\x01n\0\0\0\x07\0\0\0\0\0\0\0\x01",
            b"\x01\0\x08\x01n\0\0\0\x07\0\0\0\0\0\0\0\x01",
            b"\x01\0\0\x01n\0\0",
        ] {
            assert!(read_with_check(changed).is_none(), "{changed:?}");
        }
    }
}
