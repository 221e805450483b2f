//! Cursors, in the form that the library takes and returns.

use super::length_of;
use crate::{Cursor, Kind, Order};
use bestore_sys::bes_cursor;

/// Converts the cursor to the form that the library takes. The library refuses a cursor whose key is longer than any in an index.
pub(crate) fn cursor_of(cursor: &Cursor) -> bes_cursor {
    let mut raw = bes_cursor::BEGINNING;
    if let Some((kind, key)) = cursor.key() {
        raw.kind = kind.code();
        raw.length = length_of(&key);
        if let Some(room) = raw.key.get_mut(..key.len()) {
            room.copy_from_slice(&key);
        }
    }
    raw
}

/// Converts the cursor that the library has written.
pub(crate) fn of_cursor(order: &Order, check: u32, raw: &bes_cursor) -> Cursor {
    let key = raw.key.get(..raw.length as usize).unwrap_or_default();
    Cursor::of_key(order.clone(), check, Kind::from_code(raw.kind), key)
}

#[cfg(test)]
mod tests {
    use super::*;

    #[test]
    fn a_cursor_goes_to_the_library_and_back() {
        let order = Order::by("n").descending();
        for value in [i64::MIN.into(), u32::MAX.into(), "größe".into(), crate::Value::from("")] {
            let mut cursor = Cursor::beginning(order.clone(), 7);
            assert_eq!(of_cursor(&order, 7, &cursor_of(&cursor)), cursor);
            cursor.move_to(value, u64::MAX);
            assert_eq!(of_cursor(&order, 7, &cursor_of(&cursor)), cursor);
        }
    }
}
