//! Names and texts, without a server.

use crate::memory::{fill, items, put, text};
use crate::session::guarded;
use crate::values::bes_name;
use bestore_client::escape;
use bestore_types::sys;
use std::os::raw::c_char;
use std::str;

/// Checks a name once, for use in bec_columns and bec_ordered. No client is needed.
/// [in] name      the name, name_length bytes
/// [out] checked  the checked name; unchanged after an error
/// BES_NOT_UTF8, BES_NAME_LENGTH, BES_HAS_NUL.
#[no_mangle]
pub unsafe extern "C" fn bec_check_name(name: *const u8, name_length: usize, checked: *mut bes_name) -> u32 {
    // SAFETY: the header says what the pointers are.
    guarded(|| unsafe {
        let name = match text(name, name_length) {
            Ok(name) => name.as_bytes(),
            Err(fault) => return fault.fault.error,
        };
        let mut bytes = [0; 64];
        match bytes.get_mut(..name.len()) {
            Some(begin) if (1..=63).contains(&name.len()) => begin.copy_from_slice(name),
            _ => return sys::BES_NAME_LENGTH,
        }
        if name.contains(&0) {
            return sys::BES_HAS_NUL;
        }
        let length = name.len() as u64;
        put(checked, bes_name { length, bytes });
        sys::BES_OK
    })
}

/// Escapes a string so that a query reads it literally, as a name, as a value or as part of a pattern. The result can be put inside
/// either kind of quotes. Unless the string is empty, it can also be used without quotes.
/// [out] bytes    the first bytes; at most bytes_room. No zero byte follows them. Twice the string's length is enough
/// [out] count    how many bytes there are; 0 after an error
/// BES_NOT_UTF8. A string with a zero byte can't be used in any query.
#[no_mangle]
pub unsafe extern "C" fn bec_escape_bytes(
    string: *const u8,
    string_length: usize,
    bytes: *mut u8,
    bytes_room: usize,
    count: *mut u64,
) -> u32 {
    // SAFETY: the header says what the pointers are.
    guarded(|| unsafe {
        put(count, 0);
        match text(string, string_length) {
            Ok(string) => {
                let escaped = escape(string);
                fill(bytes, bytes_room, escaped.as_bytes());
                put(count, escaped.len() as u64);
                sys::BES_OK
            }
            Err(fault) => fault.fault.error,
        }
    })
}

/// Turns arbitrary bytes, such as a file name or a mail header, into text that a store accepts: each byte that isn't part of a UTF-8
/// character, and each zero byte, becomes a ?, and text that is too long is truncated after a whole character.
/// [out] out      the result and a zero byte, in at most `room` bytes: 256 for a value, 64 for a name
/// Returns how many bytes the result has, not counting the zero byte.
#[no_mangle]
pub unsafe extern "C" fn bec_to_utf8(
    string: *const c_char,
    string_length: usize,
    out: *mut c_char,
    room: usize,
) -> usize {
    let mut written = 0;
    // SAFETY: the header says what the pointers are.
    guarded(|| unsafe {
        let bytes = items(string.cast::<u8>(), string_length).unwrap_or_default();
        if let (Some(most), false) = (room.checked_sub(1), out.is_null()) {
            let valid = valid_text(bytes, most);
            fill(out.cast(), most, valid.as_bytes());
            put(out.add(valid.len()), 0);
            written = valid.len();
        }
        sys::BES_OK
    });
    written
}

/// Returns text of up to `most` bytes.
fn valid_text(mut bytes: &[u8], most: usize) -> String {
    let mut valid = String::new();
    while let Some(first) = bytes.first() {
        let character = (1..=4).find_map(|length| str::from_utf8(bytes.get(..length)?).ok());
        let next = match character {
            Some(character) if *first != 0 => character,
            _ => "?",
        };
        if valid.len() + next.len() > most {
            break;
        }
        valid.push_str(next);
        bytes = &bytes[if next == "?" { 1 } else { next.len() }..];
    }
    valid
}
