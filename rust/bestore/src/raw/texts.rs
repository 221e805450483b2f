//! The library's calls on query texts, which need no handle.

use super::{check, whole, Answer};
use bestore_sys::{self as sys, bes_compared, bes_counts};

/// The maximum number of comparisons in a query.
const COMPARISONS: usize = 256;

/// Returns a pattern that matches the text in upper or lower case.
pub(crate) fn any_case(text: &str) -> Answer<Vec<u8>> {
    whole(12 * text.len(), |bytes, room, count| {
        // SAFETY: see the top of this module.
        unsafe { sys::bes_any_case_bytes(text.as_ptr(), text.len(), bytes, room, count) }
    })
}

/// The comparisons in a query's text, and the bytes of their names and values.
#[derive(Debug)]
pub(crate) struct Comparisons {
    pub(crate) list: Vec<bes_compared>,
    bytes: Vec<u8>,
}

impl Comparisons {
    /// Returns the name in a listed comparison.
    pub(crate) fn name(&self, one: &bes_compared) -> String {
        self.part(one.plain_name_at, one.plain_value_at)
    }

    /// Returns the value to compare with: a string without backslashes, or a pattern in its canonical form.
    pub(crate) fn value(&self, one: &bes_compared) -> String {
        self.part(one.plain_value_at, one.plain_end)
    }

    fn part(&self, from: u64, to: u64) -> String {
        let part = self.bytes.get(from as usize..to as usize).unwrap_or_default();
        String::from_utf8_lossy(part).into_owned()
    }
}

/// Returns the comparisons in a query, from left to right.
pub(crate) fn comparisons(text: &str) -> Answer<Comparisons> {
    let mut list = Vec::with_capacity(COMPARISONS.min(text.len()));
    let mut bytes = Vec::with_capacity(64 * list.capacity() + 4 * text.len());
    let (mut counts, mut place) = (bes_counts::default(), 0);
    // SAFETY: see the top of this module. The buffer has room for all comparisons, because each has at least one character.
    unsafe {
        let code = sys::bes_query_comparisons(
            text.as_ptr(),
            text.len(),
            &mut counts,
            list.as_mut_ptr(),
            list.capacity(),
            bytes.as_mut_ptr(),
            bytes.capacity(),
            &mut place,
        );
        check(code, place)?;
        list.set_len(list.capacity().min(counts.operations as usize));
        bytes.set_len(bytes.capacity().min(counts.bytes as usize));
    }
    Ok(Comparisons { list, bytes })
}
