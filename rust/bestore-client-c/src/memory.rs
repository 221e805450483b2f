//! The caller's memory: what the pointers of a call refer to. A null pointer is accepted for nothing: for no items, and for something
//! that the caller doesn't want to know.

use crate::faults::Fault;
use bestore_types::sys;

/// Returns the items that the caller passes.
///
/// # Safety
/// Unless `at` is null, it points to `count` items that nothing changes during the call.
pub(crate) unsafe fn items<'a, T>(at: *const T, count: usize) -> Result<&'a [T], Fault> {
    match (at.is_null(), count) {
        (_, 0) => Ok(&[]),
        (true, _) => Err(Fault::of(sys::BES_BAD_PART)),
        // SAFETY: as above.
        (false, _) => Ok(unsafe { std::slice::from_raw_parts(at, count) }),
    }
}

/// Returns the text that the caller passes. The error is BES_NOT_UTF8 if it isn't one.
///
/// # Safety
/// As for [`items`].
pub(crate) unsafe fn text<'a>(at: *const u8, length: usize) -> Result<&'a str, Fault> {
    // SAFETY: as above.
    let bytes = unsafe { items(at, length) }?;
    std::str::from_utf8(bytes).map_err(|_| Fault::of(sys::BES_NOT_UTF8))
}

/// Writes a value to where the caller wants it.
///
/// # Safety
/// Unless `at` is null, it points to a `T`.
pub(crate) unsafe fn put<T>(at: *mut T, value: T) {
    if !at.is_null() {
        // SAFETY: as above.
        unsafe { at.write(value) };
    }
}

/// Writes as many items as there is room for.
///
/// # Safety
/// Unless `at` is null, it points to room for `room` items.
pub(crate) unsafe fn fill<T: Copy>(at: *mut T, room: usize, items: &[T]) {
    if !at.is_null() {
        // SAFETY: as above. The caller's memory and ours don't overlap.
        unsafe { std::ptr::copy_nonoverlapping(items.as_ptr(), at, items.len().min(room)) };
    }
}
