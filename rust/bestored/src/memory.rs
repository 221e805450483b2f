//! Checks that memory is left before a request takes it. If Rust's standard library can't get memory, it ends the program.

use crate::failure::Failure;
use bestore::Error;
use std::collections::TryReserveError;
use std::io::{self, ErrorKind, Write};

/// How many bytes must be left before a request is answered, and again after every [`STEP`] bytes of its reply.
const SPARE: usize = 4 << 20;

/// How many bytes of a reply to collect between two checks. All clients together take less memory for a step than [`SPARE`].
pub const STEP: usize = 1 << 14;

/// How many bytes must be left for a thread to start, in addition to its stack.
const FOR_THREAD: usize = 1 << 16;

/// How many bytes a request takes once it is parsed, at most, for each byte of its line.
const PARSED: usize = 24;

/// Returns an error unless there is memory to go on with a request.
pub fn check() -> Result<(), Failure> {
    check_for(0)
}

/// Returns an error unless there is the memory that a thread needs at once when it starts.
pub fn check_for_thread() -> Result<(), Failure> {
    refuse_unless_reserved(FOR_THREAD)
}

/// Returns an error unless there is memory to parse a line of this length.
pub fn check_for_line(length: usize) -> Result<(), Failure> {
    check_for(PARSED.saturating_mul(length))
}

/// Returns an error unless this many bytes more are left than any request may need.
pub fn check_for(bytes: usize) -> Result<(), Failure> {
    refuse_unless_reserved(SPARE.saturating_add(bytes))
}

fn refuse_unless_reserved(bytes: usize) -> Result<(), Failure> {
    match reserved(bytes) {
        Ok(_) => Ok(()),
        Err(_) => Err(Error::OutOfMemory.into()),
    }
}

/// Returns a list with room for this many bytes. The compiler can't leave out the request for memory, because the list is returned.
#[inline(never)]
fn reserved(bytes: usize) -> Result<Vec<u8>, TryReserveError> {
    let mut list = Vec::new();
    list.try_reserve_exact(bytes)?;
    Ok(list)
}

/// Writes to a list. If there is no memory for more bytes, this returns an error.
#[derive(Debug)]
pub struct Writer<'a>(pub &'a mut Vec<u8>);

impl Write for Writer<'_> {
    fn write(&mut self, bytes: &[u8]) -> io::Result<usize> {
        self.write_all(bytes)?;
        Ok(bytes.len())
    }

    fn write_all(&mut self, bytes: &[u8]) -> io::Result<()> {
        let reserved = self.0.try_reserve(bytes.len());
        reserved.map_err(|_| io::Error::from(ErrorKind::OutOfMemory))?;
        self.0.extend_from_slice(bytes);
        Ok(())
    }

    fn flush(&mut self) -> io::Result<()> {
        Ok(())
    }
}

#[cfg(test)]
mod tests {
    use super::*;
    use bestore_client::wire::ErrorName;

    #[test]
    fn what_there_is_no_memory_for_is_refused() {
        assert!(check().is_ok() && check_for_line(1 << 20).is_ok());
        for bytes in [1 << 60, usize::MAX] {
            assert_eq!(check_for(bytes).unwrap_err().0.name, ErrorName::OutOfMemory);
        }
    }

    #[test]
    fn a_writer_appends() {
        let mut list = b"a".to_vec();
        write!(Writer(&mut list), "b{}", 7).unwrap();
        assert_eq!(list, b"ab7");
    }
}
