//! Wakes a thread that waits for descriptors.

use std::io::{self, Read, Write};
use std::os::unix::io::{AsRawFd, RawFd};
use std::os::unix::net::UnixStream;

/// A descriptor that any thread can make readable.
#[derive(Debug)]
pub struct Bell {
    rings: UnixStream,
    hears: UnixStream,
}

impl Bell {
    pub fn new() -> io::Result<Self> {
        let (rings, hears) = UnixStream::pair()?;
        rings.set_nonblocking(true)?;
        hears.set_nonblocking(true)?;
        Ok(Self { rings, hears })
    }

    /// Makes the descriptor readable.
    pub fn ring(&self) {
        // If the socket has no room, the descriptor is readable already.
        let _ = (&self.rings).write(&[1]);
    }

    /// Makes the descriptor unreadable again. Call this before looking for what the bell was rung for.
    pub fn still(&self) {
        let mut bytes = [0; 64];
        while matches!((&self.hears).read(&mut bytes), Ok(1..)) {}
    }
}

impl AsRawFd for Bell {
    fn as_raw_fd(&self) -> RawFd {
        self.hears.as_raw_fd()
    }
}
