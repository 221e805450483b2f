//! Receives the lines that a client sends.

use crate::os;
use bestore_client::wire::LINE;
use std::io::{self, ErrorKind, Read};
use std::ops::Range;
use std::os::unix::io::AsRawFd;
use std::os::unix::net::UnixStream;
use std::sync::Arc;
use std::time::{Duration, Instant};

/// How long a client may take to finish a line that it has begun.
const PATIENCE: Duration = Duration::from_secs(30);

/// The buffer's initial capacity in bytes.
const ROOM: usize = 1 << 14;

/// The outcome of [`Lines::read`].
#[derive(Debug, PartialEq, Eq)]
pub enum Received {
    /// Some bytes arrived.
    Some,
    /// The wait has timed out.
    Late,
    /// The client has taken too long to finish a line.
    Half,
    /// The line is too long.
    TooLong,
    /// There is no memory for the line.
    NoMemory,
    /// The client has closed its side of the connection.
    End,
}

/// A buffer of received bytes, from which whole lines are taken.
#[derive(Debug)]
pub struct Lines {
    stream: Arc<UnixStream>,
    bytes: Vec<u8>,
    /// How many of the bytes have been received. The rest is free space.
    filled: usize,
    taken: usize,
    /// How many bytes have already been searched for the end of a line.
    searched: usize,
    /// When the buffer began to hold an unfinished line.
    half_since: Option<Instant>,
    patience: Duration,
}

impl Lines {
    pub fn new(stream: Arc<UnixStream>) -> Self {
        Self {
            patience: PATIENCE,
            stream,
            bytes: Vec::new(),
            filled: 0,
            taken: 0,
            searched: 0,
            half_since: None,
        }
    }

    /// Limits how long [`read`](Self::read) waits when it is called with no deadline.
    pub fn rest_at_most(&self, time: Duration) -> io::Result<()> {
        self.stream.set_read_timeout(Some(time))
    }

    /// Takes the next line, if it has been received. Returns its position in [`bytes`](Self::bytes).
    pub fn take(&mut self) -> Option<Range<usize>> {
        let length = self.bytes[self.searched..self.filled]
            .iter()
            .position(|byte| *byte == b'\n');
        match length {
            Some(length) => {
                let line = self.taken..self.searched + length;
                self.taken = line.end + 1;
                self.searched = self.taken;
                self.half_since = None;
                Some(line)
            }
            None => {
                self.searched = self.filled;
                None
            }
        }
    }

    pub fn bytes(&self, line: Range<usize>) -> &[u8] {
        &self.bytes[line]
    }

    /// Receives more bytes, waiting no longer than `until` if it is given. Call this when [`take`](Self::take) finds no line.
    pub fn read(&mut self, until: Option<Instant>) -> io::Result<Received> {
        self.drop_taken();
        if self.filled >= LINE {
            return Ok(Received::TooLong);
        }
        let half = match (self.filled == 0, self.half_since) {
            (true, _) => None,
            (false, since) => Some(*self.half_since.insert(since.unwrap_or_else(Instant::now)) + self.patience),
        };
        let first = [until, half].into_iter().flatten().min();
        if let Some(first) = first {
            let left = first.saturating_duration_since(Instant::now());
            if left.is_zero() {
                return Ok(if Some(first) == half {
                    Received::Half
                } else {
                    Received::Late
                });
            }
            if os::wait_readable([self.stream.as_raw_fd()], Some(left))? == [false] {
                return Ok(Received::Some);
            }
        }
        self.receive()
    }

    /// Removes the lines that have been taken from the buffer, and frees the memory that a long line needed.
    fn drop_taken(&mut self) {
        self.bytes.copy_within(self.taken..self.filled, 0);
        self.filled -= self.taken;
        self.searched -= self.taken;
        self.taken = 0;
        if self.filled == 0 && self.bytes.len() > 4 * ROOM {
            self.bytes = Vec::new();
        }
    }

    fn receive(&mut self) -> io::Result<Received> {
        if self.filled == self.bytes.len() {
            let room = (2 * self.filled).clamp(ROOM, LINE);
            if self.bytes.try_reserve_exact(room - self.filled).is_err() {
                return Ok(Received::NoMemory);
            }
            self.bytes.resize(room, 0);
        }
        match (&*self.stream).read(&mut self.bytes[self.filled..]) {
            Ok(0) => Ok(Received::End),
            Ok(count) => {
                self.filled += count;
                Ok(Received::Some)
            }
            Err(error) if error.kind() == ErrorKind::Interrupted => Ok(Received::Some),
            Err(error) if error.kind() == ErrorKind::WouldBlock => Ok(Received::Late),
            Err(error) if error.kind() == ErrorKind::ConnectionReset => Ok(Received::End),
            Err(error) => Err(error),
        }
    }
}

#[cfg(test)]
mod tests {
    use super::*;
    use std::io::Write;

    fn pair() -> (UnixStream, Lines) {
        let (client, server) = UnixStream::pair().unwrap();
        (client, Lines::new(Arc::new(server)))
    }

    fn next(lines: &mut Lines) -> Option<String> {
        let line = lines.take()?;
        Some(String::from_utf8(lines.bytes(line).to_vec()).unwrap())
    }

    #[test]
    fn lines_come_in_parts_and_together() {
        let (mut client, mut lines) = pair();
        client.write_all(b"one\ntw").unwrap();
        assert_eq!(lines.read(None).unwrap(), Received::Some);
        assert_eq!(next(&mut lines).unwrap(), "one");
        assert_eq!(next(&mut lines), None);
        client.write_all(b"o\n\nthree\n").unwrap();
        assert_eq!(lines.read(None).unwrap(), Received::Some);
        assert_eq!(next(&mut lines).unwrap(), "two");
        assert_eq!(next(&mut lines).unwrap(), "");
        assert_eq!(next(&mut lines).unwrap(), "three");
        drop(client);
        assert_eq!(lines.read(None).unwrap(), Received::End);
    }

    #[test]
    fn a_line_of_the_greatest_length_is_taken_and_a_longer_one_refused() {
        for (length, is_taken) in [(LINE, true), (LINE + 1, false)] {
            let (mut client, mut lines) = pair();
            let sending = std::thread::spawn(move || {
                let mut line = vec![b'a'; length];
                line[length - 1] = b'\n';
                let _ = client.write_all(&line);
                client
            });
            let read = loop {
                if let Some(line) = lines.take() {
                    break Ok(line.len());
                }
                match lines.read(None).unwrap() {
                    Received::Some => {}
                    other => break Err(other),
                }
            };
            drop(lines);
            sending.join().unwrap();
            assert_eq!(read.is_ok(), is_taken, "{read:?}");
        }
    }

    #[test]
    fn half_a_line_waits_so_long_however_it_goes_on() {
        let (mut client, mut lines) = pair();
        lines.patience = Duration::from_millis(100);
        let begin = Instant::now();
        let received = loop {
            client.write_all(b"a").unwrap();
            assert_eq!(lines.take(), None);
            match lines.read(Some(Instant::now() + Duration::from_millis(5))).unwrap() {
                Received::Some | Received::Late => {}
                other => break other,
            }
        };
        assert_eq!(received, Received::Half);
        assert!(begin.elapsed() >= lines.patience);
    }

    #[test]
    fn the_time_ends() {
        let (_client, mut lines) = pair();
        lines.rest_at_most(Duration::from_millis(1)).unwrap();
        assert_eq!(lines.read(None).unwrap(), Received::Late);
        let until = Instant::now() + Duration::from_millis(5);
        while lines.read(Some(until)).unwrap() != Received::Late {}
        assert!(Instant::now() >= until);
    }
}
