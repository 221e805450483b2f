//! Sends lines to a client: replies from the client's own thread, which waits for the client, and pushes from a thread that
//! doesn't.

use crate::os;
use std::io::{self, ErrorKind};
use std::net::Shutdown;
use std::os::unix::net::UnixStream;
use std::sync::{Arc, Mutex, MutexGuard, PoisonError, TryLockError};
use std::time::{Duration, Instant};

/// How long a client that has a place of its own may leave lines unread.
pub const PATIENCE: Duration = Duration::from_secs(30);

/// How often a thread that is waiting for a client checks whether it has something else to do.
const LOOK: Duration = Duration::from_millis(50);

/// The bytes that the socket hasn't accepted yet. They are sent before any others.
#[derive(Debug, Default)]
struct Unsent {
    bytes: Vec<u8>,
    /// When the socket last accepted some of the bytes, or when they were added.
    since: Option<Instant>,
}

impl Unsent {
    /// Adds lines. If no other bytes are waiting, those that the socket accepts immediately aren't copied.
    fn add(&mut self, stream: &UnixStream, lines: &[u8]) -> io::Result<()> {
        let sent = match self.bytes.is_empty() {
            true => send_some(stream, lines)?,
            false => 0,
        };
        self.bytes.extend_from_slice(&lines[sent..]);
        self.since = Some(Instant::now());
        Ok(())
    }

    /// Sends as many bytes as the socket accepts immediately. Returns whether all of them were sent.
    fn send(&mut self, stream: &UnixStream) -> io::Result<bool> {
        while !self.bytes.is_empty() {
            match send_some(stream, &self.bytes)? {
                0 => return Ok(false),
                count => {
                    self.bytes.drain(..count);
                    self.since = Some(Instant::now());
                }
            }
        }
        self.bytes = Vec::new();
        Ok(true)
    }

    /// Returns whether the client has read nothing for longer than this.
    fn waits_for(&self, time: Duration) -> bool {
        self.since.map_or(false, |since| since.elapsed() > time)
    }
}

/// Sends as many of the bytes as the socket accepts immediately, possibly none. Returns how many were sent.
fn send_some(stream: &UnixStream, bytes: &[u8]) -> io::Result<usize> {
    match os::send_now(stream, bytes) {
        Err(error) if matches!(error.kind(), ErrorKind::WouldBlock | ErrorKind::Interrupted) => Ok(0),
        sent => sent,
    }
}

/// The queue of bytes for one client. Lines never interleave.
#[derive(Debug)]
pub struct Outbox {
    stream: Arc<UnixStream>,
    unsent: Mutex<Unsent>,
    patience: Duration,
}

impl Outbox {
    /// Creates the queue for a client that may leave lines unread for this time.
    pub fn new(stream: Arc<UnixStream>, patience: Duration) -> Self {
        Self {
            stream,
            unsent: Mutex::default(),
            patience,
        }
    }

    /// Sends whole lines, and waits until the socket has accepted them or `is_over` returns `true`. Returns whether everything
    /// was sent; if not, the next call sends the rest.
    pub fn send(&self, lines: &[u8], is_over: impl Fn() -> bool) -> io::Result<bool> {
        let mut unsent = self.unsent.lock().unwrap_or_else(PoisonError::into_inner);
        unsent.add(&self.stream, lines)?;
        while !unsent.send(&self.stream)? {
            if is_over() {
                return Ok(false);
            }
            if unsent.waits_for(self.patience) {
                return Err(ErrorKind::TimedOut.into());
            }
            os::wait_writable(&self.stream, LOOK)?;
        }
        Ok(true)
    }

    /// Returns a [`Pusher`], unless bytes are being sent. The rest of the last line is sent first; if the socket doesn't accept
    /// all of it, there is no pusher either.
    pub fn pusher(&self) -> Option<Pusher<'_>> {
        let unsent = match self.unsent.try_lock() {
            Ok(unsent) => unsent,
            Err(TryLockError::Poisoned(poisoned)) => poisoned.into_inner(),
            Err(TryLockError::WouldBlock) => return None,
        };
        let mut pusher = Pusher {
            stream: &self.stream,
            unsent,
            patience: self.patience,
        };
        pusher.send_rest().then_some(pusher)
    }
}

/// Pushes lines to a client without waiting.
#[derive(Debug)]
pub struct Pusher<'a> {
    stream: &'a UnixStream,
    unsent: MutexGuard<'a, Unsent>,
    patience: Duration,
}

impl Pusher<'_> {
    /// Pushes a line. Returns whether another line may follow.
    pub fn push(&mut self, line: Vec<u8>) -> bool {
        *self.unsent = Unsent {
            bytes: line,
            since: Some(Instant::now()),
        };
        self.send_rest()
    }

    /// Sends the remaining bytes, and returns whether all of them were sent. If the client has read nothing for too long, its
    /// connection is closed.
    fn send_rest(&mut self) -> bool {
        match self.unsent.send(self.stream) {
            Ok(true) => return true,
            Ok(false) if !self.unsent.waits_for(self.patience) => {}
            Ok(false) => {
                report!("bestored: a client was disconnected, because it doesn't read what is pushed");
                self.give_up();
            }
            Err(_) => self.give_up(),
        }
        false
    }

    /// Closes the connection, so that the client's own thread ends.
    fn give_up(&mut self) {
        // This fails only if the client has already closed the connection.
        let _ = self.stream.shutdown(Shutdown::Both);
    }
}

#[cfg(test)]
mod tests {
    use super::*;
    use std::io::Read;
    use std::thread;

    fn pair() -> (UnixStream, Outbox) {
        let (client, server) = UnixStream::pair().unwrap();
        (client, Outbox::new(Arc::new(server), PATIENCE))
    }

    /// Pushes lines until the socket accepts no more.
    fn fill(outbox: &Outbox) -> usize {
        let mut pusher = outbox.pusher().unwrap();
        let mut lines = 1;
        while pusher.push([b"a".repeat(9_999), vec![b'\n']].concat()) {
            lines += 1;
        }
        lines
    }

    /// Reads until the end of the stream, in a separate thread.
    fn read_all(mut client: UnixStream) -> thread::JoinHandle<Vec<u8>> {
        thread::spawn(move || {
            let mut read = Vec::new();
            client.read_to_end(&mut read).unwrap();
            read
        })
    }

    #[test]
    fn lines_are_whole_for_a_slow_reader() {
        let (client, outbox) = pair();
        let lines = fill(&outbox);
        assert!(outbox.pusher().is_none());
        let reading = read_all(client);
        assert!(outbox.send(b"b\n", || false).unwrap());
        drop(outbox);
        let text = String::from_utf8(reading.join().unwrap()).unwrap();
        assert_eq!(text.lines().count(), lines + 1);
        assert!(text.lines().take(lines).all(|line| line.len() == 9_999));
        assert!(text.ends_with("a\nb\n"));
    }

    #[test]
    fn who_reads_nothing_is_disconnected() {
        let (mut client, mut outbox) = pair();
        outbox.patience = Duration::from_millis(50);
        fill(&outbox);
        thread::sleep(Duration::from_millis(60));
        assert!(outbox.pusher().is_none());
        let mut text = Vec::new();
        client.read_to_end(&mut text).unwrap();
        assert!(outbox.send(b"b\n", || false).is_err());
    }

    #[test]
    fn who_reads_no_reply_is_waited_for_so_long() {
        let (_client, mut outbox) = pair();
        outbox.patience = Duration::from_millis(50);
        let error = outbox.send(&b"a".repeat(1 << 20), || false).unwrap_err();
        assert_eq!(error.kind(), ErrorKind::TimedOut);
    }

    #[test]
    fn what_is_left_goes_before_all_else() {
        let (client, outbox) = pair();
        let lines = b"a\n".repeat(1 << 19);
        assert!(!outbox.send(&lines, || true).unwrap());
        assert!(!outbox.send(b"b\n", || true).unwrap());
        assert!(outbox.pusher().is_none());
        let reading = read_all(client);
        assert!(outbox.send(b"c\n", || false).unwrap());
        drop(outbox);
        assert!(reading.join().unwrap() == [&lines[..], b"b\nc\n"].concat());
    }

    #[test]
    fn nobody_waits_for_a_reply_that_is_sent() {
        let (client, outbox) = pair();
        let outbox = &outbox;
        thread::scope(|scope| {
            scope.spawn(|| outbox.send(&b"a".repeat(1 << 20), || false));
            while outbox.pusher().is_some() {
                thread::yield_now();
            }
            drop(client);
        });
    }
}
