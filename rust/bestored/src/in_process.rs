//! Runs parts of a server inside the calling program, without a socket file or a database. The fuzz targets use it.

use crate::connection::Connection;
use crate::kept::Kept;
#[cfg(feature = "log")]
use crate::log::line::{Line, Role};
use crate::options::Options;
use crate::share;
use crate::tokens::Tokens;
use bestore::Store;
#[cfg(feature = "log")]
use bestore::{Batch, Keeper, MakeWrite, Written};
use std::error::Error;
use std::io::{self, Read, Write};
use std::net::Shutdown;
use std::os::unix::net::UnixStream;
use std::sync::Arc;
#[cfg(feature = "log")]
use std::sync::{Mutex, PoisonError};
use std::thread;
use std::time::Duration;

/// Returns options with small limits, so that a store opens quickly and can fill up.
fn options() -> Options {
    Options {
        socket: None,
        background: false,
        keep: None,
        every: None,
        spare: 0,
        log: None,
        pages: 256,
        passes: 1,
        commits: 1000,
        journal: None,
        hold: Duration::from_secs(86_400),
        slow: None,
        hung: Duration::MAX,
    }
}

/// Returns the replies that a server with an empty store sends to a client that sends these lines and leaves.
///
/// # Errors
/// The system has run out of memory, threads or sockets.
pub fn replies_to(lines: &[u8]) -> Result<Vec<u8>, Box<dyn Error>> {
    let options = options();
    let kept = Kept::Memory(Store::open(options.limits())?);
    let mut pass = kept.pass()?;
    let tokens = Arc::new(Tokens::default());
    let shared = share(kept, tokens, "in process".into(), options)?;
    let (stream, server) = UnixStream::pair()?;
    let server = Arc::new(server);
    Ok(thread::scope(|scope| {
        let replies = scope.spawn(move || talk(stream, lines));
        let client = shared.clients.enter(server.clone());
        let served = Connection::new(&shared, &client, server.clone(), false).run(&mut pass);
        shared.clients.leave(&client);
        server.shutdown(Shutdown::Both)?;
        served?;
        replies.join().unwrap_or_else(|fault| std::panic::resume_unwind(fault))
    })?)
}

/// Sends the lines, which fit into the socket's buffer, and reads the replies.
fn talk(mut client: UnixStream, lines: &[u8]) -> io::Result<Vec<u8>> {
    client.write_all(lines)?;
    client.shutdown(Shutdown::Write)?;
    let mut replies = Vec::new();
    client.read_to_end(&mut replies)?;
    Ok(replies)
}

/// Returns the entries that a leader adds to the log when it writes these batches: each entry's number, and its batch as bytes.
/// The leader's store is empty, and the log already has this many entries.
///
/// # Errors
/// The process has run out of memory.
#[cfg(feature = "log")]
pub fn entries_of(batches: &[Batch], entries: u64) -> bestore::Result<Vec<(u64, Vec<u8>)>> {
    let options = options();
    let store = Store::open(options.limits())?;
    let log = Arc::new(Log {
        line: Line::new(Role::Leader { term: 1 }, String::new(), entries, 0),
        entries: Mutex::default(),
    });
    let pass = store.pass()?.kept_by(log.clone());
    for batch in batches {
        // A batch that the store refuses isn't added to the log.
        let _ = pass.apply(batch);
    }
    drop(pass);
    let entries = log.entries.lock().unwrap_or_else(PoisonError::into_inner);
    Ok(entries.clone())
}

/// A log that accepts each entry immediately.
#[cfg(feature = "log")]
#[derive(Debug)]
struct Log {
    line: Line,
    entries: Mutex<Vec<(u64, Vec<u8>)>>,
}

#[cfg(feature = "log")]
impl Keeper for Log {
    fn keep(&self, pass: u64, batch: &Batch, write: MakeWrite<'_>) -> bestore::Result<(Written, u64)> {
        let kept = self.line.keep(pass, batch, write)?;
        let rows = self.line.take().into_iter().map(|row| (row.number, row.batch));
        let mut entries = self.entries.lock().unwrap_or_else(PoisonError::into_inner);
        entries.extend(rows);
        self.line.saved(kept.1);
        Ok(kept)
    }

    fn wait(&self, number: u64) -> bestore::Result<()> {
        self.line.wait(number)
    }
}

#[cfg(test)]
mod tests {
    use super::*;

    #[test]
    fn each_line_has_a_reply() {
        let lines = b"{\"id\":1,\"next\":{}}\nnonsense\n{\"id\":2,\"indices\":{}}\n{\"id\":3";
        let replies = String::from_utf8(replies_to(lines).unwrap()).unwrap();
        let begins: Vec<&str> = replies.lines().filter_map(|line| line.split(',').next()).collect();
        assert_eq!(begins, ["{\"id\":1", "{\"id\":null", "{\"id\":2"]);
    }

    #[cfg(feature = "log")]
    #[test]
    fn what_is_refused_is_not_in_the_log() {
        let made = Batch::new().new_node().clone();
        let entries = entries_of(&[made.clone(), Batch::new().remove_node(9).clone(), made], 6).unwrap();
        let numbers: Vec<u64> = entries.iter().map(|(number, _)| *number).collect();
        assert_eq!(numbers, [7, 8]);
    }
}
