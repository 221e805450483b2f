//! Calls that ask what the server is doing, and calls that wait for it.

use crate::client::MOST_WITHIN;
use crate::options::end_of;
use crate::wire::{self, Command, Nothing};
use crate::{Client, ErrorName, Result};
use std::time::{Duration, Instant};

impl Client {
    /// Returns how full the store is.
    ///
    /// # Errors
    /// The same as [`call`](Self::call).
    pub fn status(&mut self) -> Result<wire::Status> {
        self.call(Command::Status(Nothing {}))
    }

    /// Returns what the server is doing.
    ///
    /// # Errors
    /// The same as [`call`](Self::call).
    pub fn info(&mut self) -> Result<wire::Info> {
        self.call(Command::Info(Nothing {}))
    }

    /// Returns the connected clients.
    ///
    /// # Errors
    /// The same as [`call`](Self::call).
    pub fn clients(&mut self) -> Result<Vec<wire::ClientInfo>> {
        let read: wire::Clients = self.call(Command::Clients(Nothing {}))?;
        Ok(read.clients)
    }

    /// Disconnects the client with this number, as listed by [`clients`](Self::clients), and unpins its snapshot. A write that the client
    /// has already sent may still take effect.
    ///
    /// # Errors
    /// `NoClient`; otherwise the same as [`call`](Self::call).
    pub fn kick(&mut self, client: u64) -> Result<()> {
        self.call::<Nothing>(Command::Kick(wire::Kick { client })).map(drop)
    }

    /// Returns the server's status in the log that machines share.
    ///
    /// # Errors
    /// `NoLog` if the server doesn't use one; otherwise the same as [`call`](Self::call).
    pub fn log(&mut self) -> Result<wire::LogStatus> {
        self.call(Command::Log(wire::OfLog::default()))
    }

    /// Waits until the server has applied this entry of the log that machines share. Later reads see at least that entry.
    ///
    /// # Errors
    /// `NotReached` if the time is up first (at most a minute); `NoLog`; `Pinned`; otherwise the same as [`call`](Self::call).
    pub fn wait_for_entry(&mut self, entry: u64, within: Duration) -> Result<wire::LogStatus> {
        self.call(Command::Log(wire::OfLog {
            entry: Some(entry),
            within: Some(u64::try_from(within.as_millis()).unwrap_or(u64::MAX)),
        }))
    }

    /// Waits up to `within` for the journal to have this number of entries. Later reads of the current snapshot see them. The error is
    /// `NotReached` if the time is up first, or if the server takes back the client's pinned snapshot. For each minute, the call sends a
    /// request.
    ///
    /// # Errors
    /// The same as [`call`](Self::call).
    pub fn reach(&mut self, number: u64, within: Duration) -> Result<wire::Commit> {
        self.reach_in_parts(number, within, MOST_WITHIN)
    }

    /// Waits with requests that each let the server wait for up to `most`.
    fn reach_in_parts(&mut self, number: u64, within: Duration, most: Duration) -> Result<wire::Commit> {
        let until = end_of(within);
        loop {
            let begin = Instant::now();
            let left = until.saturating_duration_since(begin);
            match self.reach_once(number, left.min(most)) {
                // If the server hasn't waited for so long, it has taken back the pinned snapshot.
                Err(error) if error.is(ErrorName::NotReached) && left > most && begin.elapsed() >= most => {}
                reached => return reached,
            }
        }
    }

    fn reach_once(&mut self, number: u64, within: Duration) -> Result<wire::Commit> {
        // Rounded up, so that the server doesn't wait for a shorter time.
        let within = within.saturating_add(Duration::from_nanos(999_999)).as_millis();
        self.call(Command::Reach(wire::Reach {
            commit: number,
            within: Some(u64::try_from(within).unwrap_or(u64::MAX)),
        }))
    }
}

#[cfg(test)]
mod tests {
    use super::*;
    use crate::Options;
    use std::io::{BufRead, BufReader, Write};
    use std::os::unix::net::UnixStream;
    use std::thread;

    const NOT_REACHED: &str = r#""error":{"name":"NotReached","message":""}"#;

    #[test]
    fn a_long_wait_takes_several_requests() {
        let (stream, mut server) = UnixStream::pair().unwrap();
        let mut client = Client::over(stream, Options::new());
        let most = Duration::from_millis(20);
        let answering = thread::spawn(move || {
            let lines = BufReader::new(server.try_clone().unwrap()).lines();
            let answers = [NOT_REACHED, NOT_REACHED, r#""ok":{"commit":5}"#];
            let mut asked = Vec::new();
            for ((id, answer), line) in (1..).zip(answers).zip(lines) {
                asked.push(line.unwrap());
                thread::sleep(most);
                writeln!(server, "{{\"id\":{id},{answer}}}").unwrap();
            }
            asked
        });
        assert_eq!(client.reach_in_parts(5, Duration::MAX, most).unwrap().commit, 5);
        drop(client);
        let asked = answering.join().unwrap();
        assert_eq!(asked.len(), 3);
        let is_short = |line: &String| line.ends_with(r#""reach":{"commit":5,"within":20}}"#);
        assert!(asked.iter().all(is_short), "{asked:?}");
    }

    #[test]
    fn a_wait_ends_if_the_snapshot_is_taken_back() {
        let (stream, mut server) = UnixStream::pair().unwrap();
        let mut client = Client::over(stream, Options::new());
        writeln!(server, "{{\"id\":1,{NOT_REACHED}}}").unwrap();
        let refused = client.reach(5, Duration::MAX).unwrap_err();
        assert!(refused.is(ErrorName::NotReached), "{refused}");
    }
}
