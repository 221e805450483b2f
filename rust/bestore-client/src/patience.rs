//! How long requests may take.

use crate::options::end_of;
use crate::Client;
use std::time::{Duration, Instant};

/// How long something may take, and when that time is up.
#[derive(Clone, Copy, Debug)]
pub(crate) struct Patience {
    pub time: Duration,
    pub until: Instant,
}

impl Patience {
    fn of(time: Duration) -> Self {
        Self {
            time,
            until: end_of(time),
        }
    }

    /// Returns the one that ends earlier.
    fn or_earlier(self, other: Option<Self>) -> Self {
        match other {
            Some(other) if other.until < self.until => other,
            _ => self,
        }
    }
}

impl Client {
    /// Makes calls that may take this long together; the timeout for each reply also applies. When the time is up, the call that is waiting
    /// fails with [`TimedOut`](crate::Error::TimedOut), and the connection is closed.
    ///
    /// ```no_run
    /// # use std::time::Duration;
    /// # let mut client = bestore_client::Client::connect_default()?;
    /// let found = client.within(Duration::from_secs(2), |client| client.query("MAIL:from==Ada"))?;
    /// # Ok::<(), bestore_client::Error>(())
    /// ```
    pub fn within<T>(&mut self, time: Duration, calls: impl FnOnce(&mut Self) -> T) -> T {
        let before = self.limit;
        self.limit = Some(Patience::of(time).or_earlier(before));
        let value = calls(self);
        self.limit = before;
        value
    }

    /// Sets the timeout for the replies to later requests, like [`Options::timeout`](crate::Options::timeout).
    pub fn set_timeout(&mut self, timeout: Option<Duration>) {
        self.options.timeout(timeout);
    }

    /// Returns how long a request that lets the server wait this long may take.
    pub(crate) fn patience(&self, wait: Duration) -> Option<Patience> {
        let time = self.options.timeout.map(|timeout| timeout.saturating_add(wait));
        match (time, self.limit) {
            // The limit began earlier, so it also ends earlier.
            (Some(time), Some(limit)) if limit.time <= time => Some(limit),
            (Some(time), limit) => Some(Patience::of(time).or_earlier(limit)),
            (None, limit) => limit,
        }
    }
}

#[cfg(test)]
mod tests {
    use crate::{Error, Options};
    use std::io::Read;
    use std::os::unix::net::UnixStream;
    use std::time::{Duration, Instant};

    #[test]
    fn calls_end_together() {
        let (stream, _server) = UnixStream::pair().unwrap();
        let mut client = crate::Client::over(stream, Options::new());
        let (short, long) = (Duration::from_millis(20), Duration::from_secs(30));
        let begin = Instant::now();
        let late = client.within(short, |client| client.within(long, |client| client.status()));
        assert!(matches!(late, Err(Error::TimedOut(time)) if time == short));
        assert!(begin.elapsed() < long && client.limit.is_none());
    }

    #[test]
    fn a_peer_that_takes_little_at_a_time_holds_up_no_call() {
        let (stream, mut server) = UnixStream::pair().unwrap();
        let mut client = crate::Client::over(stream, Options::new());
        client.set_timeout(Some(Duration::from_millis(100)));
        std::thread::spawn(move || {
            while server.read(&mut [0; 512]).map_or(false, |count| count > 0) {
                std::thread::sleep(Duration::from_millis(5));
            }
        });
        let long = "a".repeat(1 << 20);
        let begin = Instant::now();
        assert!(matches!(client.query(&long), Err(Error::TimedOut(_))));
        assert!(begin.elapsed() < Duration::from_secs(5), "{:?}", begin.elapsed());
    }
}
