//! Notifies the service manager when the server is ready, while it is alive, and when it is stopping. See sd_notify(3).

use crate::os;
use std::env;
use std::ffi::OsString;
use std::sync::mpsc::{self, RecvTimeoutError};
use std::thread;
use std::time::{Duration, Instant};

/// How much more start-up time each message requests while the server is loading its store or waiting for a database, and how often to
/// send one while it is loading.
const EXTENSION: Duration = Duration::from_secs(30);
const LOADING: Duration = Duration::from_secs(10);

/// How long to wait until the service manager takes a message, and for one that says only that the server is alive. If the manager
/// hangs, the server goes on without it.
const FOR_MESSAGE: Duration = Duration::from_secs(10);
const FOR_LIFE: Duration = Duration::from_millis(100);

/// Sends messages to the service manager, if there is one.
#[derive(Debug)]
pub struct Notifier {
    socket: Option<OsString>,
    /// How often to notify the watchdog that the server is alive.
    every: Option<Duration>,
    last: Instant,
    /// Whether the watchdog isn't notified at the moment, because the server can't go on.
    is_silent: bool,
}

/// Returns how often to notify a watchdog that waits this many µs. `process` is the process that the watchdog expects to hear
/// from, if it names one.
fn interval(wait: Option<&str>, process: Option<&str>, own: u32) -> Option<Duration> {
    let wait: u64 = wait?.parse().ok()?;
    let is_own = process.map_or(true, |process| process.parse() == Ok(own));
    (is_own && wait > 0).then(|| Duration::from_micros(wait) / 3)
}

impl Notifier {
    /// Reads the settings from the environment.
    pub fn of_environment() -> Self {
        let text = |name| env::var(name).ok();
        let (wait, process) = (text("WATCHDOG_USEC"), text("WATCHDOG_PID"));
        let socket = env::var_os("NOTIFY_SOCKET").filter(|socket| !socket.is_empty());
        Self {
            every: socket
                .as_ref()
                .and_then(|_| interval(wait.as_deref(), process.as_deref(), std::process::id())),
            socket,
            last: Instant::now(),
            is_silent: false,
        }
    }

    fn send(&self, text: &str) {
        self.send_within(FOR_MESSAGE, text);
    }

    fn send_within(&self, time: Duration, text: &str) {
        if let Some(socket) = &self.socket {
            if let Err(error) = os::send_datagram(socket, text.as_bytes(), time) {
                report!("bestored: the service manager at NOTIFY_SOCKET can't be reached: {error}");
            }
        }
    }

    /// Reports that the server is listening.
    pub fn ready(&self) {
        self.send("READY=1\nSTATUS=listens");
    }

    /// Calls the function, and requests more start-up time as long as it runs.
    pub fn while_loading<T>(&self, load: impl FnOnce() -> T) -> T {
        self.requesting_every(LOADING, load)
    }

    fn requesting_every<T>(&self, every: Duration, load: impl FnOnce() -> T) -> T {
        if self.socket.is_none() {
            return load();
        }
        let (loaded, is_loaded) = mpsc::channel::<()>();
        thread::scope(|scope| {
            let request = move || {
                while is_loaded.recv_timeout(every) == Err(RecvTimeoutError::Timeout) {
                    // A server that begins again is still watched.
                    let more = EXTENSION.as_micros();
                    self.send_within(FOR_LIFE, &format!("EXTEND_TIMEOUT_USEC={more}\nWATCHDOG=1"));
                }
            };
            // If the thread can't be started, the manager only gives the server less time.
            let _ = thread::Builder::new().spawn_scoped(scope, request);
            let store = load();
            drop(loaded);
            store
        })
    }

    /// Reports what the server is waiting for before it can listen.
    #[cfg_attr(not(feature = "log"), allow(dead_code))]
    pub fn waits(&self, why: &str) {
        let more = EXTENSION.as_micros();
        let why = why.lines().next().unwrap_or_default();
        self.send(&format!("EXTEND_TIMEOUT_USEC={more}\nSTATUS={why}"));
    }

    /// Reports that the server is alive, if a report is due and there is no trouble. Returns how long to wait before the next one.
    pub fn lives(&mut self, trouble: impl FnOnce() -> Option<String>) -> Option<Duration> {
        let every = self.every?;
        if self.last.elapsed() >= every {
            self.last = Instant::now();
            let trouble = trouble();
            let was_silent = std::mem::replace(&mut self.is_silent, trouble.is_some());
            match trouble {
                Some(_) if was_silent => {}
                Some(trouble) => report!("bestored: the watchdog isn't notified while {trouble}"),
                None => self.send_within(FOR_LIFE, "WATCHDOG=1"),
            }
        }
        Some(every.saturating_sub(self.last.elapsed()))
    }

    /// Reports that the server is stopping.
    pub fn ends(&self) {
        self.send("STOPPING=1");
    }
}

#[cfg(test)]
mod tests {
    use super::*;
    use std::fs;
    use std::os::unix::net::UnixDatagram;

    #[test]
    fn a_server_that_loads_requests_more_time() {
        let path = env::temp_dir().join(format!("bestored-notify-{}", std::process::id()));
        let manager = UnixDatagram::bind(&path).unwrap();
        let notifier = Notifier {
            socket: Some(path.clone().into()),
            every: None,
            last: Instant::now(),
            is_silent: false,
        };
        let mut bytes = [0; 99];
        // The store is loaded once the manager has got two messages.
        let load = || [(); 2].map(|()| manager.recv(&mut bytes).unwrap());
        let [_, length] = notifier.requesting_every(Duration::from_millis(1), load);
        assert_eq!(&bytes[..length], b"EXTEND_TIMEOUT_USEC=30000000\nWATCHDOG=1");
        fs::remove_file(path).unwrap();
    }

    #[test]
    fn a_watchdog_is_told_if_it_watches_this_process() {
        let third = Some(Duration::from_millis(100));
        assert_eq!(interval(Some("300000"), None, 7), third);
        assert_eq!(interval(Some("300000"), Some("7"), 7), third);
        for (wait, process) in [
            (None, None),
            (Some("0"), None),
            (Some("-1"), None),
            (Some("a"), None),
            (Some("300000"), Some("8")),
            (Some("300000"), Some("")),
        ] {
            assert_eq!(interval(wait, process, 7), None, "{wait:?} {process:?}");
        }
    }
}
