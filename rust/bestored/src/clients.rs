//! The connected clients, and what each of them is doing.

use crate::os;
use bestore::{Pass, Snapshot};
use bestore_client::socket::peer_process;
use bestore_client::wire;
use std::collections::BTreeMap;
use std::io::{self, ErrorKind};
use std::net::Shutdown;
use std::os::unix::net::UnixStream;
use std::sync::atomic::{AtomicU64, Ordering};
use std::sync::{Arc, Condvar, Mutex, MutexGuard, PoisonError};
use std::time::{Duration, Instant};

/// How long clients have to read their last replies when the server shuts down.
const LAST: Duration = Duration::from_secs(5);

fn lock<T>(mutex: &Mutex<T>) -> MutexGuard<'_, T> {
    mutex.lock().unwrap_or_else(PoisonError::into_inner)
}

pub fn milliseconds(time: Duration) -> u64 {
    u64::try_from(time.as_millis()).unwrap_or(u64::MAX)
}

/// A client.
#[derive(Debug)]
pub struct Client {
    /// The connection's number, counted from the server's start.
    pub number: u64,
    /// The client's process ID, or 0 if the system doesn't provide it.
    pub process: u32,
    stream: Arc<UnixStream>,
    since: Instant,
    requests: AtomicU64,
    doing: Mutex<Doing>,
}

/// What a client is doing at the moment.
#[derive(Debug, Default)]
struct Doing {
    /// The client's pass.
    seat: Option<Seat>,
    pinned: Option<Pinned>,
    command: Option<&'static str>,
}

/// How the store identifies a pass. Pass numbers start again when the store is carried on.
#[derive(Clone, Copy, Debug, PartialEq, Eq)]
pub struct Seat {
    pub pass: u64,
    pub generation: u64,
}

impl Seat {
    fn of(pass: &Pass) -> bestore::Result<Self> {
        Ok(Self {
            generation: pass.generation(),
            pass: pass.number()?,
        })
    }
}

/// The snapshot that a client has pinned, and when it pinned it.
#[derive(Debug)]
struct Pinned {
    commit: u64,
    since: Instant,
}

impl Client {
    /// Records the client's pass.
    pub fn takes(&self, pass: &Pass) {
        // If this fails, the only effect is that the client can't be found by its pass.
        lock(&self.doing).seat = Seat::of(pass).ok();
    }

    /// Records that the client has pinned this snapshot.
    pub fn pins(&self, snapshot: &Snapshot<'_>) {
        self.takes(snapshot.pass());
        lock(&self.doing).pinned = Some(Pinned {
            commit: snapshot.number(),
            since: Instant::now(),
        });
    }

    /// Records that the client has unpinned its snapshot.
    pub fn unpins(&self) {
        lock(&self.doing).pinned = None;
    }

    /// Counts a request that the client has sent.
    pub fn asks(&self) {
        self.requests.fetch_add(1, Ordering::Relaxed);
    }

    /// Records that this command of the client is being carried out.
    pub fn begins(&self, command: &'static str) {
        lock(&self.doing).command = Some(command);
    }

    /// Records that the command is finished.
    pub fn ends(&self) {
        lock(&self.doing).command = None;
    }

    /// Waits for this time, but only while the connection is open. Returns whether the connection has been closed.
    pub fn is_gone_within(&self, time: Duration) -> bool {
        os::wait_closed(&self.stream, time).unwrap_or(true)
    }

    /// Returns how long the client has had a snapshot pinned.
    fn pinned_for(&self) -> Option<Duration> {
        lock(&self.doing).pinned.as_ref().map(|pinned| pinned.since.elapsed())
    }

    fn has_seat(&self, seat: Seat) -> bool {
        lock(&self.doing).seat == Some(seat)
    }

    /// Returns the snapshot that the client has pinned, if the store has been carried on since then. `generation` is the store's current
    /// generation.
    fn reads_before(&self, generation: u64) -> Option<u64> {
        let doing = lock(&self.doing);
        let pinned = doing.pinned.as_ref()?;
        (doing.seat?.generation < generation).then_some(pinned.commit)
    }

    /// Describes the client as the reader of this snapshot.
    fn reading(&self, commit: u64) -> wire::OldestReader {
        wire::OldestReader {
            commit,
            client: Some(self.number),
            process: Some(self.process),
            milliseconds: self.pinned_for().map(milliseconds),
            ..wire::OldestReader::default()
        }
    }

    fn shown(&self, own: u64) -> wire::ClientInfo {
        let doing = lock(&self.doing);
        wire::ClientInfo {
            client: self.number,
            process: self.process,
            seconds: self.since.elapsed().as_secs(),
            requests: self.requests.load(Ordering::Relaxed),
            command: doing.command.map(String::from),
            pinned: doing.pinned.as_ref().map(|pinned| wire::PinnedBy {
                commit: pinned.commit,
                milliseconds: milliseconds(pinned.since.elapsed()),
            }),
            own: self.number == own,
        }
    }
}

/// The clients, by number.
#[derive(Debug, Default)]
pub struct Clients {
    connected: Mutex<Connected>,
    left: Condvar,
}

#[derive(Debug, Default)]
struct Connected {
    last: u64,
    clients: BTreeMap<u64, Arc<Client>>,
    /// How many requests came from clients that have left.
    requests: u64,
}

impl Clients {
    pub fn count(&self) -> usize {
        lock(&self.connected).clients.len()
    }

    pub fn enter(&self, stream: Arc<UnixStream>) -> Arc<Client> {
        let mut connected = lock(&self.connected);
        connected.last += 1;
        let client = Arc::new(Client {
            number: connected.last,
            process: peer_process(&stream).unwrap_or(0),
            stream,
            since: Instant::now(),
            requests: AtomicU64::new(0),
            doing: Mutex::default(),
        });
        connected.clients.insert(client.number, client.clone());
        client
    }

    pub fn leave(&self, client: &Client) {
        let mut connected = lock(&self.connected);
        connected.clients.remove(&client.number);
        connected.requests += client.requests.load(Ordering::Relaxed);
        self.left.notify_all();
    }

    /// Returns how many requests clients have sent since the server started.
    pub fn requests(&self) -> u64 {
        let connected = lock(&self.connected);
        let sent = connected.clients.values();
        connected.requests + sent.map(|client| client.requests.load(Ordering::Relaxed)).sum::<u64>()
    }

    /// Returns who is reading this snapshot: the client with that pass or, if there is none, the server itself.
    pub fn reader(&self, commit: u64, seat: Seat) -> wire::OldestReader {
        let connected = lock(&self.connected);
        let mut clients = connected.clients.values();
        let client = clients.find(|client| client.has_seat(seat));
        client.map_or_else(
            || wire::OldestReader {
                commit,
                ..wire::OldestReader::default()
            },
            |client| client.reading(commit),
        )
    }

    /// Of the clients that have pinned a snapshot from before this generation of the store, returns the one that has had it pinned the
    /// longest.
    pub fn reader_before(&self, generation: u64) -> Option<wire::OldestReader> {
        let connected = lock(&self.connected);
        let readers = connected.clients.values().filter_map(|client| {
            let commit = client.reads_before(generation)?;
            Some(wire::OldestReader {
                earlier: true,
                ..client.reading(commit)
            })
        });
        readers.max_by_key(|reader| reader.milliseconds)
    }

    /// Returns all clients, as the client with the number `own` sees them.
    pub fn shown(&self, own: u64) -> wire::Clients {
        let connected = lock(&self.connected);
        wire::Clients {
            clients: connected.clients.values().map(|client| client.shown(own)).collect(),
        }
    }

    /// Closes a client's connection. Returns `None` if there is no client with this number.
    pub fn kick(&self, number: u64) -> Option<io::Result<Arc<Client>>> {
        let client = lock(&self.connected).clients.get(&number).cloned()?;
        match client.stream.shutdown(Shutdown::Both) {
            Err(error) if error.kind() != ErrorKind::NotConnected => Some(Err(error)),
            _ => Some(Ok(client)),
        }
    }

    /// Lets the clients finish: answers the requests they have already sent, and gives them some time to read the replies.
    pub fn end(&self) {
        for how in [Shutdown::Read, Shutdown::Both] {
            for client in lock(&self.connected).clients.values() {
                // This fails if the client has already left.
                let _ = client.stream.shutdown(how);
            }
            let until = Instant::now() + LAST;
            let mut connected = lock(&self.connected);
            while !connected.clients.is_empty() && Instant::now() < until {
                let left = until.saturating_duration_since(Instant::now());
                let waited = self.left.wait_timeout(connected, left);
                connected = waited.unwrap_or_else(PoisonError::into_inner).0;
            }
        }
    }
}
