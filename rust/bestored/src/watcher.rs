//! Live queries. One thread runs them after writes, and pushes the changes to the clients.
//!
//! A round looks only at what was written since the last one. That is usually little, so refreshing an answer of 96 nodes or more
//! takes less time than running the whole query. For a smaller answer, the library runs the whole query. A writer that finds the
//! lock taken during a round retries.

use crate::failure::Failure;
use crate::kept::Kept;
use crate::memory;
use crate::outbox::{Outbox, Pusher};
use crate::pressure::Pressure;
use crate::server::Seldom;
use bestore::{Error, Live, Pass, Snapshot, Updates};
use bestore_client::wire::{self, Push, Refusal};
use std::sync::atomic::{fence, AtomicUsize, Ordering};
use std::sync::{Arc, Condvar, Mutex, MutexGuard, PoisonError};
use std::thread;
use std::time::{Duration, Instant};

/// The maximum number of nodes per line.
pub const NODES: usize = wire::NODES;

/// How often to retry sending lines that a client isn't reading.
const AGAIN: Duration = Duration::from_millis(20);

/// The bounds on how long the thread rests after a round. Within them, it rests as long as the round took.
const REST: (Duration, Duration) = (Duration::from_millis(1), Duration::from_millis(200));

fn lock<T>(mutex: &Mutex<T>) -> MutexGuard<'_, T> {
    mutex.lock().unwrap_or_else(PoisonError::into_inner)
}

/// A client's watch. Its query runs again only after all changes that it found have been pushed.
#[derive(Debug)]
pub struct Watch {
    pub number: u64,
    /// The query, or `None` if the watch pushes every commit.
    pub live: Option<Live>,
    /// The number of the snapshot that the changes found so far lead to.
    pub commit: u64,
    /// The changes that haven't been pushed yet.
    pub rest: Updates,
    /// Whether all changes that were found have been pushed.
    is_pushed: bool,
    failed: Option<Refusal>,
    is_over: bool,
}

impl Watch {
    /// Creates a watch. The client already has the query's answer in the snapshot with this number, except for `rest`.
    pub fn new(number: u64, live: Option<Live>, commit: u64, rest: Updates) -> Self {
        Self {
            number,
            live,
            commit,
            is_pushed: rest.created.is_empty(),
            rest,
            failed: None,
            is_over: false,
        }
    }

    /// Runs the query, if the snapshot is newer than the changes found so far. If it is older, it was pinned before the watch began, and
    /// adding the watch has already started another round.
    fn ask(&mut self, snapshot: &Snapshot<'_>) {
        if !self.is_pushed || self.is_over || snapshot.number() <= self.commit {
            return;
        }
        match self.live.as_mut().map(|live| live.refresh_changed(snapshot)) {
            None => self.is_pushed = false,
            Some(Ok(updates)) => {
                self.is_pushed = updates == Updates::default();
                self.rest = updates;
            }
            // The next round may have enough memory.
            Some(Err(Error::OutOfMemory)) => return,
            Some(Err(error)) => self.failed = Some(Failure::from(error).0),
        }
        self.commit = snapshot.number();
    }

    /// Returns whether there is anything to push.
    fn has_news(&self) -> bool {
        !self.is_pushed || self.failed.is_some()
    }

    /// Runs the query in this snapshot, even if the snapshot is an older one, and returns the changes. If earlier changes haven't
    /// been pushed yet, returns those first, with `more` set. An error leaves the watch unchanged.
    pub fn refresh(&mut self, snapshot: &Snapshot<'_>) -> Result<Push, Failure> {
        let is_left = !self.is_pushed;
        if !is_left {
            if let Some(live) = &mut self.live {
                self.rest = live.refresh_changed(snapshot)?;
            }
            self.is_pushed = self.rest == Updates::default();
            self.commit = snapshot.number();
            self.failed = None;
        }
        let mut push = self.next_push().unwrap_or_else(|| Push {
            watch: self.number,
            commit: self.commit,
            ..Push::default()
        });
        push.more |= is_left;
        Ok(push)
    }

    /// Returns the next line to push.
    fn next_push(&mut self) -> Option<Push> {
        let error = self.failed.take();
        if self.is_pushed && error.is_none() {
            return None;
        }
        self.is_over = error.is_some();
        let created = take(&mut self.rest.created, NODES);
        let removed = take(&mut self.rest.removed, NODES - created.len());
        let more = self.rest != Updates::default();
        self.is_pushed = !more;
        Some(Push {
            watch: self.number,
            commit: self.commit,
            created,
            removed,
            more,
            error,
        })
    }
}

/// Removes the first `most` elements from the list and returns them.
pub fn take(list: &mut Vec<u64>, most: usize) -> Vec<u64> {
    list.drain(..most.min(list.len())).collect()
}

/// The watches of one client.
#[derive(Debug)]
pub struct Watches {
    outbox: Arc<Outbox>,
    list: Mutex<Vec<Watch>>,
}

impl Watches {
    pub fn new(outbox: Arc<Outbox>) -> Self {
        Self {
            outbox,
            list: Mutex::default(),
        }
    }

    pub fn count(&self) -> usize {
        lock(&self.list).len()
    }

    /// Takes a watch off the list, so that nothing is pushed for it until it is added again.
    pub fn take(&self, number: u64) -> Option<Watch> {
        let mut list = lock(&self.list);
        let at = list.iter().position(|watch| watch.number == number)?;
        Some(list.swap_remove(at))
    }

    /// Runs the queries in the current snapshot, switching to a newer one whenever a write is waiting for pages. Returns whether
    /// there is anything to push.
    fn ask(&self, pass: &mut Pass, pressure: &Pressure) -> bestore::Result<bool> {
        let mut list = lock(&self.list);
        let mut left = list.iter_mut().peekable();
        while left.peek().is_some() {
            let snapshot = pass.pin()?;
            for watch in left.by_ref() {
                watch.ask(&snapshot);
                if pressure.is_on() {
                    break;
                }
            }
        }
        Ok(list.iter().any(Watch::has_news))
    }

    /// Pushes the changes that were found. Returns whether anything is left to push.
    fn push(&self) -> bool {
        let mut list = lock(&self.list);
        let pusher = self.outbox.pusher();
        let is_sent = pusher.map_or(false, |pusher| push_all(&mut list, pusher));
        list.retain(|watch| !watch.is_over);
        !is_sent
    }
}

/// Pushes lines until none are left, the client accepts no more, or memory is short. Returns whether none are left.
fn push_all(list: &mut [Watch], mut pusher: Pusher<'_>) -> bool {
    for watch in list {
        while watch.has_news() {
            if memory::check().is_err() {
                return false;
            }
            let mut line = match watch.next_push().map(|push| serde_json::to_vec(&push)) {
                Some(Ok(line)) => line,
                _ => break,
            };
            line.push(b'\n');
            if !pusher.push(line) {
                return false;
            }
        }
    }
    true
}

#[derive(Debug, Default)]
struct State {
    clients: Vec<Arc<Watches>>,
    is_due: bool,
    is_ending: bool,
}

/// All watches, and the thread that serves them.
#[derive(Debug, Default)]
pub struct Watcher {
    state: Mutex<State>,
    wake: Condvar,
    /// The number of clients that have watches.
    clients: AtomicUsize,
    /// For the report that there is no snapshot for the live queries.
    is_stuck: Seldom,
}

impl Watcher {
    /// Begins a round after a write, if any client has watches.
    pub fn written(&self) {
        // Either this count includes a client that is just adding a watch, or the round that its watch begins sees the write.
        fence(Ordering::SeqCst);
        if self.clients.load(Ordering::Relaxed) > 0 {
            self.wake();
        }
    }

    /// Begins a round, even if there are no clients.
    pub fn wake(&self) {
        lock(&self.state).is_due = true;
        self.wake.notify_one();
    }

    /// Adds a watch to the client's watches, and adds the client if this is its first.
    pub fn add(&self, watches: &Arc<Watches>, watch: Watch) {
        lock(&watches.list).push(watch);
        let mut state = lock(&self.state);
        if !state.clients.iter().any(|client| Arc::ptr_eq(client, watches)) {
            state.clients.push(watches.clone());
        }
        self.clients.store(state.clients.len(), Ordering::Relaxed);
        fence(Ordering::SeqCst);
        state.is_due = true;
        self.wake.notify_one();
    }

    /// Ends a watch; nothing is pushed for it after this call. Returns whether there was a watch with this number.
    pub fn remove(&self, watches: &Watches, number: u64) -> bool {
        let mut list = lock(&watches.list);
        let before = list.len();
        list.retain(|watch| watch.number != number);
        list.len() < before
    }

    /// Ends all watches of a client.
    pub fn leave(&self, watches: &Arc<Watches>) {
        let mut state = lock(&self.state);
        state.clients.retain(|client| !Arc::ptr_eq(client, watches));
        self.clients.store(state.clients.len(), Ordering::Relaxed);
    }

    /// Returns how many watches there are.
    pub fn count(&self) -> usize {
        let clients = lock(&self.state).clients.clone();
        clients.iter().map(|client| client.count()).sum()
    }

    /// Serves the watches until [`end`](Self::end) is called.
    pub fn run(&self, mut pass: Pass, pressure: &Pressure, kept: &Kept) {
        self.repeat(|clients| {
            // If this fails, the next round tries again.
            let _ = pass.follow();
            round(clients, &mut pass, pressure, kept, &self.is_stuck)
        });
    }

    /// Calls the function after writes, and again after a short time if it returns that something is left to push. If a write comes
    /// after the function has looked at the store, the function is called once more.
    fn repeat(&self, mut round: impl FnMut(&[Arc<Watches>]) -> bool) {
        let mut is_left = false;
        while let Some(clients) = self.wait(is_left) {
            let started = Instant::now();
            is_left = round(&clients);
            thread::sleep(started.elapsed().clamp(REST.0, REST.1));
        }
    }

    /// Ends [`run`](Self::run).
    pub fn end(&self) {
        lock(&self.state).is_ending = true;
        self.wake.notify_one();
    }

    /// Waits until there is something to do, and returns the clients. Returns `None` if the thread must end.
    fn wait(&self, is_left: bool) -> Option<Vec<Arc<Watches>>> {
        let mut state = lock(&self.state);
        while !state.is_due && !state.is_ending {
            if is_left {
                let waited = self.wake.wait_timeout(state, AGAIN);
                state = waited.unwrap_or_else(PoisonError::into_inner).0;
                break;
            }
            state = self.wake.wait(state).unwrap_or_else(PoisonError::into_inner);
        }
        state.is_due = false;
        (!state.is_ending).then(|| state.clients.clone())
    }
}

/// Serves each client once. Holds no snapshot while it waits for the file or a client. Returns whether anything is left to push.
fn round(clients: &[Arc<Watches>], pass: &mut Pass, pressure: &Pressure, kept: &Kept, is_stuck: &Seldom) -> bool {
    let mut is_left = false;
    for client in clients {
        match client.ask(pass, pressure) {
            // Changes aren't pushed before they are in the file or the log. Once the log can be written to again, its thread starts
            // another round.
            Ok(true) if kept.flush_if_each().is_err() => return false,
            Ok(_) => is_left |= client.push(),
            Err(error) => {
                if is_stuck.is_due() {
                    report!("bestored: the live queries could not get a snapshot: {error}");
                }
                is_left = true;
            }
        }
    }
    is_left
}

#[cfg(test)]
mod tests {
    use super::*;
    use crate::outbox::PATIENCE;
    use std::os::unix::net::UnixStream;
    use std::sync::atomic::AtomicU64;
    use std::sync::mpsc;

    /// How long a test waits for a round that has to come.
    const COMES: Duration = Duration::from_secs(60);

    /// Returns the watches of a client that has one on each commit.
    fn watches(watcher: &Watcher) -> Arc<Watches> {
        let (_client, server) = UnixStream::pair().unwrap();
        let watches = Arc::new(Watches::new(Arc::new(Outbox::new(Arc::new(server), PATIENCE))));
        watcher.add(&watches, Watch::new(1, None, 0, Updates::default()));
        watches
    }

    /// A write comes in each round, directly after the round has looked at the store.
    #[test]
    fn a_write_between_a_look_and_the_wait_begins_another_round() {
        const WRITES: u64 = 20;
        let watcher = Watcher::default();
        let _watches = watches(&watcher);
        let (written, (looks, looked)) = (AtomicU64::new(0), mpsc::channel());
        let seen = thread::scope(|scope| {
            let (watcher, written) = (&watcher, &written);
            scope.spawn(move || {
                watcher.repeat(|_| {
                    let seen = written.load(Ordering::SeqCst);
                    if seen < WRITES {
                        written.fetch_add(1, Ordering::SeqCst);
                        watcher.written();
                    }
                    looks.send(seen).is_err()
                });
            });
            let seen: Vec<_> = (0..=WRITES).map_while(|_| looked.recv_timeout(COMES).ok()).collect();
            watcher.end();
            seen
        });
        assert_eq!(seen, (0..=WRITES).collect::<Vec<_>>());
    }

    /// A write comes as soon as a round is over, so that some come while the thread begins to wait.
    #[test]
    fn no_write_is_missed_at_the_beginning_of_a_wait() {
        let (watcher, rounds) = (Watcher::default(), AtomicU64::new(0));
        let _watches = watches(&watcher);
        let missed = thread::scope(|scope| {
            scope.spawn(|| {
                while watcher.wait(false).is_some() {
                    rounds.fetch_add(1, Ordering::SeqCst);
                }
            });
            // The first round begins because the client has come.
            let (begin, mut writes) = (Instant::now(), 1);
            let is_seen = |writes| {
                let written = Instant::now();
                while rounds.load(Ordering::SeqCst) < writes && written.elapsed() < COMES {
                    std::hint::spin_loop();
                }
                rounds.load(Ordering::SeqCst) >= writes
            };
            while is_seen(writes) && begin.elapsed() < Duration::from_secs(1) {
                watcher.written();
                writes += 1;
            }
            watcher.end();
            (!is_seen(writes)).then_some(writes)
        });
        assert_eq!(missed, None);
    }
}
