//! The queue of writes that are waiting to be added to the log, and what this server knows about the log.

use super::error::{Error, Refused};
use bestore::{Batch, Keeper, MakeWrite, Written};
use bestore_types::saved::file::Row;
use std::mem;
use std::sync::{Arc, Condvar, Mutex, MutexGuard, PoisonError};
use std::time::{Duration, Instant};
use tokio::sync::Notify;

/// How many bytes may wait for the log before further writes have to wait.
const WAITING: usize = 16 << 20;

/// How long writes wait while the log can't be written to.
const PATIENCE: Duration = Duration::from_secs(10);

/// How often to check whether a wait for an entry is over.
const LOOK: Duration = Duration::from_millis(100);

/// A server's role.
#[derive(Clone, Copy, Debug, PartialEq, Eq)]
pub enum Role {
    Follower,
    /// The leader of this term. The term is the number of leaders so far.
    Leader {
        term: u64,
    },
}

impl Role {
    /// Reports the server's new role.
    pub fn say(self, leader: &str) {
        match self {
            Role::Leader { term } => report!("bestored: this server leads the log, in term {term}"),
            Role::Follower => report!("bestored: this server follows the log of {leader}"),
        }
    }
}

/// Why the log can't be read or written, and since when.
#[derive(Clone, Debug)]
pub struct Trouble {
    pub since: Instant,
    pub why: Arc<Error>,
}

impl Trouble {
    fn is_long(&self) -> bool {
        self.since.elapsed() >= PATIENCE
    }
}

#[derive(Debug)]
pub struct State {
    pub role: Role,
    /// The last known leader.
    pub leader: String,
    /// The number of the last entry in memory.
    pub written: u64,
    /// The number of the last entry that is both in memory and in the log.
    pub saved: u64,
    /// On a follower, the number of the last entry that the log was known to have.
    pub last: u64,
    pub trouble: Option<Trouble>,
    waiting: Vec<Row>,
    waiting_bytes: usize,
    /// Whether a state is being written in the place of the first entry. Until it is in the log, writes wait.
    is_beginning: bool,
    /// Whether the server is shutting down.
    is_closing: bool,
    /// How many times someone has asked whether this server still leads, and the number of the last question that was answered
    /// with yes.
    asked: u64,
    confirmed: u64,
    /// Whether the log's thread has ended.
    is_over: bool,
    failed: Option<Arc<Error>>,
}

impl State {
    /// Returns why writes are refused, or `None` if they aren't.
    fn refused(&self) -> Option<Refused> {
        if let Some(error) = &self.failed {
            return Some(Refused::Stopped(error.clone()));
        }
        match (self.role, &self.trouble) {
            (Role::Follower, _) => Some(Refused::NotLeader {
                leader: self.leader.clone(),
            }),
            (_, Some(trouble)) if trouble.is_long() => Some(Refused::Stopped(trouble.why.clone())),
            _ => None,
        }
    }

    /// Returns why the waiting writes have been given up, or `None` if they haven't.
    fn given_up(&self) -> Option<Arc<Error>> {
        let trouble = self.trouble.as_ref().filter(|trouble| trouble.is_long());
        self.failed
            .clone()
            .or_else(|| trouble.map(|trouble| trouble.why.clone()))
    }
}

/// The queue of writes, in order. The log's thread takes them from it.
#[derive(Debug)]
pub struct Line {
    state: Mutex<State>,
    changed: Condvar,
    work: Notify,
    /// The difference between an entry's number in the log and its commit number in the store.
    shift: u64,
}

impl Line {
    /// Creates the queue for a store whose last commit is `commit` and which contains the log's entries up to `entry`.
    pub fn new(role: Role, leader: String, entry: u64, commit: u64) -> Self {
        role.say(&leader);
        let state = State {
            role,
            leader,
            written: entry,
            saved: entry,
            last: entry,
            trouble: None,
            waiting: Vec::new(),
            waiting_bytes: 0,
            is_beginning: false,
            is_closing: false,
            asked: 0,
            confirmed: 0,
            is_over: false,
            failed: None,
        };
        Self {
            state: Mutex::new(state),
            changed: Condvar::new(),
            work: Notify::new(),
            shift: entry.wrapping_sub(commit),
        }
    }

    pub fn lock(&self) -> MutexGuard<'_, State> {
        self.state.lock().unwrap_or_else(PoisonError::into_inner)
    }

    fn wait<'a>(&self, state: MutexGuard<'a, State>, within: Duration) -> MutexGuard<'a, State> {
        let waited = self.changed.wait_timeout(state, within);
        waited.unwrap_or_else(PoisonError::into_inner).0
    }

    /// Changes the state, and wakes every thread that is waiting for a change.
    pub fn change<T>(&self, change: impl FnOnce(&mut State) -> T) -> T {
        let changed = change(&mut self.lock());
        self.changed.notify_all();
        changed
    }

    /// Returns the log's number for the entry with this commit number.
    pub fn entry(&self, commit: u64) -> u64 {
        commit.wrapping_add(self.shift)
    }

    /// Returns the commit number of this entry in the log.
    pub fn commit(&self, entry: u64) -> u64 {
        entry.wrapping_sub(self.shift)
    }

    /// Takes the waiting writes.
    pub fn take(&self) -> Vec<Row> {
        let mut state = self.lock();
        state.waiting_bytes = 0;
        mem::take(&mut state.waiting)
    }

    /// Waits until there may be writes, but no longer than `within`.
    pub async fn work(&self, within: Duration) {
        // It doesn't matter which comes first.
        let _ = tokio::time::timeout(within, self.work.notified()).await;
    }

    /// Records that the entries up to this one are both in memory and in the log.
    pub fn saved(&self, number: u64) {
        self.change(|state| {
            state.saved = number;
            state.written = state.written.max(number);
            state.trouble = None;
        });
    }

    /// Gives the store the contents of a state, which take the place of the log's first entry. Writes then wait for
    /// [`begun`](Self::begun). Returns the commit number.
    pub fn begin(&self, begin: impl FnOnce() -> bestore::Result<u64>) -> bestore::Result<u64> {
        self.change(|state| {
            if let Some(refused) = state.refused() {
                return Err(refused.into());
            }
            if state.written > 0 {
                return Err(bestore::Error::NotEmpty);
            }
            state.is_beginning = true;
            Ok(())
        })?;
        // The log's thread must not wait for this.
        let begun = begin();
        self.change(|state| match &begun {
            Ok(commit) => state.written = self.entry(*commit),
            Err(_) => state.is_beginning = false,
        });
        begun
    }

    /// Records that the log has these contents.
    pub fn begun(&self, commit: u64) {
        self.lock().is_beginning = false;
        self.saved(self.entry(commit));
    }

    /// Records that the log hasn't been readable or writable since this time. Returns whether this was unknown until now.
    pub fn trouble(&self, error: Error, since: Instant) -> bool {
        let why = Arc::new(error);
        self.change(|state| match &mut state.trouble {
            Some(trouble) => {
                trouble.why = why;
                false
            }
            none => {
                *none = Some(Trouble { since, why });
                true
            }
        })
    }

    /// Returns an error if this server can't make a write now.
    pub fn check(&self) -> Result<(), Refused> {
        self.lock().refused().map_or(Ok(()), Err)
    }

    /// Waits until it is certain that this server was the leader at some moment after the call, and so knows every entry that was
    /// in the log before the call.
    pub fn confirm(&self) -> Result<(), Refused> {
        let mut state = self.lock();
        state.asked += 1;
        let number = state.asked;
        self.work.notify_one();
        while state.confirmed < number {
            if let Some(refused) = state.refused() {
                return Err(refused);
            }
            if let Some(error) = state.given_up() {
                return Err(Refused::NotSaved(error));
            }
            state = self.wait(state, Duration::from_secs(1));
        }
        Ok(())
    }

    /// Returns the number of the last question, if anyone is waiting for an answer.
    pub fn asked(&self) -> Option<u64> {
        let state = self.lock();
        (state.confirmed < state.asked).then_some(state.asked)
    }

    /// Records that this server has been the leader since the question with this number was asked.
    pub fn confirmed(&self, asked: Option<u64>) {
        if let Some(asked) = asked {
            self.change(|state| state.confirmed = state.confirmed.max(asked));
        }
    }

    /// Waits until everything written before the call is in the log.
    pub fn flush(&self) -> Result<(), Refused> {
        let state = self.lock();
        let number = state.written;
        self.wait_saved(state, number).map(drop)
    }

    fn wait_saved<'a>(&self, mut state: MutexGuard<'a, State>, number: u64) -> Result<MutexGuard<'a, State>, Refused> {
        while state.saved < number {
            if let Some(error) = state.given_up() {
                return Err(Refused::NotSaved(error));
            }
            state = self.wait(state, Duration::from_secs(1));
        }
        Ok(state)
    }

    /// Waits, but no longer than `within` and only until `is_over`, until this server has the entry with this number. Returns the
    /// number of the last entry that it has.
    pub fn wait_for(&self, number: u64, within: Duration, mut is_over: impl FnMut() -> bool) -> u64 {
        let until = Instant::now() + within;
        let mut state = self.lock();
        while state.saved < number && state.failed.is_none() && !state.is_closing {
            let left = until.saturating_duration_since(Instant::now());
            if left.is_zero() || is_over() {
                break;
            }
            state = self.wait(state, left.min(LOOK));
        }
        state.saved
    }

    /// Makes this server a follower of that leader, unless it has made writes that the log may lack. Returns whether it now follows.
    pub fn step_down(&self, leader: &str) -> bool {
        let is_follower = self.change(|state| {
            let is_follower = state.written == state.saved && state.failed.is_none();
            if is_follower {
                state.role = Role::Follower;
                state.leader = leader.into();
                state.last = state.saved;
            }
            is_follower
        });
        if is_follower {
            Role::Follower.say(leader);
        }
        is_follower
    }

    /// Returns whether memory has writes that the log may lack.
    pub fn has_unsaved(&self) -> bool {
        let state = self.lock();
        state.written > state.saved
    }

    /// Records that the log can no longer be read or written, and why.
    pub fn fail(&self, error: Error) -> Arc<Error> {
        self.change(|state| state.failed.insert(Arc::new(error)).clone())
    }

    /// Lets the log's thread end once it has added the waiting writes.
    pub fn close(&self) {
        self.change(|state| state.is_closing = true);
        self.work.notify_one();
    }

    /// Returns whether the thread must end, because there is nothing left to write or it has been trying for too long.
    pub fn is_at_end(&self) -> bool {
        let state = self.lock();
        state.is_closing && (state.written == state.saved || state.given_up().is_some())
    }

    pub fn is_closing(&self) -> bool {
        self.lock().is_closing
    }

    /// Records that the thread has ended.
    pub fn end(&self) {
        self.change(|state| {
            state.is_over = true;
            if state.written > state.saved && state.failed.is_none() {
                let trouble = state.trouble.as_ref().map(|trouble| trouble.why.clone());
                state.failed = Some(trouble.unwrap_or_else(|| Arc::new(Error::Fault)));
            }
        });
    }

    /// Waits until the thread has ended. Returns the error if it failed.
    pub fn wait_end(&self) -> Result<(), Arc<Error>> {
        let mut state = self.lock();
        while !state.is_over {
            state = self.wait(state, Duration::from_secs(1));
        }
        state.failed.clone().map_or(Ok(()), Err)
    }
}

impl Keeper for Line {
    fn keep(&self, pass: u64, batch: &Batch, write: MakeWrite<'_>) -> bestore::Result<(Written, u64)> {
        let mut state = self.lock();
        while (state.waiting_bytes > WAITING || state.is_beginning) && state.refused().is_none() {
            state = self.wait(state, Duration::from_secs(1));
        }
        if let Some(refused) = state.refused() {
            return Err(refused.into());
        }
        let written = write()?;
        let number = self.entry(written.number);
        state.written = number;
        match Row::new(number, pass, batch, &written.nodes) {
            Ok(row) => {
                state.waiting_bytes += row.batch.len();
                state.waiting.push(row);
            }
            // A batch that the store has accepted can always be encoded, unless memory runs out. No entry may follow a missing one.
            Err(error) => {
                let error = state.failed.insert(Arc::new(Error::Store(error)));
                return Err(Refused::NotSaved(error.clone()).into());
            }
        }
        drop(state);
        self.work.notify_one();
        Ok((written, number))
    }

    fn wait(&self, number: u64) -> bestore::Result<()> {
        Ok(self.wait_saved(self.lock(), number).map(drop)?)
    }
}
