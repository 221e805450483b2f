//! A log in PostgreSQL that several machines share. One server leads: it makes the writes, and adds each accepted transaction to
//! the log before it replies. The others follow: they apply the entries in order, and compare each outcome with the leader's.
//!
//! The leader holds an advisory lock in the database, so that there is only one leader. What ensures that no other server writes,
//! however, is the statement that adds entries: it adds them only in the last term, and only after the last entry.

mod access;
mod database;
mod error;
pub(crate) mod line;
mod member;
mod state;

pub use error::{Error, Refused};

use crate::failure::Failure;
use crate::kept::{Kept, Opening};
use crate::options::Options;
use crate::os;
use crate::reach;
use crate::server::Shared;
use crate::tokens::Tokens;
use access::Access;
use bestore::{Pass, StateCopy, Store};
use bestore_client::wire;
use error::Result;
use line::{Line, Role};
use member::Member;
use std::fs::File;
use std::future::Future;
use std::mem;
use std::os::unix::io::AsRawFd;
use std::sync::{Arc, Mutex, MutexGuard, PoisonError};
use std::thread;
use std::time::Duration;
use tokio::runtime::{Builder, Runtime};

/// How long a starting leader waits for the lock. The session of a leader that was killed may end slightly after the leader.
const FOR_LOCK: Duration = Duration::from_secs(5);

/// How long to wait after a failure before retrying.
const REST: Duration = Duration::from_millis(200);

fn runtime() -> Result<Runtime> {
    Builder::new_current_thread()
        .enable_all()
        .build()
        .map_err(Error::Thread)
}

/// Returns whether a signal that ends the program has arrived, or arrives within this time.
fn is_ending(signals: &File, within: Duration) -> Result<bool> {
    let [is_ending] = os::wait_readable([signals.as_raw_fd()], Some(within)).map_err(Error::Thread)?;
    Ok(is_ending)
}

/// Waits for the call. If a signal arrives first, gives the call up and returns `None`.
async fn until_signal<T>(signals: &File, call: impl Future<Output = Result<T>>) -> Result<Option<T>> {
    let mut call = Box::pin(call);
    loop {
        match tokio::time::timeout(REST, call.as_mut()).await {
            Ok(outcome) => return outcome.map(Some),
            Err(_) if is_ending(signals, Duration::ZERO)? => return Ok(None),
            Err(_) => {}
        }
    }
}

/// The log, and the store of a server that leads or follows.
#[derive(Debug)]
pub struct Log {
    store: Store,
    line: Arc<Line>,
    access: Access,
    /// Locked while the state is being written.
    writing_state: Mutex<()>,
    /// What the thread needs when it starts.
    begun: Mutex<Option<(Runtime, Member)>>,
}

impl Log {
    /// Connects, retrying while the database can't be reached, and rebuilds the store up to the end of the log. Returns `None` if
    /// a signal arrives first.
    pub fn open(opening: Opening<'_>) -> Result<Option<Self>> {
        let options = opening.options;
        let in_log = options.log.as_ref().ok_or(Error::NoLog)?;
        let access = Access::new(in_log, opening.socket, opening.run)?;
        let mut is_said = false;
        loop {
            match Self::begin(options, &access, opening.tokens, in_log.leads, opening.signals) {
                Err(error) if error.is_unreachable() => {
                    opening.notifier.waits(&error.to_string());
                    if !mem::replace(&mut is_said, true) {
                        report!("bestored: {error}; trying again");
                    }
                }
                begun => return begun,
            }
            if is_ending(opening.signals, REST)? {
                return Ok(None);
            }
        }
    }

    /// Connects without retrying. Fails if this server is to lead but another server already leads. Returns `None` if a signal arrives
    /// first.
    fn begin(
        options: &Options,
        access: &Access,
        tokens: &Arc<Tokens>,
        leads: bool,
        signals: &File,
    ) -> Result<Option<Self>> {
        let runtime = runtime()?;
        let begin = Member::begin(access.clone(), options.limits(), tokens.clone(), leads);
        let (member, store) = match runtime.block_on(until_signal(signals, begin)) {
            Ok(Some(begun)) => begun,
            not_begun => {
                // Dropping the runtime would wait until the database's name has been looked up, however long that takes.
                runtime.shutdown_background();
                return not_begun.map(|_| None);
            }
        };
        Ok(Some(Self {
            store,
            line: member.line().clone(),
            access: access.clone(),
            writing_state: Mutex::default(),
            begun: Mutex::new(Some((runtime, member))),
        }))
    }

    pub fn store(&self) -> &Store {
        &self.store
    }

    /// Takes a pass. Writes through it are added to the log.
    pub fn pass(&self) -> bestore::Result<Pass> {
        Ok(self.store.pass()?.kept_by(self.line.clone()))
    }

    /// Starts the log's thread, which runs until [`finish`](Self::finish) is called. If another server leads and this one has writes
    /// that the log lacks, the server begins again. If the thread fails otherwise, the program ends.
    pub fn start(shared: &Arc<Shared>) -> std::io::Result<()> {
        let shared = shared.clone();
        let thread = thread::Builder::new().name("log".into());
        let started = thread.spawn(move || {
            if let Kept::Log(log) = &shared.kept {
                log.run(&shared);
            }
        });
        started.map(drop)
    }

    fn run(&self, shared: &Arc<Shared>) {
        let _ending = Ending(&self.line);
        let begun = lock(&self.begun).take();
        let (runtime, mut member) = match begun {
            Some(begun) => begun,
            None => return,
        };
        if let Err(error) = runtime.block_on(member.run(shared)) {
            let is_deposed = matches!(error, Error::Deposed { .. });
            self.line.fail(error);
            match is_deposed {
                true => shared.again.ring(),
                false => os::end_program(),
            }
        }
    }

    /// Returns the log's number for the entry with this commit number.
    pub fn entry(&self, commit: u64) -> u64 {
        self.line.entry(commit)
    }

    /// Returns an error if this server can't make a write now, for example because it follows.
    pub fn check(&self) -> std::result::Result<(), Refused> {
        self.line.check()
    }

    /// Waits until it is certain that this server was the leader at some moment after the call.
    pub fn confirm(&self) -> std::result::Result<(), Refused> {
        self.line.confirm()
    }

    /// Waits until everything written so far is in the log.
    pub fn flush(&self) -> std::result::Result<(), Refused> {
        self.line.flush()
    }

    /// Waits for a limited time until this server has the requested entry, or until `is_over` returns `true`. Returns the server's
    /// status.
    pub fn status(
        &self,
        wanted: &wire::OfLog,
        is_over: impl FnMut() -> bool,
    ) -> std::result::Result<wire::LogStatus, Failure> {
        if let Some(entry) = wanted.entry {
            let found = self.line.wait_for(entry, reach::within(wanted.within)?, is_over);
            if found < entry {
                return Err(Failure::not_reached(entry, found));
            }
        }
        let state = self.line.lock();
        let (role, term) = match state.role {
            Role::Leader { term } => ("leader", Some(term)),
            Role::Follower => ("follower", None),
        };
        Ok(wire::LogStatus {
            role: role.into(),
            leader: state.leader.clone(),
            term,
            entry: state.saved,
            commit: self.line.commit(state.saved),
            trouble: state.trouble.as_ref().map(|trouble| trouble.why.to_string()),
        })
    }

    /// Returns the server's role, and how many entries it still lacks.
    pub fn role(&self) -> wire::Role {
        let state = self.line.lock();
        let (role, term, last) = match state.role {
            Role::Leader { term } => ("leader", Some(term), state.written),
            Role::Follower => ("follower", None, state.last),
        };
        wire::Role {
            role: role.into(),
            term,
            entry: state.saved,
            lag: last.saturating_sub(state.saved),
        }
    }

    /// Returns why the log can't be read or written, or `None` if it can.
    pub fn trouble(&self) -> Option<String> {
        let state = self.line.lock();
        state.trouble.as_ref().map(|trouble| trouble.why.to_string())
    }

    /// Writes the current state into the log, if this server leads.
    pub fn compact(&self) -> std::result::Result<(), Refused> {
        let _one = lock(&self.writing_state);
        let mut term = self.term()?;
        let not_written = |error| Refused::StateNotWritten(Arc::new(error));
        let state = self.store.copy_state().map_err(|error| not_written(error.into()))?;
        // The copy may contain writes that aren't in the log yet.
        self.flush()?;
        loop {
            match self.write_state(term, &state) {
                Err(Error::Deposed { .. }) if self.term()? != term => term = self.term()?,
                written => return written.map_err(not_written),
            }
        }
    }

    /// Gives the contents of a state to the store and to the log, which must be empty. In the log, they take the place of the first entry.
    /// If it isn't certain that the log has them, the program ends. Returns the commit number.
    pub fn restore(&self, batches: &[Vec<u8>], next: u64) -> std::result::Result<u64, Failure> {
        let _one = lock(&self.writing_state);
        let term = self.term()?;
        let commit = self.line.begin(|| self.store.begin_with(batches, next))?;
        let written = runtime().and_then(|runtime| {
            runtime.block_on(async {
                self.access
                    .connect()
                    .await?
                    .write_first_state(term, next, batches)
                    .await
            })
        });
        match written {
            Ok(true) => {
                self.line.begun(commit);
                Ok(commit)
            }
            not_written => {
                let error = not_written.err().unwrap_or(Error::NotFirst);
                report!("bestored: {error}");
                let failed = Refused::NotSaved(self.line.fail(error));
                os::end_program();
                Err(failed.into())
            }
        }
    }

    /// Returns the term in which this server leads. It begins a new one whenever it has had to connect again.
    fn term(&self) -> std::result::Result<u64, Refused> {
        let state = self.line.lock();
        match state.role {
            Role::Leader { term } => Ok(term),
            Role::Follower => Err(Refused::NotLeader {
                leader: state.leader.clone(),
            }),
        }
    }

    fn write_state(&self, term: u64, state: &StateCopy) -> Result<()> {
        let number = self.line.entry(state.number);
        runtime()?.block_on(async {
            let database = self.access.connect().await?;
            match database.write_state(term, number, state.next, &state.batches).await? {
                true => Ok(()),
                false => Err(Error::Deposed {
                    leader: database.head().await?.leader,
                    unsaved: 0,
                }),
            }
        })
    }

    /// Ends the thread once it has added the waiting writes.
    pub fn finish(&self) -> std::result::Result<(), Arc<Error>> {
        self.line.close();
        self.line.wait_end()
    }
}

/// Records the thread's end when it is dropped, even if the thread panics.
struct Ending<'a>(&'a Line);

impl Drop for Ending<'_> {
    fn drop(&mut self) {
        self.0.end();
        if thread::panicking() {
            self.0.fail(Error::Fault);
            os::end_program();
        }
    }
}

fn lock<T>(mutex: &Mutex<T>) -> MutexGuard<'_, T> {
    mutex.lock().unwrap_or_else(PoisonError::into_inner)
}
