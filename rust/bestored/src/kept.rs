//! The server's store: in memory only, kept in a file, or in a log that several machines share.

use crate::disk::Disk;
use crate::failure::Failure;
use crate::hang::{self, Hang};
#[cfg(feature = "log")]
use crate::log::Log;
use crate::notify::Notifier;
use crate::options::Options;
use crate::os;
use crate::server::Shared;
use crate::tokens::Tokens;
use crate::writes::shown;
use bestore::saved::{self, Saved};
use bestore::{Class, Pass, Store, Written};
use bestore_client::wire::{self, ErrorName};
use std::error::Error;
use std::fs::File;
use std::io;
use std::path::{Path, PathBuf};
use std::sync::atomic::{AtomicBool, Ordering};
use std::sync::{Arc, Mutex, PoisonError};
use std::thread::{self, JoinHandle};

/// The store, and where its writes are kept.
#[derive(Debug)]
pub enum Kept {
    Memory(Store),
    File(Box<InFile>),
    #[cfg(feature = "log")]
    Log(Box<Log>),
}

/// What a server needs to open its store.
#[derive(Clone, Copy, Debug)]
#[cfg_attr(not(feature = "log"), allow(dead_code))]
pub struct Opening<'a> {
    pub options: &'a Options,
    /// The path of the socket, if it has one.
    pub socket: Option<&'a Path>,
    /// The server's run.
    pub run: &'a str,
    pub tokens: &'a Arc<Tokens>,
    pub notifier: &'a Notifier,
    /// Becomes readable once a signal has arrived.
    pub signals: &'a File,
}

/// A store that is kept in a file.
#[derive(Debug)]
pub struct InFile {
    saved: Arc<Saved>,
    path: PathBuf,
    each: bool,
    disk: Disk,
    hang: Hang,
    /// Whether the server is ending because a commit has failed.
    is_over: AtomicBool,
    /// The thread that rewrites the state, if one has been started.
    compacting: Mutex<Option<JoinHandle<()>>>,
}

impl InFile {
    fn open(options: &Options, path: &Path, tokens: &Tokens) -> Result<Self, Box<dyn Error>> {
        let mut opened = saved::Options::new();
        opened.limits(options.limits());
        if let Some(time) = options.every {
            opened.every(time);
        }
        let mut saved = opened.open(path)?;
        if saved.lacks_wal() {
            report_lone_file(path);
        }
        add_tokens(saved.take_tokens(), tokens);
        let hang = Hang::new(path.to_owned(), saved.progress(), options.hung);
        Ok(Self {
            saved: Arc::new(saved),
            path: path.to_owned(),
            each: options.every.is_none(),
            disk: Disk::of(path, options.spare)?,
            hang,
            is_over: AtomicBool::new(false),
            compacting: Mutex::default(),
        })
    }

    /// Returns the lengths of the file and of its WAL. If the file's path is a link, the WAL is beside the file that it names.
    fn sizes(&self) -> wire::Files {
        let length = |path: &Path| path.metadata().map_or(0, |found| found.len());
        let path = self.path.canonicalize().unwrap_or_else(|_| self.path.clone());
        let mut wal = path.clone().into_os_string();
        wal.push("-wal");
        wire::Files {
            bytes: length(&path),
            wal_bytes: length(Path::new(&wal)),
        }
    }

    /// Ends the server after a failed commit. While a file isn't at its path, the server goes on: a restart would find no store there,
    /// and what is in memory can still be read.
    fn end_if_failed(&self) {
        if self.saved.failure().is_some()
            && self.saved.check_file().is_ok()
            && !self.is_over.swap(true, Ordering::Relaxed)
        {
            os::end_program();
        }
    }

    /// Starts a thread that rewrites the state if it is due, unless one is already running or the disk has no space for a second copy of
    /// the file.
    fn compact_if_due(&self) {
        if !self.saved.is_due() || !self.disk.has_room(self.sizes().bytes) {
            return;
        }
        let mut compacting = match self.compacting.try_lock() {
            Ok(compacting) if compacting.as_ref().map_or(true, JoinHandle::is_finished) => compacting,
            _ => return,
        };
        let saved = self.saved.clone();
        let thread = thread::Builder::new().name("compaction".into()).spawn(move || {
            if let Err(error) = saved.compact() {
                report!("bestored: the state couldn't be rewritten: {error}");
            }
        });
        match thread {
            Ok(thread) => *compacting = Some(thread),
            Err(error) => report!("bestored: no thread could be started to rewrite the state: {error}"),
        }
    }

    /// Waits until no state is being rewritten, then saves all writes and closes the file, although clients' threads may still have it.
    fn finish(&self) -> saved::Result<()> {
        let compacting = self.compacting.lock().unwrap_or_else(PoisonError::into_inner).take();
        // Even if the thread has panicked, the file still has its entries.
        let _ = compacting.map(JoinHandle::join);
        self.saved.end()
    }

    /// Returns the outcome of a call that uses the file, and ends the server if a commit has failed.
    fn checked<T>(&self, outcome: saved::Result<T>) -> Result<T, Failure> {
        if outcome.is_err() {
            self.end_if_failed();
        }
        Ok(outcome?)
    }
}

/// Starts the log's thread, if there is a log.
#[cfg(feature = "log")]
pub fn start(shared: &Arc<Shared>) -> io::Result<()> {
    match &shared.kept {
        Kept::Log(_) => Log::start(shared),
        _ => Ok(()),
    }
}

#[cfg(not(feature = "log"))]
pub fn start(_: &Arc<Shared>) -> io::Result<()> {
    Ok(())
}

impl Kept {
    /// Opens the store. Returns `None` if a signal arrived before the log had been read.
    pub fn open(opening: Opening<'_>) -> Result<Option<Self>, Box<dyn Error>> {
        let Opening { options, tokens, .. } = opening;
        if options.log.is_some() {
            return Self::open_log(opening);
        }
        let path = match &options.keep {
            None => return Ok(Some(Kept::Memory(Store::open(options.limits())?))),
            Some(path) => path,
        };
        let file = hang::while_loading(opening.signals, || InFile::open(options, path, tokens))?;
        Ok(Some(Kept::File(Box::new(file))))
    }

    #[cfg(feature = "log")]
    fn open_log(opening: Opening<'_>) -> Result<Option<Self>, Box<dyn Error>> {
        let log = Log::open(opening)?;
        Ok(log.map(|log| Kept::Log(Box::new(log))))
    }

    #[cfg(not(feature = "log"))]
    fn open_log(_: Opening<'_>) -> Result<Option<Self>, Box<dyn Error>> {
        Err(crate::Unusable("this program was built without the feature log").into())
    }

    /// Returns the store in memory. Writes are kept only if they go through a pass from [`pass`](Self::pass).
    pub fn store(&self) -> &Store {
        match self {
            Kept::Memory(store) => store,
            Kept::File(file) => file.saved.store(),
            #[cfg(feature = "log")]
            Kept::Log(log) => log.store(),
        }
    }

    pub fn pass(&self) -> bestore::Result<Pass> {
        match self {
            Kept::Memory(store) => store.pass(),
            Kept::File(file) => file.saved.pass(),
            #[cfg(feature = "log")]
            Kept::Log(log) => log.pass(),
        }
    }

    /// Returns the value that `hello` uses to say when writes reach the file or the log.
    pub fn when(&self) -> &'static str {
        match self {
            Kept::Memory(_) => "no",
            Kept::File(file) if !file.each => "every",
            _ => "each",
        }
    }

    /// Returns an error once a commit has failed, so that reads and writes are refused.
    pub fn check(&self) -> Result<(), Failure> {
        match self {
            Kept::File(file) if file.is_over.load(Ordering::Relaxed) => Err(Failure::new(
                ErrorName::Stopped,
                "a commit has failed, and the server is stopping",
            )),
            _ => Ok(()),
        }
    }

    /// Returns an error if a write can't be made here, either for lack of space or because another server has to make it.
    pub fn check_write(&self) -> Result<(), Failure> {
        let trouble = match self {
            Kept::File(file) => file.disk.trouble(),
            #[cfg(feature = "log")]
            Kept::Log(log) => return Ok(log.check()?),
            _ => None,
        };
        match trouble {
            Some(trouble) => {
                Err(Failure::new(ErrorName::Stopped, format!("nothing was written: {trouble}")).of_class(Class::Full))
            }
            None => Ok(()),
        }
    }

    /// Waits until it is certain that this server knows every write made before the call. With a log, another server may have
    /// taken over while this one was paused.
    pub fn confirm(&self) -> Result<(), Failure> {
        match self {
            #[cfg(feature = "log")]
            Kept::Log(log) => Ok(log.confirm()?),
            _ => Ok(()),
        }
    }

    /// Returns the lengths of the files, if the store is kept in one.
    pub fn files(&self) -> Option<wire::Files> {
        match self {
            Kept::File(file) => Some(file.sizes()),
            _ => None,
        }
    }

    /// Returns how the saving in the file is going, if there is one.
    pub fn hang(&self) -> Option<&Hang> {
        match self {
            Kept::File(file) => Some(&file.hang),
            _ => None,
        }
    }

    /// Returns the server's role in the log, if there is a log.
    pub fn role(&self) -> Option<wire::Role> {
        match self {
            #[cfg(feature = "log")]
            Kept::Log(log) => Some(log.role()),
            _ => None,
        }
    }

    /// Returns why writes can't be kept at the moment, or `None` if they can.
    pub fn trouble(&self) -> Option<String> {
        match self {
            Kept::Memory(_) => None,
            Kept::File(file) => {
                let failure = file.saved.failure().map(|error| error.to_string());
                let failure = failure.or_else(|| file.saved.check_file().err().map(|error| error.to_string()));
                let failure = failure.or_else(|| file.hang.trouble());
                failure.or_else(|| file.disk.trouble())
            }
            #[cfg(feature = "log")]
            Kept::Log(log) => log.trouble(),
        }
    }

    /// Ends the server if a commit has failed, since memory then has writes that the file lacks.
    pub fn end_if_failed(&self) {
        if let Kept::File(file) = self {
            file.end_if_failed();
        }
    }

    /// Starts compacting the file, if compaction is due.
    pub fn compact_if_due(&self) {
        if let Kept::File(file) = self {
            file.compact_if_due();
        }
    }

    /// Waits until all writes so far are kept, if replies to writes wait for that.
    pub fn flush_if_each(&self) -> Result<(), Failure> {
        match self {
            Kept::Memory(_) => Ok(()),
            Kept::File(file) if !file.each => Ok(()),
            _ => self.flush(),
        }
    }

    pub fn flush(&self) -> Result<(), Failure> {
        match self {
            Kept::Memory(_) => Err(not_kept()),
            Kept::File(file) => file.checked(file.saved.flush()),
            #[cfg(feature = "log")]
            Kept::Log(log) => Ok(log.flush()?),
        }
    }

    pub fn compact(&self) -> Result<(), Failure> {
        match self {
            Kept::Memory(_) => Err(not_kept()),
            Kept::File(file) => file.checked(file.saved.compact()),
            #[cfg(feature = "log")]
            Kept::Log(log) => Ok(log.compact()?),
        }
    }

    /// Gives the contents of a state to the store, if nobody has ever written to it. Returns the commit number.
    pub fn restore(&self, batches: &[Vec<u8>], next: u64) -> Result<u64, Failure> {
        match self {
            Kept::Memory(store) => Ok(store.begin_with(batches, next)?),
            Kept::File(file) => file.checked(file.saved.begin_with(batches, next)),
            #[cfg(feature = "log")]
            Kept::Log(log) => log.restore(batches, next),
        }
    }

    /// Returns the log's number for the entry with this commit number, if there is a log.
    pub fn entry(&self, commit: u64) -> Option<u64> {
        match self {
            #[cfg(feature = "log")]
            Kept::Log(log) => Some(log.entry(commit)),
            _ => {
                let _ = commit;
                None
            }
        }
    }

    /// Returns the server's status in the log once the server has the requested entry, or once `is_over` returns `true`.
    pub fn log_status(&self, wanted: &wire::OfLog, is_over: impl FnMut() -> bool) -> Result<wire::LogStatus, Failure> {
        match self {
            #[cfg(feature = "log")]
            Kept::Log(log) => log.status(wanted, is_over),
            _ => {
                let _ = (wanted, is_over);
                Err(Failure::named(ErrorName::NoLog))
            }
        }
    }

    /// Saves all writes, and closes the file.
    pub fn finish(&self) -> Result<(), Box<dyn Error>> {
        match self {
            Kept::Memory(_) => Ok(()),
            Kept::File(file) => Ok(file.finish()?),
            #[cfg(feature = "log")]
            Kept::Log(log) => Ok(log.finish()?),
        }
    }
}

fn not_kept() -> Failure {
    Failure::named(ErrorName::NotKept)
}

/// Reports a file that is empty because its WAL wasn't copied with it.
fn report_lone_file(path: &Path) {
    report!(
        "bestored: {0}: the store is empty, but this file seems to be a copy of one in use, without its -wal; to copy a store, use be \
         backup, or copy {0}-wal and {0}-last too",
        path.display()
    );
}

/// Adds the tokens that were found in the file.
fn add_tokens(found: Vec<saved::Token>, tokens: &Tokens) {
    for token in found {
        let written = Written {
            number: token.commit,
            nodes: token.nodes,
        };
        tokens.add(token.text.into(), shown(&written));
    }
}
