//! The queue of writes to be saved. One of the waiting writers saves them or, if writes are saved within a given time, a separate thread
//! does.

use super::progress::Progress;
use super::{Error, Result};
use crate::pass::{Keeper, MakeWrite};
use crate::raw::Birthplace;
use crate::{Batch, Written};
use bestore_types::saved::file::{File, Row, LAST_NUMBER};
use bestore_types::saved::presence::Presence;
use std::mem;
use std::sync::atomic::{AtomicBool, Ordering};
use std::sync::{Arc, Condvar, Mutex, MutexGuard, PoisonError};
use std::thread::{self, JoinHandle};
use std::time::{Duration, Instant};

/// The number of bytes that can wait to be saved before further writes must wait too.
const WAITING: usize = 16 << 20;

pub(super) fn lock<T>(mutex: &Mutex<T>) -> MutexGuard<'_, T> {
    mutex.lock().unwrap_or_else(PoisonError::into_inner)
}

fn wait<'a, T>(condition: &Condvar, guard: MutexGuard<'a, T>) -> MutexGuard<'a, T> {
    condition.wait(guard).unwrap_or_else(PoisonError::into_inner)
}

/// The entries that have been written and those that have been saved, as numbers in the file.
#[derive(Debug)]
struct Line {
    waiting: Vec<Row>,
    waiting_bytes: usize,
    /// The time by which the first waiting write must be saved.
    due: Option<Instant>,
    written: u64,
    saved: u64,
    /// Whether a commit is in progress.
    is_saving: bool,
    /// Whether a thread is waiting for queued writes, so that they must be saved immediately.
    is_urgent: bool,
    is_closed: bool,
    failed: Option<Arc<Error>>,
}

impl Line {
    /// Takes the waiting rows, to save them now.
    fn take_rows(&mut self) -> Vec<Row> {
        self.due = None;
        self.is_urgent = false;
        self.is_saving = true;
        self.waiting_bytes = 0;
        mem::take(&mut self.waiting)
    }

    fn check(&self) -> std::result::Result<(), Arc<Error>> {
        match &self.failed {
            Some(error) => Err(error.clone()),
            None if self.is_closed => Err(Arc::new(Error::Closed)),
            None => Ok(()),
        }
    }

    /// Returns an error if a write that isn't saved came before the entry with this number.
    fn check_next(&self, number: u64) -> Result<()> {
        match number == self.written.wrapping_add(1) {
            true => Ok(()),
            false => Err(unsaved()),
        }
    }
}

/// Returns the error for writes to the store that weren't made through this queue. The file could have no entries after the gap.
fn unsaved() -> Error {
    Error::Store(crate::Error::other(
        "a write was made through a pass that doesn't save; open the file again, and take passes only from Saved",
    ))
}

#[derive(Debug)]
struct Shared {
    line: Mutex<Line>,
    /// Signals that there are writes to save, or that the queue is closing.
    work: Condvar,
    /// Signals that writes have been saved, or that saving has failed.
    done: Condvar,
    /// `Some` until the queue is closed.
    file: Mutex<Option<File>>,
    presence: Presence,
    progress: Progress,
    /// Whether the file's state should be rewritten.
    is_due: AtomicBool,
    every: Option<Duration>,
    /// The offset from commit numbers in the store to numbers in the file.
    shift: i64,
}

impl Shared {
    fn number_in_file(&self, commit: u64) -> u64 {
        commit.wrapping_add(self.shift as u64)
    }

    /// Waits until the entry with this number has been saved.
    fn wait_for<'a>(&'a self, mut line: MutexGuard<'a, Line>, number: u64) -> std::result::Result<(), Arc<Error>> {
        while line.saved < number {
            if let Some(error) = &line.failed {
                return Err(error.clone());
            }
            line = self.advance(line);
        }
        Ok(())
    }

    /// Commits the waiting rows, or waits until another thread has done so.
    fn advance<'a>(&'a self, mut line: MutexGuard<'a, Line>) -> MutexGuard<'a, Line> {
        if self.every.is_none() && !line.is_saving {
            return self.save_rows(line);
        }
        line.is_urgent = true;
        if self.every.is_some() {
            self.work.notify_one();
        }
        wait(&self.done, line)
    }

    /// Commits the waiting rows. Writes that arrive in the meantime wait for the next commit.
    fn save_rows<'a>(&'a self, mut line: MutexGuard<'a, Line>) -> MutexGuard<'a, Line> {
        let rows = line.take_rows();
        let begin = self.progress.begins();
        drop(line);
        let saving = Saving(self);
        let bytes = rows.iter().map(|row| row.batch.len() as u64).sum();
        let answer = self.with_file(|_| bytes, |file| file.append(&rows));
        // A file that isn't at its path any more has the rows, but whoever opens the path doesn't find them.
        let answer = answer.and_then(|()| self.presence.check());
        let mut line = lock(&self.line);
        match answer {
            Ok(()) => {
                line.saved = rows.last().map_or(line.saved, |row| row.number);
                self.progress.ends(begin);
            }
            Err(error) => line.failed = Some(Arc::new(error)),
        }
        line.is_saving = false;
        self.done.notify_all();
        mem::forget(saving);
        line
    }

    /// Waits until there are writes to save. Returns `None` when the queue is closing.
    fn next_work(&self) -> Option<MutexGuard<'_, Line>> {
        let mut line = lock(&self.line);
        loop {
            let is_due = line.is_urgent || line.is_closed;
            let left = line.due.map(|due| due.saturating_duration_since(Instant::now()));
            match left {
                None if line.is_closed => return None,
                None => line = wait(&self.work, line),
                Some(left) if is_due || left.is_zero() => return Some(line),
                Some(left) => {
                    let waited = self.work.wait_timeout(line, left);
                    line = waited.unwrap_or_else(PoisonError::into_inner).0;
                }
            }
        }
    }

    /// Saves waiting rows in a loop, until the queue is closing or a commit fails.
    fn save(&self) {
        while let Some(line) = self.next_work() {
            if self.save_rows(line).failed.is_some() {
                return;
            }
        }
    }

    /// Uses the file for work that writes about this many bytes.
    fn with_file<T>(&self, bytes: impl FnOnce(&File) -> u64, work: impl FnOnce(&mut File) -> Result<T>) -> Result<T> {
        match lock(&self.file).as_mut() {
            Some(file) => {
                let _working = self.progress.works(bytes(file));
                let outcome = work(file);
                self.is_due.store(file.is_due(), Ordering::Relaxed);
                outcome
            }
            None => Err(Error::Closed),
        }
    }
}

/// A commit in progress. If it panics, no thread keeps waiting for it.
struct Saving<'a>(&'a Shared);

impl Drop for Saving<'_> {
    fn drop(&mut self) {
        let mut line = lock(&self.0.line);
        line.is_saving = false;
        line.failed.get_or_insert_with(|| Arc::new(Error::Closed));
        self.0.done.notify_all();
    }
}

impl Keeper for Shared {
    fn keep(&self, pass: u64, batch: &Batch, write: MakeWrite<'_>) -> crate::Result<(Written, u64)> {
        let is_in_place = self.presence.check_file();
        is_in_place.map_err(|error| crate::Error::Stopped(Arc::new(error)))?;
        let mut line = lock(&self.line);
        while line.waiting_bytes > WAITING && line.failed.is_none() {
            line = self.advance(line);
        }
        line.check().map_err(crate::Error::Stopped)?;
        if line.written == LAST_NUMBER {
            return Err(crate::Error::CommitsSpent);
        }
        let written = write()?;
        let number = self.number_in_file(written.number);
        let row = line
            .check_next(number)
            .and_then(|()| Row::new(number, pass, batch, &written.nodes).map_err(Error::Store));
        let row = match row {
            Ok(row) => row,
            Err(error) => {
                let error = line.failed.insert(Arc::new(error));
                return Err(crate::Error::NotSaved(error.clone()));
            }
        };
        line.written = number;
        line.waiting_bytes += row.batch.len();
        line.waiting.push(row);
        self.progress.waits();
        if let (Some(time), None) = (self.every, line.due) {
            line.due = Some(Instant::now() + time);
            self.work.notify_one();
        }
        Ok((written, number))
    }

    fn wait(&self, number: u64) -> crate::Result<()> {
        if self.every.is_some() {
            return Ok(());
        }
        self.wait_for(lock(&self.line), number).map_err(crate::Error::NotSaved)
    }
}

/// A file's queue and, if writes are saved within a given time, its saving thread.
#[derive(Debug)]
pub(super) struct Queue {
    shared: Arc<Shared>,
    saving: Mutex<Option<JoinHandle<()>>>,
    is_closed: AtomicBool,
    birthplace: Birthplace,
}

impl Queue {
    /// Starts the thread if it is needed. `number` is the number of the last entry in the file, and `in_memory` that of the last entry in
    /// the store.
    pub(super) fn start(file: File, number: u64, in_memory: u64, every: Option<Duration>) -> Result<Self> {
        let shared = Arc::new(Shared {
            line: Mutex::new(Line {
                waiting: Vec::new(),
                waiting_bytes: 0,
                due: None,
                written: number,
                saved: number,
                is_saving: false,
                is_urgent: false,
                is_closed: false,
                failed: None,
            }),
            work: Condvar::new(),
            done: Condvar::new(),
            is_due: AtomicBool::new(file.is_due()),
            presence: file.presence().clone(),
            progress: Progress::default(),
            file: Mutex::new(Some(file)),
            every,
            shift: number.wrapping_sub(in_memory) as i64,
        });
        Ok(Self {
            saving: Mutex::new(every.map(|_| Self::start_thread(&shared)).transpose()?),
            shared,
            is_closed: AtomicBool::new(false),
            birthplace: Birthplace::here(),
        })
    }

    fn start_thread(shared: &Arc<Shared>) -> Result<JoinHandle<()>> {
        let shared = shared.clone();
        let thread = thread::Builder::new().name("bestore-saving".into());
        thread.spawn(move || shared.save()).map_err(Error::Thread)
    }

    pub(super) fn keeper(&self) -> Arc<dyn Keeper> {
        self.shared.clone()
    }

    pub(super) fn number_in_file(&self, commit: u64) -> u64 {
        self.shared.number_in_file(commit)
    }

    /// Uses the file for work that may rewrite all of it.
    pub(super) fn with_file<T>(&self, work: impl FnOnce(&mut File) -> Result<T>) -> Result<T> {
        self.shared.with_file(File::bytes, work)
    }

    pub(super) fn progress(&self) -> Progress {
        self.shared.progress.clone()
    }

    pub(super) fn is_due(&self) -> bool {
        self.shared.is_due.load(Ordering::Relaxed)
    }

    /// Returns the error from the commit that failed. In a forked child there is none: the thread that has the lock may not exist.
    pub(super) fn failure(&self) -> Option<Arc<Error>> {
        match self.birthplace.is_here() {
            true => lock(&self.shared.line).failed.clone(),
            false => None,
        }
    }

    /// Waits until the entry with this number has been saved or, if no number is given, until all entries have been. Then checks that the
    /// file is still at its path.
    pub(super) fn flush(&self, number: Option<u64>) -> Result<()> {
        let mut line = lock(&self.shared.line);
        let number = number.unwrap_or(line.written);
        if number > line.written {
            line.failed.get_or_insert_with(|| Arc::new(unsaved()));
        }
        self.shared.wait_for(line, number).map_err(Error::Stopped)?;
        self.shared.presence.check()
    }

    /// Begins with another volume: `begin` replaces that of the empty store and returns its commit number, and `write` writes it to the file,
    /// as the state after the entry with this number. Meanwhile, nothing else is written.
    pub(super) fn begin_with(
        &self,
        begin: impl FnOnce() -> Result<u64>,
        write: impl FnOnce(&mut File, u64) -> Result<()>,
    ) -> Result<u64> {
        self.shared.presence.check_file()?;
        let mut line = lock(&self.shared.line);
        line.check().map_err(Error::Stopped)?;
        let commit = begin()?;
        let number = self.number_in_file(commit);
        line.written = number;
        let written = self.with_file(|file| write(file, number));
        match written.and_then(|()| self.shared.presence.check()) {
            Ok(()) => {
                line.saved = number;
                Ok(commit)
            }
            Err(error) => Err(Error::Stopped(line.failed.insert(Arc::new(error)).clone())),
        }
    }

    /// Returns an error if the file isn't at its path any more.
    pub(super) fn check_file(&self) -> Result<()> {
        self.shared.presence.check_file()
    }

    /// Saves all waiting writes and ends the thread.
    pub(super) fn close(&self) -> Result<()> {
        if self.is_closed.swap(true, Ordering::Relaxed) {
            return Ok(());
        }
        let saving = lock(&self.saving).take();
        if !self.birthplace.is_here() {
            // A forked child doesn't have that thread, and must not close the file, which belongs to the parent.
            mem::forget((saving, self.shared.clone()));
            return Ok(());
        }
        lock(&self.shared.line).is_closed = true;
        if let Some(saving) = saving {
            self.shared.work.notify_one();
            // If the thread panicked, the flush below returns an error for anything that it hasn't saved.
            let _ = saving.join();
        }
        let flushed = self.flush(None);
        if let Some(file) = lock(&self.shared.file).take() {
            let _working = self.shared.progress.works(file.bytes());
            file.close();
        }
        flushed
    }
}

impl Drop for Queue {
    fn drop(&mut self) {
        let _ = self.close();
    }
}

#[cfg(test)]
mod tests {
    use super::*;
    use crate::saved::{Options, Saved};
    use rusqlite::Connection;
    use std::fs;
    use std::path::PathBuf;
    use std::thread::{Scope, ScopedJoinHandle};

    const WRITERS: u64 = 4;
    const HOUR: Duration = Duration::from_secs(3_600);

    /// A test doesn't wait longer than this for anything.
    const PATIENCE: Duration = Duration::from_secs(60);

    /// A test's folder with a file, which is removed when the test ends.
    struct Folder(PathBuf);

    impl Folder {
        fn new(name: &str) -> Self {
            let folder = std::env::temp_dir().join(format!("bestore-queue-{name}-{}", std::process::id()));
            fs::create_dir_all(&folder).unwrap();
            Self(folder)
        }

        fn file(&self) -> PathBuf {
            self.0.join("test.bestore")
        }

        fn open(&self, every: Option<Duration>) -> Saved {
            let mut options = Options::new();
            every.map(|time| options.every(time));
            options.open(self.file()).unwrap()
        }

        /// Creates the file, in which SQLite refuses the entry with this number, and undoes a commit with it.
        fn refuse(&self, entry: u64) {
            self.open(None).close().unwrap();
            let trigger = format!(
                "CREATE TRIGGER refuse BEFORE INSERT ON entry WHEN new.number = {entry} BEGIN SELECT RAISE(ABORT, 'refused'); END"
            );
            Connection::open(self.file()).unwrap().execute_batch(&trigger).unwrap();
        }

        /// Returns the number of the last entry in the closed file.
        fn last(&self) -> u64 {
            let saved = self.open(None);
            let line = lock(&saved.queue.shared.line);
            line.saved
        }
    }

    impl Drop for Folder {
        fn drop(&mut self) {
            let _ = fs::remove_dir_all(&self.0);
        }
    }

    /// Returns whether the condition was true in time.
    fn in_time(mut is_true: impl FnMut() -> bool) -> bool {
        let begin = Instant::now();
        while begin.elapsed() < PATIENCE {
            if is_true() {
                return true;
            }
            thread::sleep(Duration::from_millis(1));
        }
        false
    }

    type Writer<'scope> = ScopedJoinHandle<'scope, crate::Result<u64>>;

    /// Starts threads that each make a write, and returns once one of them has begun a commit of all these writes. If the file is
    /// locked, the commit doesn't get any further.
    fn write_at_once<'scope>(scope: &'scope Scope<'scope, '_>, saved: &'scope Saved) -> Vec<Writer<'scope>> {
        let shared = &saved.queue.shared;
        // As if a commit were in progress.
        lock(&shared.line).is_saving = true;
        let writer = |_| {
            let pass = saved.pass().unwrap();
            scope.spawn(move || pass.new_node())
        };
        let writers = (0..WRITERS).map(writer).collect();
        let are_waiting = in_time(|| lock(&shared.line).waiting.len() as u64 == WRITERS);
        lock(&shared.line).is_saving = false;
        shared.done.notify_all();
        assert!(are_waiting && in_time(|| lock(&shared.line).waiting.is_empty()));
        writers
    }

    #[test]
    fn each_write_of_a_commit_that_fails_returns_the_error() {
        let folder = Folder::new("refused");
        folder.refuse(WRITERS);
        let saved = folder.open(None);
        let answers: Vec<_> = thread::scope(|scope| {
            let writers = write_at_once(scope, &saved);
            writers.into_iter().map(|writer| writer.join().unwrap()).collect()
        });
        let is_refused = |answer: &crate::Result<u64>| matches!(answer, Err(crate::Error::NotSaved(error)) if matches!(**error, Error::Sqlite { .. }));
        assert!(answers.iter().all(is_refused), "{answers:?}");
        assert!(matches!(saved.flush(), Err(Error::Stopped(_))));
        assert!(saved.close().is_err());
        assert_eq!(folder.last(), 0);
    }

    #[test]
    fn a_flush_returns_the_error_of_a_commit_of_several_writes() {
        let folder = Folder::new("flushed");
        folder.refuse(WRITERS);
        let saved = folder.open(Some(HOUR));
        for _ in 0..WRITERS {
            saved.pass().unwrap().new_node().unwrap();
        }
        let flushed = saved.flush();
        assert!(
            matches!(&flushed, Err(Error::Stopped(error)) if matches!(**error, Error::Sqlite { .. })),
            "{flushed:?}"
        );
        assert!(saved.close().is_err());
        assert_eq!(folder.last(), 0);
    }

    #[test]
    fn no_write_returns_before_the_commit_with_it() {
        let folder = Folder::new("held");
        let saved = folder.open(None);
        let shared = &saved.queue.shared;
        thread::scope(|scope| {
            let file = lock(&shared.file);
            let writers = write_at_once(scope, &saved);
            // Whoever waits looks again.
            shared.done.notify_all();
            thread::sleep(Duration::from_millis(50));
            let counted = lock(&shared.line).saved;
            let returned = writers.iter().filter(|writer| writer.is_finished()).count();
            drop(file);
            assert_eq!((counted, returned), (0, 0));
            let mut nodes: Vec<u64> = writers
                .into_iter()
                .map(|writer| writer.join().unwrap().unwrap())
                .collect();
            nodes.sort_unstable();
            assert_eq!(nodes, (1..=WRITERS).collect::<Vec<_>>());
        });
        assert_eq!(lock(&shared.line).saved, WRITERS);
    }

    /// Such a write, and such a flush, find the saving thread neither waiting nor looking.
    #[test]
    fn a_write_during_a_commit_is_saved_without_another_signal() {
        let folder = Folder::new("gap");
        for (every, flushes) in [(HOUR, true), (Duration::from_millis(1), false)] {
            let saved = folder.open(Some(every));
            let (shared, pass) = (&saved.queue.shared, saved.pass().unwrap());
            let first = lock(&shared.line).saved + 1;
            let flush = || {
                if flushes {
                    drop(saved.flush());
                }
            };
            thread::scope(|scope| {
                let file = lock(&shared.file);
                pass.new_node().unwrap();
                scope.spawn(flush);
                let has_begun = in_time(|| lock(&shared.line).is_saving);
                pass.new_node().unwrap();
                scope.spawn(flush);
                let is_asked = in_time(|| !flushes || lock(&shared.line).is_urgent);
                drop(file);
                let is_saved = in_time(|| lock(&shared.line).saved > first);
                // Ends the threads that still wait.
                lock(&shared.line).is_closed = true;
                shared.work.notify_one();
                assert!(has_begun && is_asked && is_saved);
            });
        }
    }
}
