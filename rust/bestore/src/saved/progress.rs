//! Watches the saving from outside, without waiting for it: a disk that hangs also keeps everyone waiting who has to wait for the file.

use super::queue::lock;
use std::collections::VecDeque;
use std::sync::{Arc, Mutex};
use std::time::{Duration, Instant};

/// How many of the latest commits are looked back on.
const COMMITS: usize = 64;

/// A disk that writes fewer bytes in a second counts as one that hangs.
const SLOWEST: u64 = 1 << 20;

#[derive(Debug, Default)]
struct State {
    /// When the oldest write was made that is waiting for a commit, and the oldest one that the current commit saves.
    waiting: Option<Instant>,
    saving: Option<Instant>,
    /// The time by which the file's current work should be over.
    due: Option<Instant>,
    commits: VecDeque<Duration>,
}

/// How the saving of a store is going; see [`Saved::progress`](super::Saved::progress). Its clones are about the same store.
#[derive(Clone, Debug, Default)]
pub struct Progress(Arc<Mutex<State>>);

impl Progress {
    /// Returns how long ago the oldest write was made that isn't saved yet.
    #[must_use]
    pub fn unsaved(&self) -> Option<Duration> {
        let state = lock(&self.0);
        state.saving.or(state.waiting).map(|since| since.elapsed())
    }

    /// Returns how much longer the disk has been taking for the current commit, or for rewriting the state, than a disk that writes
    /// 1 MiB in a second would. If this keeps growing, the disk hangs.
    #[must_use]
    pub fn overdue(&self) -> Option<Duration> {
        let due = lock(&self.0).due?;
        Instant::now().checked_duration_since(due)
    }

    /// Returns how long each of the last 64 commits took, without the time that their writes had waited before.
    #[must_use]
    pub fn commits(&self) -> Vec<Duration> {
        lock(&self.0).commits.iter().copied().collect()
    }

    /// Records that a write waits for a commit.
    pub(super) fn waits(&self) {
        lock(&self.0).waiting.get_or_insert_with(Instant::now);
    }

    /// Records that a commit with all waiting writes begins.
    pub(super) fn begins(&self) -> Instant {
        let mut state = lock(&self.0);
        state.saving = state.waiting.take();
        Instant::now()
    }

    /// Records that the commit that began at this time has succeeded.
    pub(super) fn ends(&self, begin: Instant) {
        let mut state = lock(&self.0);
        state.saving = None;
        if state.commits.len() == COMMITS {
            state.commits.pop_front();
        }
        state.commits.push_back(begin.elapsed());
    }

    /// Records that the file begins to write about this many bytes. They are written once the result is dropped.
    pub(super) fn works(&self, bytes: u64) -> Working<'_> {
        lock(&self.0).due = Some(Instant::now() + Duration::from_secs(bytes / SLOWEST));
        Working(self)
    }
}

/// The file's work.
pub(super) struct Working<'a>(&'a Progress);

impl Drop for Working<'_> {
    fn drop(&mut self) {
        lock(&self.0 .0).due = None;
    }
}
