//! Limits how long snapshots may hold memory that something else is waiting for: pages, or a store that was carried on.

use bestore::{Batch, Error, Pass, Result, Retry, Written};
use std::sync::atomic::{AtomicU64, Ordering};
use std::thread;
use std::time::{Duration, Instant};

/// How often a connection with a pinned snapshot checks whether it has to unpin it.
pub const LOOK: Duration = Duration::from_millis(50);

/// How long a snapshot may stay pinned while something waits for its memory.
const AT_LEAST: Duration = Duration::from_secs(1);

/// How long a write waits for pages, and how long it pauses before its first retry and before later ones.
const WAIT: Duration = Duration::from_secs(3);
const FIRST_TRY: Duration = Duration::from_millis(1);
const TRY: Duration = Duration::from_millis(10);

/// Tracks whether anything is waiting for memory that snapshots hold.
#[derive(Debug)]
pub struct Pressure {
    /// How long a snapshot may stay pinned if no write is waiting.
    hold: Duration,
    /// How long a write waits for pages.
    wait: Duration,
    begin: Instant,
    /// When something last waited for memory, in milliseconds since the start, or 0 if nothing has waited yet.
    last: AtomicU64,
}

impl Pressure {
    pub fn new(hold: Duration) -> Self {
        Self {
            hold,
            wait: WAIT,
            begin: Instant::now(),
            last: AtomicU64::new(0),
        }
    }

    fn now(&self) -> u64 {
        u64::try_from(self.begin.elapsed().as_millis())
            .unwrap_or(u64::MAX)
            .max(1)
    }

    /// Returns whether a snapshot that was pinned at this time has to be unpinned.
    pub fn is_over(&self, since: Instant) -> bool {
        let age = since.elapsed();
        age >= self.hold || age >= AT_LEAST && self.is_on()
    }

    /// Records that something is waiting for memory that a snapshot holds.
    pub fn waits(&self) {
        self.last.store(self.now(), Ordering::Relaxed);
    }

    /// Returns whether a write is waiting, or was a moment ago.
    pub fn is_on(&self) -> bool {
        let last = self.last.load(Ordering::Relaxed);
        last != 0 && self.now().saturating_sub(last) <= 2 * LOOK.as_millis() as u64
    }

    /// Writes the batch. While other clients' snapshots hold the pages that the batch needs, retries for a limited time. Calls
    /// `made` once the batch is in memory.
    pub fn write(
        &self,
        pass: &Pass,
        expected: Option<u64>,
        batch: &Batch,
        mut made: impl FnMut(&Written),
    ) -> Result<Written> {
        let (mut until, mut is_last, mut pause) = (None, false, FIRST_TRY);
        loop {
            let (error, oldest) = match pass.apply_with(expected, batch, &mut made) {
                Err(error @ Error::Full { oldest }) => (error, oldest),
                written => return written,
            };
            let until = *until.get_or_insert_with(|| Instant::now() + self.wait);
            let status = pass.status()?;
            if is_last || !status.may_free_pages(pass.number()?, oldest) {
                return Err(error);
            }
            is_last = Instant::now() > until;
            // If there is no oldest reader, the snapshot has been unpinned since the write failed.
            if status.oldest.is_some() {
                self.waits();
                thread::sleep(pause);
                pause = TRY.min(2 * pause);
            }
        }
    }
}

/// Returns the retry settings for a connection's pass. The library retries a call only while another pass is busy.
pub fn retry() -> Retry {
    Retry {
        full: 0,
        ..Retry::default()
    }
}

#[cfg(test)]
mod tests {
    use super::*;
    use bestore::{Keeper, Limits, MakeWrite, Store};
    use std::sync::{Arc, Mutex};

    /// A keeper that doesn't keep writes. Before some of them, another pass pins a snapshot and writes until no page is free. It
    /// unpins the snapshot once the write has failed.
    #[derive(Debug)]
    struct Busy {
        other: Mutex<Pass>,
        /// How many more writes the other pass disturbs, and how many writes there have been.
        left: AtomicU64,
        writes: AtomicU64,
    }

    /// Writes until no page is free.
    fn fill(pass: &Pass) {
        let error = loop {
            if let Err(error) = pass.set(1, "size", 5_i64) {
                break error;
            }
        };
        assert!(matches!(error, Error::Full { .. }), "{error}");
    }

    impl Keeper for Busy {
        fn keep(&self, _: u64, _: &Batch, write: MakeWrite<'_>) -> Result<(Written, u64)> {
            self.writes.fetch_add(1, Ordering::Relaxed);
            let mut other = self.other.lock().unwrap();
            if self.left.load(Ordering::Relaxed) > 0 {
                self.left.fetch_sub(1, Ordering::Relaxed);
                other.hold()?;
                fill(&other);
            }
            let written = write();
            other.release();
            written.map(|written| (written, 0))
        }

        fn wait(&self, _: u64) -> Result<()> {
            Ok(())
        }
    }

    /// Returns the outcome of a write and the number of attempts, when another pass is busy for the first `busy` attempts.
    fn write_beside(store: &Store, busy: u64, batch: &Batch) -> (Result<Written>, u64) {
        let mut other = store.pass().unwrap();
        other.set_retry(Retry::NEVER);
        let busy = Arc::new(Busy {
            other: Mutex::new(other),
            left: AtomicU64::new(busy),
            writes: AtomicU64::new(0),
        });
        let mut pass = store.pass().unwrap().kept_by(busy.clone());
        pass.set_retry(retry());
        let pressure = Pressure {
            wait: Duration::from_secs(3600),
            ..Pressure::new(Duration::from_secs(60))
        };
        let mut made = 0;
        let written = pressure.write(&pass, None, batch, |_| made += 1);
        assert_eq!(made, u64::from(written.is_ok()));
        (written, busy.writes.load(Ordering::Relaxed))
    }

    fn store() -> Store {
        let limits = Limits {
            pages: 32,
            passes: 2,
            ..Limits::default()
        };
        let store = Store::open(limits).unwrap();
        store.pass().unwrap().new_node().unwrap();
        store
    }

    #[test]
    fn a_write_outlasts_one_snapshot_after_another() {
        let mut batch = Batch::new();
        batch.set(1, "size", 6_i64);
        for busy in [0, 1, 2, 5] {
            let (written, tries) = write_beside(&store(), busy, &batch);
            written.unwrap();
            assert_eq!(tries, busy + 1);
        }
    }

    #[test]
    fn a_write_without_room_is_refused_at_once() {
        let store = store();
        let mut pass = store.pass().unwrap();
        pass.set_retry(Retry::NEVER);
        let mut batch = Batch::new();
        batch.new_node();
        while pass.apply(&batch).is_ok() {}
        drop(pass);
        let (written, tries) = write_beside(&store, 0, &batch);
        assert!(matches!(written, Err(Error::Full { .. })), "{written:?}");
        assert_eq!(tries, 1);
    }
}
