//! How a call that failed waits before it is tried again, and when it gives up.

use crate::{Error, Pass, Result};
use std::thread;
use std::time::{Duration, Instant};

/// The number of pauses that only yield, and the exponent of the longest pause in microseconds.
const YIELDS: u32 = 4;
const LONGEST: u32 = 10;

/// When to stop retrying a call and return its error: when either its time or its number of retries is used up. On each retry,
/// [`Pass::change`] runs its closure again.
///
/// The time begins with the first attempt that fails. Between attempts, the call first yields to other threads, and then sleeps for up to
/// a millisecond.
#[derive(Clone, Copy, Debug, PartialEq, Eq)]
pub struct Retry {
    /// The time for a call: 2 seconds by default.
    pub within: Duration,
    /// The time for a change: 5 seconds by default.
    pub change_within: Duration,
    /// Retries while another pass is writing.
    pub busy: u32,
    /// Retries while the store is full and another pass holds, or has just held, an older snapshot.
    pub full: u32,
    /// Retries by [`Pass::change`] after a conflict with another write.
    pub conflict: u32,
}

impl Retry {
    /// Never retries a call.
    pub const NEVER: Retry = Retry {
        within: Duration::ZERO,
        change_within: Duration::ZERO,
        busy: 0,
        full: 0,
        conflict: 0,
    };
}

impl Default for Retry {
    /// Retries up to 10,000 times for each reason. The time is usually up first.
    fn default() -> Self {
        Self {
            within: Duration::from_secs(2),
            change_within: Duration::from_secs(5),
            busy: 10_000,
            full: 10_000,
            conflict: 10_000,
        }
    }
}

/// How a call waits between its attempts.
pub(crate) struct Waits {
    left: Retry,
    within: Duration,
    /// When the first attempt failed.
    since: Option<Instant>,
    pauses: u32,
}

impl Waits {
    pub(crate) fn of_call(retry: Retry) -> Self {
        Self {
            left: retry,
            within: retry.within,
            since: None,
            pauses: 0,
        }
    }

    /// If a snapshot is held, a conflict is final, because every attempt would read the same snapshot.
    pub(crate) fn of_change(pass: &Pass) -> Self {
        let mut left = pass.retry();
        if pass.held().is_some() {
            left.conflict = 0;
        }
        Self {
            within: left.change_within,
            ..Self::of_call(left)
        }
    }

    /// Pauses after a failed attempt. Returns `false` without a pause if the time or the retries for this reason are used up.
    pub(crate) fn pause(&mut self, reason: impl FnOnce(&mut Retry) -> &mut u32) -> bool {
        let left = reason(&mut self.left);
        if *left == 0 || self.since.get_or_insert_with(Instant::now).elapsed() >= self.within {
            return false;
        }
        *left -= 1;
        match self.pauses {
            pauses if pauses < YIELDS => thread::yield_now(),
            pauses => thread::sleep(Duration::from_micros(1 << pauses.min(LONGEST))),
        }
        self.pauses += 1;
        true
    }

    /// Pauses after a write that found no free page, if pages may become free.
    pub(crate) fn pause_at_full(&mut self, pass: &Pass, oldest: u64) -> Result<bool> {
        Ok(self.left.full > 0 && pass.may_find_pages(oldest)? && self.pause(|left| &mut left.full))
    }

    /// Pauses after an error, or returns the error if the change gives up.
    pub(crate) fn after(&mut self, pass: &Pass, error: Error) -> Result<()> {
        let goes_on = match error {
            Error::Conflict { .. } => self.pause(|left| &mut left.conflict),
            Error::Busy { .. } => self.pause(|left| &mut left.busy),
            Error::Full { oldest } => self.pause_at_full(pass, oldest)?,
            _ => false,
        };
        if goes_on {
            Ok(())
        } else {
            Err(error)
        }
    }
}
