//! A thread that carries on the store when its journal has grown, so that the journal's memory is freed. It makes sure that no pass
//! keeps the earlier memory.

use crate::kept::Kept;
use crate::server::Shared;
use bestore::Error;
use std::sync::{Condvar, Mutex, MutexGuard, PoisonError, TryLockError};
use std::time::Duration;

/// How often the thread checks whether any pass still uses earlier memory.
const LOOK: Duration = Duration::from_millis(100);

#[derive(Debug, Default)]
struct State {
    is_due: bool,
    is_ending: bool,
}

/// What the thread waits on.
#[derive(Debug, Default)]
pub struct Carrying {
    state: Mutex<State>,
    wake: Condvar,
}

impl Carrying {
    fn lock(&self) -> MutexGuard<'_, State> {
        self.state.lock().unwrap_or_else(PoisonError::into_inner)
    }

    /// Wakes the thread after a write, if the store is due to be carried on.
    pub fn written(&self, kept: &Kept) {
        if kept.store().is_due() {
            self.lock().is_due = true;
            self.wake.notify_one();
        }
    }

    /// Ends [`run`](Self::run).
    pub fn end(&self) {
        self.lock().is_ending = true;
        self.wake.notify_one();
    }

    /// Carries the store on whenever it is due, until [`end`](Self::end) is called.
    pub fn run(&self, shared: &Shared) {
        let store = shared.kept.store();
        while self.wait(store.is_read_before()) {
            let carried = match store.is_due() {
                true => store.carry_on(),
                false => Ok(()),
            };
            match carried {
                Ok(()) => {}
                Err(Error::InUse) => shared.pressure.waits(),
                Err(error) => report!("bestored: the journal in memory can't be made shorter now: {error}"),
            }
            release(shared);
        }
    }

    /// Waits until the store may be due or, while passes still use earlier memory, for a short time. Returns `false` if the thread
    /// must end.
    fn wait(&self, is_read_before: bool) -> bool {
        let mut state = self.lock();
        if is_read_before && !state.is_ending {
            let waited = self.wake.wait_timeout_while(state, LOOK, |state| !state.is_ending);
            state = waited.unwrap_or_else(PoisonError::into_inner).0;
        } else {
            let wake = self.wake.wait_while(state, |state| !state.is_due && !state.is_ending);
            state = wake.unwrap_or_else(PoisonError::into_inner);
        }
        state.is_due = false;
        !state.is_ending
    }
}

/// Moves the server's own passes off the earlier memory. Clients' passes move between requests.
fn release(shared: &Shared) {
    shared.watcher.wake();
    let visits = match shared.visits.try_lock() {
        Ok(visits) => Some(visits),
        Err(TryLockError::Poisoned(poisoned)) => Some(poisoned.into_inner()),
        Err(TryLockError::WouldBlock) => None,
    };
    if let Some(mut pass) = visits {
        // If this fails, the next round tries again.
        let _ = pass.follow();
    }
}
