//! Whose turn it is to use a client: one call at a time, and while the function of a change runs, only calls from its thread.

use std::sync::atomic::{AtomicU8, AtomicUsize, Ordering};

const FREE: u8 = 0;
const IN_CALL: u8 = 1;
pub(crate) const IN_CHANGE: u8 = 2;

thread_local! {
    /// Its address differs from that of every other thread.
    static MARK: u8 = const { 0 };
}

fn this_thread() -> usize {
    MARK.with(|mark| mark as *const u8 as usize)
}

/// The turn, and the thread whose call it is or was.
#[derive(Debug, Default)]
pub(crate) struct Turn {
    state: AtomicU8,
    thread: AtomicUsize,
}

impl Turn {
    fn changes(&self, from: u8) -> bool {
        let changed = self
            .state
            .compare_exchange(from, IN_CALL, Ordering::Acquire, Ordering::Relaxed);
        changed.is_ok()
    }

    /// Begins a call, unless another is in progress. Returns what to end it with.
    pub fn begin(&self) -> Option<u8> {
        if self.changes(FREE) {
            return Some(FREE);
        }
        let is_in_change =
            self.state.load(Ordering::Acquire) == IN_CHANGE && self.thread.load(Ordering::Relaxed) == this_thread();
        (is_in_change && self.changes(IN_CHANGE)).then_some(IN_CHANGE)
    }

    /// Ends a call. With [`IN_CHANGE`], this thread may now make calls, and later has to begin again.
    pub fn end(&self, before: u8) {
        if before == IN_CHANGE {
            self.thread.store(this_thread(), Ordering::Relaxed);
        }
        self.state.store(before, Ordering::Release);
    }
}

#[cfg(test)]
mod tests {
    use super::*;
    use std::thread;

    #[test]
    fn only_the_thread_of_a_change_makes_calls_in_it() {
        let turn = &Turn::default();
        let first = turn.begin().unwrap();
        assert_eq!((first, turn.begin()), (FREE, None));
        turn.end(IN_CHANGE);
        let others = thread::scope(|scope| scope.spawn(|| turn.begin()).join().unwrap());
        assert_eq!(others, None);
        let nested = turn.begin().unwrap();
        assert_eq!(turn.begin(), None);
        turn.end(nested);
        assert_eq!(turn.begin(), Some(IN_CHANGE));
        turn.end(first);
        assert_eq!(turn.begin(), Some(FREE));
    }
}
