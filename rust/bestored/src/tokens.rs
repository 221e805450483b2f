//! Remembers the tokens of writes. If a client sends a batch again with the same token, the batch isn't written again; the client
//! gets the first reply.

use bestore::saved::TOKENS;
use bestore_client::wire::Written;
use std::collections::{HashMap, VecDeque};
use std::sync::{Arc, Condvar, Mutex, MutexGuard, PoisonError};

/// What the server knows about the write that has a token.
#[derive(Debug)]
enum Known {
    /// A connection is currently making it.
    Writing,
    /// It is in memory, but may not have reached the file or the log yet.
    Made(Written),
}

#[derive(Debug, Default)]
struct Table {
    known: HashMap<Arc<str>, Known>,
    /// The tokens of the writes that were made, oldest first.
    made: VecDeque<Arc<str>>,
}

/// The tokens of the last 65,536 writes that had one.
#[derive(Debug, Default)]
pub struct Tokens {
    table: Mutex<Table>,
    changed: Condvar,
}

/// The outcome of [`Tokens::begin`].
#[derive(Debug)]
pub enum Begun<'a> {
    /// The write has not been made, so the caller must make it.
    First(Writing<'a>),
    /// The write has already been made.
    Repeated(Written),
}

/// A write in progress. If this is dropped before the write has been made, the token counts as new again.
#[derive(Debug)]
pub struct Writing<'a> {
    tokens: &'a Tokens,
    token: Arc<str>,
}

impl Tokens {
    fn lock(&self) -> MutexGuard<'_, Table> {
        self.table.lock().unwrap_or_else(PoisonError::into_inner)
    }

    /// Begins the write that has this token. If another connection is making it, waits for the outcome.
    pub fn begin(&self, token: &str) -> Begun<'_> {
        let mut table = self.lock();
        loop {
            match table.known.get(token) {
                Some(Known::Made(written)) => return Begun::Repeated(written.clone()),
                Some(Known::Writing) => table = self.changed.wait(table).unwrap_or_else(PoisonError::into_inner),
                None => break,
            }
        }
        let token: Arc<str> = token.into();
        table.known.insert(token.clone(), Known::Writing);
        Begun::First(Writing { tokens: self, token })
    }

    /// Returns what was written with this token, or `None` if nothing was.
    pub fn made(&self, token: &str) -> Option<Written> {
        match self.lock().known.get(token) {
            Some(Known::Made(written)) => Some(written.clone()),
            _ => None,
        }
    }

    /// Adds a write that an earlier run or another server made.
    pub fn add(&self, token: Arc<str>, written: Written) {
        let mut table = self.lock();
        let Table { known, made } = &mut *table;
        if let Some(Known::Made(_)) = known.insert(token.clone(), Known::Made(written)) {
            return;
        }
        made.push_back(token);
        if made.len() > TOKENS {
            if let Some(oldest) = made.pop_front() {
                known.remove(&oldest);
            }
        }
        self.changed.notify_all();
    }
}

impl Writing<'_> {
    /// Records that the write is in memory.
    pub fn made(&self, written: Written) {
        self.tokens.add(self.token.clone(), written);
    }
}

impl Drop for Writing<'_> {
    fn drop(&mut self) {
        let mut table = self.tokens.lock();
        // Another server's write with this token may have arrived in the meantime.
        if let Some(Known::Writing) = table.known.get(&self.token) {
            table.known.remove(&self.token);
            self.tokens.changed.notify_all();
        }
    }
}

#[cfg(test)]
mod tests {
    use super::*;
    use std::thread;

    fn written(commit: u64) -> Written {
        Written {
            commit,
            ..Written::default()
        }
    }

    fn commit_of(tokens: &Tokens, token: &str) -> Option<u64> {
        match tokens.begin(token) {
            Begun::First(_) => None,
            Begun::Repeated(written) => Some(written.commit),
        }
    }

    #[test]
    fn what_was_made_is_known_and_what_was_not_is_new() {
        let tokens = Tokens::default();
        assert_eq!(commit_of(&tokens, "a"), None);
        assert_eq!(commit_of(&tokens, "a"), None);
        match tokens.begin("a") {
            Begun::First(writing) => writing.made(written(7)),
            Begun::Repeated(_) => panic!("it is new"),
        }
        assert_eq!(commit_of(&tokens, "a"), Some(7));
        assert_eq!(commit_of(&tokens, "b"), None);
    }

    #[test]
    fn what_another_server_made_meanwhile_stays_known() {
        let tokens = Tokens::default();
        let refused = tokens.begin("a");
        tokens.add("a".into(), written(7));
        assert_eq!(tokens.made("a"), Some(written(7)));
        drop(refused);
        assert_eq!(commit_of(&tokens, "a"), Some(7));
    }

    #[test]
    fn the_last_65536_are_known() {
        let tokens = Tokens::default();
        for number in 0..=65_536 {
            tokens.add(number.to_string().into(), written(number));
        }
        assert_eq!(commit_of(&tokens, "0"), None);
        assert_eq!(commit_of(&tokens, "1"), Some(1));
        assert_eq!(commit_of(&tokens, "65536"), Some(65_536));
    }

    #[test]
    fn who_repeats_early_waits_for_the_outcome() {
        let tokens = &Tokens::default();
        thread::scope(|scope| {
            let writing = tokens.begin("a");
            let repeating: Vec<_> = (0..4).map(|_| scope.spawn(|| commit_of(tokens, "a"))).collect();
            match writing {
                Begun::First(writing) => writing.made(written(7)),
                Begun::Repeated(_) => panic!("it is new"),
            }
            for one in repeating {
                assert_eq!(one.join().unwrap(), Some(7));
            }
        });
    }
}
