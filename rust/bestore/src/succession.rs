//! Replaces a store of the library with a new one that has the same contents, which frees the memory of its journal.
//!
//! A store of the library keeps its whole journal. So a second one is built that begins with a snapshot, gets the entries made since, and
//! replaces the first. Each such store is a *generation*. A pass takes a seat in the new generation when it next writes or pins. A pass
//! that is reading a snapshot keeps it, and the old generation's memory is freed when its last seat is dropped. Commit numbers continue:
//! each generation has an offset that it adds to the numbers of its own store.

use crate::raw::{Answer, Birthplace, RawPass, Refused};
use crate::store::Store;
use crate::{Batch, Builder, Error, Limits, Pass, Result, StateCopy};
use bestore_sys as sys;
use std::sync::atomic::{AtomicU64, Ordering};
use std::sync::{Arc, Mutex, MutexGuard, PoisonError, RwLock, RwLockReadGuard, RwLockWriteGuard, Weak};

/// By default, the entries may take half as many bytes as the pages, but at least `LEAST`.
const FOR_PAGE: u64 = 2048;
const LEAST: u64 = 1 << 20;

/// The approximate size in bytes of a journal entry, and of each operation in it, without the names and values.
const ENTRY: usize = 8;
const OPERATION: usize = 8;

/// Once at most this many entries are left to replay, they are replayed while writers wait. This happens earlier if writers are as fast as
/// the replay.
const FEW: u64 = 256;

/// One of the library's stores that have, one after another, held the store's contents.
#[derive(Debug)]
pub(crate) struct Generation {
    number: u64,
    /// The commit number of the state with which the generation began. Its journal has the entries after that number, so this is the offset
    /// from the library's numbers to commit numbers.
    state: u64,
    /// The commit number at which this generation replaced the one before.
    begin: u64,
}

impl Generation {
    /// Returns the commit number for this number in the library's store.
    fn outside(&self, number: u64) -> u64 {
        number.wrapping_add(self.state)
    }

    /// Returns the number in the library's store for this commit number. If the library's store has never had such a number, the result is
    /// greater than any of its numbers.
    fn within(&self, commit: u64) -> u64 {
        commit.checked_sub(self.state).unwrap_or(u64::MAX)
    }
}

/// A pass of a generation's store.
#[derive(Debug)]
pub(crate) struct Seat {
    raw: RawPass,
    generation: Arc<Generation>,
}

impl Seat {
    /// Returns the seat of a store's first pass.
    pub(crate) fn first(raw: RawPass) -> Self {
        let generation = Generation {
            number: 0,
            state: 0,
            begin: 0,
        };
        Self {
            raw,
            generation: Arc::new(generation),
        }
    }

    pub(crate) fn another(&self) -> Answer<Self> {
        Ok(Self {
            raw: self.raw.another()?,
            generation: self.generation.clone(),
        })
    }

    pub(crate) fn raw(&self) -> &RawPass {
        &self.raw
    }

    /// Returns the commit number for this number in the library's store.
    pub(crate) fn outside(&self, number: u64) -> u64 {
        self.generation.outside(number)
    }

    /// Returns the number in the library's store for this commit number.
    pub(crate) fn within(&self, commit: u64) -> u64 {
        self.generation.within(commit)
    }

    /// Returns the commit number after which the journal has entries.
    pub(crate) fn state(&self) -> u64 {
        self.generation.state
    }

    /// Returns its generation's number.
    pub(crate) fn generation(&self) -> u64 {
        self.generation.number
    }

    /// Returns the commit number up to which a pass that takes this seat has seen every entry.
    pub(crate) fn begin(&self) -> u64 {
        self.generation.begin
    }

    /// Converts the numbers in a refusal to commit numbers.
    pub(crate) fn refused(&self, refused: Refused) -> Refused {
        match refused.code {
            sys::BES_CONFLICT | sys::BES_FULL => Refused {
                carried: self.outside(refused.carried),
                ..refused
            },
            _ => refused,
        }
    }
}

/// The information about a store's generations that its passes share.
#[derive(Debug)]
pub(crate) struct Succession {
    pub(crate) limits: Limits,
    birthplace: Birthplace,
    /// The number of the newest generation.
    newest: AtomicU64,
    /// Locked for reading during each write in memory, and for writing while no write may take place.
    gate: RwLock<()>,
    /// Locked during each of the library's writes, so that threads wait for each other instead of trying again and again. Nothing is
    /// locked while it is held.
    turn: Mutex<()>,
    /// The number of writes that found no free page.
    full_writes: AtomicU64,
    /// The approximate size of the newest generation's journal in bytes, and the size at which the next generation is due.
    journal_bytes: AtomicU64,
    due_bytes: AtomicU64,
    /// The number of bytes of entries after which the next generation is due.
    due_after: AtomicU64,
    /// The generation before the newest one. Locked while the next generation is being built.
    before: Mutex<Weak<Generation>>,
    /// The number of open passes.
    passes: AtomicU64,
}

/// One of the places for passes that a store has.
#[derive(Debug)]
pub(crate) struct Place(Arc<Succession>);

impl Drop for Place {
    fn drop(&mut self) {
        self.0.passes.fetch_sub(1, Ordering::Relaxed);
    }
}

fn lock<T>(mutex: &Mutex<T>) -> MutexGuard<'_, T> {
    mutex.lock().unwrap_or_else(PoisonError::into_inner)
}

impl Succession {
    /// Waits for this thread's turn to write.
    pub(crate) fn turn(&self) -> MutexGuard<'_, ()> {
        lock(&self.turn)
    }

    pub(crate) fn new(limits: Limits) -> Arc<Self> {
        let due_after = LEAST.max(limits.pages * FOR_PAGE);
        Arc::new(Self {
            limits,
            birthplace: Birthplace::here(),
            newest: AtomicU64::new(0),
            gate: RwLock::default(),
            turn: Mutex::default(),
            full_writes: AtomicU64::new(0),
            journal_bytes: AtomicU64::new(0),
            due_bytes: AtomicU64::new(due_after),
            due_after: AtomicU64::new(due_after),
            before: Mutex::default(),
            passes: AtomicU64::new(0),
        })
    }

    /// Takes a place for one more pass.
    pub(crate) fn place(self: &Arc<Self>) -> Result<Place> {
        let most = self.limits.passes;
        let take = |passes| (passes < most).then_some(passes + 1);
        match self.passes.fetch_update(Ordering::Relaxed, Ordering::Relaxed, take) {
            Ok(_) => Ok(Place(self.clone())),
            Err(_) => Err(Error::NoPass),
        }
    }

    /// Returns the number of the newest generation.
    pub(crate) fn generation(&self) -> u64 {
        self.newest.load(Ordering::Acquire)
    }

    pub(crate) fn is_newest(&self, seat: &Seat) -> bool {
        seat.generation() == self.generation()
    }

    /// Returns an error in a forked child of the process that opened the store.
    pub(crate) fn check(&self) -> Answer<()> {
        self.birthplace.check()
    }

    /// Admits a write: while the guard is held, the newest generation stays the newest.
    pub(crate) fn enter(&self) -> Answer<RwLockReadGuard<'_, ()>> {
        self.check()?;
        Ok(self.gate.read().unwrap_or_else(PoisonError::into_inner))
    }

    /// Waits for the writes in progress, and admits no other write while the guard is held.
    pub(crate) fn close(&self) -> RwLockWriteGuard<'_, ()> {
        self.gate.write().unwrap_or_else(PoisonError::into_inner)
    }

    /// Returns `true` if new writes are currently kept waiting.
    #[cfg(test)]
    pub(crate) fn is_closed(&self) -> bool {
        self.gate.try_read().is_err()
    }

    /// Returns the number of writes that found no free page.
    pub(crate) fn full_writes(&self) -> u64 {
        self.full_writes.load(Ordering::Relaxed)
    }

    /// Records that a write was refused.
    pub(crate) fn refused(&self, refused: &Refused) {
        if refused.code == sys::BES_FULL {
            self.full_writes.fetch_add(1, Ordering::Relaxed);
        }
    }

    /// Records that a batch has been written.
    pub(crate) fn written(&self, batch: &Batch) {
        let bytes = ENTRY + OPERATION * batch.len() + batch.raw().bytes.len();
        self.journal_bytes.fetch_add(bytes as u64, Ordering::Relaxed);
    }

    /// Returns `true` if the next generation is due, because of the size of the entries since the newest one began or since the last failed
    /// attempt to create one.
    pub(crate) fn is_due(&self) -> bool {
        self.journal_bytes.load(Ordering::Relaxed) > self.due_bytes.load(Ordering::Relaxed)
    }

    /// Makes the next generation due after this many bytes of entries.
    pub(crate) fn set_due_after(&self, bytes: u64) {
        self.due_after.store(bytes, Ordering::Relaxed);
        self.set_journal_bytes(self.journal_bytes.load(Ordering::Relaxed));
    }

    /// Records that the journal now takes this many bytes.
    fn set_journal_bytes(&self, bytes: u64) {
        let due = bytes.saturating_add(self.due_after.load(Ordering::Relaxed));
        self.journal_bytes.store(bytes, Ordering::Relaxed);
        self.due_bytes.store(due, Ordering::Relaxed);
    }

    /// Returns `true` if a pass still has a seat in an earlier generation. In a forked child, no pass does, and the thread that has the
    /// lock may not exist.
    pub(crate) fn is_read_before(&self) -> bool {
        self.birthplace.is_here() && lock(&self.before).strong_count() > 0
    }
}

/// Builds the store's next generation, and replaces the newest one with it.
pub(crate) fn carry_on(store: &Store) -> Result<()> {
    let carried = replace(store, || Next::make(store), Next::take_place);
    if carried.is_err() {
        let succession = store.succession();
        succession.set_journal_bytes(succession.journal_bytes.load(Ordering::Relaxed));
    }
    carried
}

/// Replaces the generation of an empty store with one that begins with the store that `build` returns. Returns its commit number.
pub(crate) fn begin_with(store: &Store, build: impl FnOnce() -> Result<Pass>) -> Result<u64> {
    let make = || {
        let mut spare = store.spare()?;
        check_empty(&mut spare)?;
        drop(spare);
        // The first commit number stands for the volume. No entry has it.
        Ok(Next {
            pass: build()?,
            state: 1,
            commit: 1,
        })
    };
    replace(store, make, Next::take_place_of_nothing)?;
    Ok(1)
}

/// Replaces the newest generation with the one that `make` returns, by `take_place`. No other thread does so at the same time.
fn replace(
    store: &Store,
    make: impl FnOnce() -> Result<Next>,
    take_place: impl FnOnce(Next, &Store) -> Result<Seat>,
) -> Result<()> {
    let mut before = lock(&store.succession().before);
    if before.strong_count() > 0 {
        return Err(Error::InUse);
    }
    let earlier = take_place(make()?, store)?;
    *before = Arc::downgrade(&earlier.generation);
    Ok(())
}

/// Returns an error unless the store is as it was when it was opened, without nodes and indices.
fn check_empty(pass: &mut Pass) -> Result<()> {
    let snapshot = pass.pin()?;
    match snapshot.number() == 0 && snapshot.next_node()? == 1 && snapshot.indices()?.is_empty() {
        true => Ok(()),
        false => Err(Error::NotEmpty),
    }
}

/// Builds a store from the batches of a listing, and returns the store's own pass.
pub(crate) fn build<B: AsRef<[u8]>>(limits: Limits, batches: impl IntoIterator<Item = B>, next: u64) -> Result<Pass> {
    let mut builder = Builder::new(limits)?;
    for batch in batches {
        builder.batch(batch.as_ref())?;
    }
    builder.finish_pass(next)
}

/// A generation that is being built.
struct Next {
    pass: Pass,
    /// The commit number of the generation's initial state.
    state: u64,
    /// The commit number of its last entry.
    commit: u64,
}

impl Next {
    /// Builds a generation from the store's current state.
    fn make(store: &Store) -> Result<Self> {
        let StateCopy { number, next, batches } = store.copy_state()?;
        Ok(Self {
            pass: build(store.succession().limits, batches, next)?,
            state: number,
            commit: number,
        })
    }

    /// Replays the entries that the generation lacks, up to this many.
    fn repeat_entries(&mut self, pass: &Pass, most: u64) -> Result<()> {
        for entry in pass.journal_from(self.commit).take(most as usize) {
            let entry = entry?;
            if !self.pass.repeat(&entry.batch)? {
                return Err(Error::other(format!(
                    "entry {} makes different nodes now",
                    entry.number
                )));
            }
            self.commit = entry.number;
        }
        Ok(())
    }

    /// Replays the entries that the generation lacks, in rounds, until few are left or until a round leaves no fewer than the one before.
    /// Calls `repeated` with the number of entries in each round.
    fn catch_up(&mut self, pass: &Pass, mut repeated: impl FnMut(u64)) -> Result<()> {
        let mut before = u64::MAX;
        loop {
            let left = pass.status()?.entries.saturating_sub(self.commit);
            if left <= FEW || left >= before {
                return Ok(());
            }
            self.repeat_entries(pass, left)?;
            repeated(left);
            before = left;
        }
    }

    /// Replays the entries that the generation lacks, the last of them while writers wait, and replaces the newest generation. Returns the
    /// seat of the store's own pass in that generation.
    fn take_place(mut self, store: &Store) -> Result<Seat> {
        let succession = store.succession();
        let pass = store.spare()?;
        self.catch_up(&pass, |_| {})?;
        let mut own = pass.into_own(store)?;
        let _closed = succession.close();
        self.repeat_entries(&own, u64::MAX)?;
        Ok(self.replace_newest(succession, &mut own))
    }

    /// Replaces the newest generation if nothing has been written to it.
    fn take_place_of_nothing(self, store: &Store) -> Result<Seat> {
        let succession = store.succession();
        let mut own = store.spare()?.into_own(store)?;
        let _closed = succession.close();
        check_empty(&mut own)?;
        Ok(self.replace_newest(succession, &mut own))
    }

    /// Replaces the newest generation, in which the store's own pass has its seat, while no write may take place. Returns that seat.
    fn replace_newest(self, succession: &Succession, own: &mut Pass) -> Seat {
        let number = succession.newest.load(Ordering::Relaxed) + 1;
        let generation = Generation {
            number,
            state: self.state,
            begin: self.commit,
        };
        let of_next = self.pass.succession().journal_bytes.load(Ordering::Relaxed);
        succession.set_journal_bytes(of_next);
        let seat = Seat {
            raw: self.pass.into_seat().raw,
            generation: Arc::new(generation),
        };
        let earlier = own.change_seat(seat);
        succession.newest.store(number, Ordering::Release);
        earlier
    }
}

#[cfg(test)]
mod tests {
    use super::*;
    use std::thread;

    /// Returns the number of entries that each round replays if there are `first` entries at the start and `more` arrive during a round.
    fn rounds(first: u64, more: impl Fn(u64) -> u64) -> Vec<u64> {
        let store = Store::open(Limits::default()).unwrap();
        let pass = store.pass().unwrap();
        pass.new_node().unwrap();
        let mut next = Next::make(&store).unwrap();
        let write = |count| (0..count).for_each(|_| pass.set(1, "size", 5_i64).unwrap());
        write(first);
        let mut rounds = Vec::new();
        let caught_up = next.catch_up(&pass, |repeated| {
            rounds.push(repeated);
            write(more(repeated));
        });
        caught_up.unwrap();
        rounds
    }

    #[test]
    fn entries_are_repeated_until_few_are_left_or_no_fewer() {
        assert!(rounds(FEW, |_| 0).is_empty());
        assert_eq!(rounds(FEW + 1, |_| 0), [FEW + 1]);
        assert_eq!(rounds(4 * FEW, |repeated| repeated / 2), [4 * FEW, 2 * FEW]);
        assert_eq!(rounds(FEW + 3, |repeated| repeated - 1), [FEW + 3, FEW + 2, FEW + 1]);
        // If writers are as fast as the replay or faster, it doesn't catch up.
        assert_eq!(rounds(2 * FEW, |repeated| repeated), [2 * FEW]);
        assert_eq!(rounds(2 * FEW, |repeated| 2 * repeated), [2 * FEW]);
    }

    #[test]
    fn a_write_that_has_entered_is_waited_for_and_carried_on() {
        let store = Store::open(Limits::default()).unwrap();
        let (mut pass, succession) = (store.pass().unwrap(), store.succession());
        let entered = succession.enter().unwrap();
        thread::scope(|scope| {
            let carrying = scope.spawn(|| store.carry_on().unwrap());
            // Once a thread is waiting to close the gate, no other can enter.
            while !succession.is_closed() {
                assert!(!carrying.is_finished());
                thread::yield_now();
            }
            let written = pass.raw().apply(None, Batch::new().new_node().raw(), &mut [0]);
            assert_eq!(written.unwrap(), 1);
            assert!(succession.is_newest(pass.seat()));
            drop(entered);
        });
        assert!(!succession.is_newest(pass.seat()));
        let snapshot = pass.pin().unwrap();
        assert_eq!((snapshot.number(), snapshot.next_node().unwrap()), (1, 2));
    }
}
