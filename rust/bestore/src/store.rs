//! Stores.

use crate::raw::Answer;
use crate::succession::{self, Seat, Succession};
use crate::{copying, Error, Limits, Pass, Result, StateCopy};
use bestore_types::MOST_PASSES;
use std::ops::{Deref, DerefMut};
use std::sync::{Arc, Mutex, MutexGuard, PoisonError};

/// An in-memory store. Clones share the same store; each thread can take its pass from a clone.
///
/// The store's memory is freed when the last clone and the last pass have been dropped.
#[derive(Clone, Debug)]
pub struct Store(Arc<Shared>);

/// The state that a store's clones and passes share.
#[derive(Debug)]
pub(crate) struct Shared {
    own: Mutex<Pass>,
    succession: Arc<Succession>,
    /// Locked while an internal task of the store is running.
    task: Mutex<()>,
}

impl Shared {
    /// The store's own pass, from which all others are created. Used only in the process that opened the store.
    fn own(&self) -> MutexGuard<'_, Pass> {
        lock(&self.own)
    }

    pub(crate) fn succession(&self) -> &Arc<Succession> {
        &self.succession
    }

    /// Takes a seat in the newest generation.
    pub(crate) fn seat(&self) -> Answer<Seat> {
        self.succession.check()?;
        self.own().seat().another()
    }
}

/// A pass for an internal task of the store: one of the users' passes or, if all of them are taken, the store's own pass.
pub(crate) struct Spare<'a> {
    taken: Taken<'a>,
    _task: MutexGuard<'a, ()>,
}

enum Taken<'a> {
    Another(Pass),
    Own(MutexGuard<'a, Pass>),
}

impl<'a> Spare<'a> {
    /// Replaces this pass with the store's own pass.
    pub(crate) fn into_own(mut self, store: &'a Store) -> Result<Self> {
        if let Taken::Another(_) = self.taken {
            self.taken = Taken::Own(store.own()?);
        }
        Ok(self)
    }
}

impl Deref for Spare<'_> {
    type Target = Pass;

    fn deref(&self) -> &Pass {
        match &self.taken {
            Taken::Another(pass) => pass,
            Taken::Own(own) => own,
        }
    }
}

impl DerefMut for Spare<'_> {
    fn deref_mut(&mut self) -> &mut Pass {
        match &mut self.taken {
            Taken::Another(pass) => pass,
            Taken::Own(own) => own,
        }
    }
}

fn lock<T>(mutex: &Mutex<T>) -> MutexGuard<'_, T> {
    mutex.lock().unwrap_or_else(PoisonError::into_inner)
}

impl Store {
    /// Opens an empty store.
    ///
    /// # Errors
    /// [`Error::BadLimits`], [`Error::OutOfMemory`].
    pub fn open(limits: Limits) -> Result<Self> {
        if !(1..=MOST_PASSES).contains(&limits.passes) {
            return Err(Error::BadLimits);
        }
        Ok(Self::of_pass(Pass::open(limits)?))
    }

    /// Returns the store that this pass, its own one, belongs to.
    pub(crate) fn of_pass(own: Pass) -> Self {
        Self(Arc::new(Shared {
            succession: own.succession().clone(),
            own: Mutex::new(own),
            task: Mutex::default(),
        }))
    }

    /// Takes a pass. The pass goes back to the store when it is dropped.
    ///
    /// # Errors
    /// [`Error::NoPass`] if all passes allowed by [`Limits::passes`] are open; [`Error::OutOfMemory`]; [`Error::Forked`].
    pub fn pass(&self) -> Result<Pass> {
        self.check()?;
        match self.another() {
            Err(Error::NoPass) => {
                // An internal task may have taken the last pass. While this lock is held, no other task can take it.
                let _no_task = lock(&self.0.task);
                self.another()
            }
            pass => pass,
        }
    }

    fn another(&self) -> Result<Pass> {
        let place = self.0.succession.place()?;
        Ok(Pass::new(self.0.seat()?, self.0.clone(), place))
    }

    /// Closes the store, and returns the whole journal as text, one line per entry. This must be the last clone, and no pass may be open.
    /// For each pass, the journal has exactly the writes that calls on that pass have committed, at their commit numbers. After
    /// [`carry_on`](Self::carry_on), the text has only the entries made since the snapshot that was carried on.
    ///
    /// # Errors
    /// [`Error::InUse`] if another clone or a pass is open; [`Error::OutOfMemory`]; [`Error::Forked`]. The unchanged store is returned
    /// along with the error.
    pub fn finish(self) -> std::result::Result<String, (Self, Error)> {
        let Shared { own, succession, task } = match Arc::try_unwrap(self.0) {
            Ok(shared) => shared,
            Err(shared) => return Err((Self(shared), Error::InUse)),
        };
        let own = own.into_inner().unwrap_or_else(PoisonError::into_inner);
        match own.raw().finish() {
            Ok(text) => Ok(String::from_utf8_lossy(&text).into_owned()),
            Err(refused) => {
                let own = Mutex::new(own);
                Err((Self(Arc::new(Shared { own, succession, task })), refused.into()))
            }
        }
    }

    /// Frees the memory of the journal, which would otherwise grow forever. This builds a new store of the underlying library from the
    /// current snapshot, adds the writes made in the meantime, and switches to the new store, for which writers wait briefly. Pinned
    /// snapshots don't change, commit numbers and node numbers continue, and [`Pass::journal_from`] still returns the entries made since
    /// that snapshot.
    ///
    /// While this opens a store, it needs memory for all pages, and then as much again as the pages in use. It takes as long as
    /// [copying](Self::copy_state) the state and building a store from it. The old memory is freed once every pass has called [`Pass::pin`] or
    /// [`Pass::follow`].
    ///
    /// ```
    /// # use bestore::{Limits, Store};
    /// let store = Store::open(Limits::default())?;
    /// let mut pass = store.pass()?;
    /// let node = pass.new_node()?;
    /// for count in 0..1000_i64 {
    ///     pass.set(node, "count", count)?;
    /// }
    /// store.carry_on()?;
    /// assert_eq!(pass.pin()?.number(), 1001);
    /// assert_eq!(pass.pin()?.get(node, "count")?, Some(999_i64.into()));
    /// # Ok::<(), bestore::Error>(())
    /// ```
    ///
    /// # Errors
    /// After an error, the store is unchanged. [`Error::InUse`] if a pass hasn't yet released the old memory from the last time.
    /// [`Error::OutOfMemory`], [`Error::Full`], [`Error::Busy`], [`Error::Forked`].
    pub fn carry_on(&self) -> Result<()> {
        self.check()?;
        succession::carry_on(self)
    }

    /// Returns `true` if it is time to call [`carry_on`](Self::carry_on). This is the case if the entries since the last call, or since the
    /// store was opened, take more than half as much memory as the pages, and more than 1 MiB. After a failed call, the entries must grow
    /// by the same amount again.
    #[must_use]
    pub fn is_due(&self) -> bool {
        self.0.succession.is_due()
    }

    /// Makes [`is_due`](Self::is_due) return `true` once the store's new entries take about this many bytes.
    pub fn set_due_after(&self, bytes: u64) {
        self.0.succession.set_due_after(bytes);
    }

    /// Returns the number of times that [`carry_on`](Self::carry_on) has succeeded.
    #[must_use]
    pub fn generation(&self) -> u64 {
        self.0.succession.generation()
    }

    /// Replaces the volume of an empty store with the one that these batches of a [listing](crate::listing) and this next node number give.
    /// This takes one commit number, which is returned, but no entry: [`Pass::journal_from`] returns the entries after it.
    ///
    /// ```
    /// # use bestore::{Limits, Store};
    /// # let store = Store::open(Limits::default())?;
    /// # let mut pass = store.pass()?;
    /// # pass.new_node()?;
    /// let other = Store::open(Limits::default())?;
    /// let copy = store.copy_state()?;
    /// assert_eq!(other.begin_with(&copy.batches, copy.next)?, 1);
    /// # assert_eq!(other.copy_state()?.batches, copy.batches);
    /// # Ok::<(), bestore::Error>(())
    /// ```
    ///
    /// # Errors
    /// After an error, the store is unchanged. [`Error::NotEmpty`] if the store has a node or an index, or has ever been written to.
    /// [`Error::InUse`] if [`carry_on`](Self::carry_on) would return it. The errors of [`Builder`](crate::Builder)'s calls.
    pub fn begin_with<B: AsRef<[u8]>>(&self, batches: impl IntoIterator<Item = B>, next: u64) -> Result<u64> {
        self.check()?;
        let build = || succession::build(self.0.succession.limits, batches, next);
        succession::begin_with(self, build)
    }

    /// Copies the current snapshot for a slow reader, so that the reader doesn't keep pages from writers. If a write finds no free page
    /// while the copy is being made, the copy starts over a little later. After six such attempts, writes wait until the copy is complete.
    ///
    /// # Errors
    /// [`Error::OutOfMemory`], [`Error::Forked`].
    pub fn copy_state(&self) -> Result<StateCopy> {
        copying::copy(self)
    }

    /// Returns `true` if a pass still holds memory from before the last [`carry_on`](Self::carry_on).
    #[must_use]
    pub fn is_read_before(&self) -> bool {
        self.0.succession.is_read_before()
    }

    /// Returns [`Error::Forked`] in a forked child of the process that opened the store.
    pub(crate) fn check(&self) -> Result<()> {
        Ok(self.0.succession.check()?)
    }

    pub(crate) fn succession(&self) -> &Succession {
        &self.0.succession
    }

    /// Returns the store's own pass, from which all others are created.
    pub(crate) fn own(&self) -> Result<MutexGuard<'_, Pass>> {
        self.check()?;
        Ok(self.0.own())
    }

    /// Returns a pass for an internal task of the store. Waits for any other task that is running.
    pub(crate) fn spare(&self) -> Result<Spare<'_>> {
        self.check()?;
        let task = lock(&self.0.task);
        let taken = match self.another() {
            Err(Error::NoPass) => Taken::Own(self.own()?),
            pass => Taken::Another(pass?),
        };
        Ok(Spare { taken, _task: task })
    }
}
