//! Copies of snapshots, which `collect` makes and `state` reads. A client may read a copy slowly, since a copy doesn't hold any
//! of the store's pages.

use crate::answer::View;
use crate::failure::Failure;
use crate::memory;
use crate::page::{take_batch, Room};
use crate::server::Shared;
use bestore::{Snapshot, StateCopy};
use bestore_client::wire::{self, ErrorName};
use std::sync::{Arc, Mutex, MutexGuard, PoisonError};
use std::time::{Duration, Instant};

/// How many copies all clients together may have at a time. A copy takes no more memory than the store's pages do.
const MOST: usize = 2;

/// How many bytes a page has.
const PAGE: usize = 4096;

/// How long a client may leave its copy unread while another client needs the place, however long it may keep a snapshot.
const UNREAD: Duration = Duration::from_secs(60);

/// The places for copies.
#[derive(Debug)]
pub struct Copies {
    taken: Mutex<Vec<Arc<Place>>>,
    unread: Duration,
}

/// A place for a copy. It is empty while the copy is being made, and once the server has taken the copy back.
#[derive(Debug, Default)]
struct Place(Mutex<Option<Made>>);

/// A copy that is complete.
#[derive(Debug)]
struct Made {
    state: StateCopy,
    /// When the client last read the copy.
    read: Instant,
}

/// A client's copy.
#[derive(Debug)]
pub struct Copy<'a> {
    copies: &'a Copies,
    place: Arc<Place>,
}

impl Drop for Copy<'_> {
    fn drop(&mut self) {
        self.copies.lock().retain(|place| !Arc::ptr_eq(place, &self.place));
    }
}

impl Copies {
    /// Creates the places of a server whose clients may keep a snapshot for this time.
    pub fn new(hold: Duration) -> Self {
        Self {
            taken: Mutex::default(),
            unread: hold.min(UNREAD),
        }
    }

    fn lock(&self) -> MutexGuard<'_, Vec<Arc<Place>>> {
        self.taken.lock().unwrap_or_else(PoisonError::into_inner)
    }

    /// Takes a place. If no place is free, takes back a copy that hasn't been read for too long.
    fn begin(&self) -> Result<Copy<'_>, Failure> {
        let mut taken = self.lock();
        if taken.len() >= MOST {
            match taken.iter().position(|place| place.take_back(self.unread)) {
                Some(index) => drop(taken.remove(index)),
                None => return Err(too_many()),
            }
        }
        let place = Arc::new(Place::default());
        taken.push(place.clone());
        Ok(Copy { copies: self, place })
    }
}

impl Place {
    fn lock(&self) -> MutexGuard<'_, Option<Made>> {
        self.0.lock().unwrap_or_else(PoisonError::into_inner)
    }

    /// Takes the copy back if the client hasn't read it for this long. Returns whether it did.
    fn take_back(&self, unread: Duration) -> bool {
        match self.0.try_lock() {
            Ok(mut made) if made.as_ref().map_or(false, |made| made.read.elapsed() >= unread) => {
                *made = None;
                true
            }
            // The copy is being read or made, or was read a short time ago.
            _ => false,
        }
    }
}

fn too_many() -> Failure {
    let message = format!("{MOST} clients are reading copies of snapshots, the most that can at the same time");
    Failure::new(ErrorName::TooManyCopies, message).with("most", MOST)
}

fn taken_back() -> Failure {
    let message =
        "the copy expired, because it wasn't read for too long and another client needed its place; send collect again";
    Failure::new(ErrorName::Expired, message)
}

/// Copies the state that reads see.
pub fn collect<'a>(shared: &'a Shared, view: &View<'_, '_>) -> Result<(Copy<'a>, wire::Next), Failure> {
    let copy = shared.copies.begin()?;
    memory::check_for(bytes_of(view))?;
    let state = match view {
        View::Current(_) => shared.kept.store().copy_state()?,
        View::Kept { snapshot, since, .. } => copy_of(snapshot, || shared.pressure.is_over(*since))?,
        View::Expired(_) => return Err(Failure::expired()),
    };
    let next = wire::Next {
        commit: state.number,
        next: state.next,
    };
    *copy.place.lock() = Some(Made {
        state,
        read: Instant::now(),
    });
    Ok((copy, next))
}

/// Returns how many bytes a copy takes at most while it is made: twice as many as the store's pages in use. If writes keep the status
/// from being read, returns 0.
fn bytes_of(view: &View<'_, '_>) -> usize {
    let used = view.pass().status().map_or(0, |status| status.pages - status.free);
    usize::try_from(used).unwrap_or(usize::MAX).saturating_mul(2 * PAGE)
}

/// Copies the snapshot, unless `is_over` says that it has to be unpinned before the copy is complete.
fn copy_of(snapshot: &Snapshot<'_>, is_over: impl Fn() -> bool) -> Result<StateCopy, Failure> {
    let mut batches = Vec::new();
    for batch in snapshot.listing() {
        if is_over() {
            return Err(Failure::expired());
        }
        batches.push(batch?);
        memory::check()?;
    }
    Ok(StateCopy {
        number: snapshot.number(),
        next: snapshot.next_node()?,
        batches,
    })
}

impl Copy<'_> {
    /// Returns a page of the batches from index `from` on, unless the server has taken the copy back.
    pub fn page(&self, from: u64) -> Result<wire::State, Failure> {
        let mut place = self.place.lock();
        let made = place.as_mut().ok_or_else(taken_back)?;
        let page = page_of(&made.state, from);
        made.read = Instant::now();
        page
    }
}

/// Returns a page of the copy's batches from index `from` on.
fn page_of(copy: &StateCopy, from: u64) -> Result<wire::State, Failure> {
    let mut page = wire::State {
        commit: copy.number,
        next: copy.next,
        ..wire::State::default()
    };
    let mut room = Room::new(None);
    for (number, batch) in (1..).zip(&copy.batches).skip(from as usize) {
        page.batches.push(batch.clone());
        if !take_batch(&mut room, batch)? {
            page.more = (number < copy.batches.len() as u64).then_some(number);
            break;
        }
    }
    Ok(page)
}
