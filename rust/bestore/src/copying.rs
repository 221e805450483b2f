//! Copying of a store's state, for tasks that would otherwise hold a snapshot for a long time.
//!
//! A pinned snapshot keeps pages that writes may need. So as soon as a write finds no free page, copying unpins its snapshot, and starts
//! over after a pause. In a store that is nearly full and constantly written to, this would never complete a copy. So the last attempt
//! makes writes wait at the gate, where they need no pages.

use crate::{Result, Snapshot, Store};
use std::thread;
use std::time::Duration;

/// The number of attempts that yield to writes before the last one.
const TRIES: u32 = 6;

/// The pause after the first attempt. Each later pause is twice as long as the one before.
const REST: Duration = Duration::from_millis(10);

/// A store's contents in one snapshot, returned by [`Store::copy_state`].
#[derive(Clone, Debug, PartialEq, Eq)]
pub struct StateCopy {
    /// The snapshot's number.
    pub number: u64,
    /// The next node's number.
    pub next: u64,
    /// The batches of the snapshot's [listing](crate::listing), as returned by [`Snapshot::listing`].
    pub batches: Vec<Vec<u8>>,
}

/// A step of the copying.
#[derive(Clone, Copy, Debug, PartialEq, Eq)]
enum Step {
    /// A batch has been read from the snapshot, which is still pinned.
    Read,
    /// A write needed pages, so copying pauses for this long, with no snapshot pinned.
    Rest(Duration),
}

pub(crate) fn copy(store: &Store) -> Result<StateCopy> {
    copy_by_steps(store, &mut |step| match step {
        Step::Read => {}
        Step::Rest(time) => thread::sleep(time),
    })
}

fn copy_by_steps(store: &Store, take: &mut impl FnMut(Step)) -> Result<StateCopy> {
    let mut tries = 0;
    loop {
        if let Some(copy) = try_to_copy(store, tries == TRIES, take)? {
            return Ok(copy);
        }
        take(Step::Rest(REST * 2_u32.pow(tries)));
        tries += 1;
    }
}

/// Copies the current snapshot. Returns `None` if a write needed its pages. During the last attempt, writes wait.
fn try_to_copy(store: &Store, is_last: bool, take: &mut impl FnMut(Step)) -> Result<Option<StateCopy>> {
    let succession = store.succession();
    let mut pass = store.spare()?;
    let _closed = is_last.then(|| succession.close());
    let before = succession.full_writes();
    let snapshot = pass.pin()?;
    read(&snapshot, || {
        take(Step::Read);
        is_last || succession.full_writes() == before
    })
}

/// Copies the snapshot. If `goes_on` returns `false`, stops and returns `None`, because the snapshot must be unpinned.
fn read(snapshot: &Snapshot<'_>, mut goes_on: impl FnMut() -> bool) -> Result<Option<StateCopy>> {
    let mut batches = Vec::new();
    for batch in snapshot.listing() {
        batches.push(batch?);
        if !goes_on() {
            return Ok(None);
        }
    }
    Ok(Some(StateCopy {
        number: snapshot.number(),
        next: snapshot.next_node()?,
        batches,
    }))
}

#[cfg(test)]
mod tests {
    use super::*;
    use crate::{Error, Limits, Pass, Retry};

    /// The number of nodes in the store. Their state takes several batches, and leaves few pages free.
    const NODES: u64 = 800;

    fn nearly_full() -> Store {
        let limits = Limits {
            pages: 400,
            passes: 3,
            ..Limits::default()
        };
        let store = Store::open(limits).unwrap();
        let pass = store.pass().unwrap();
        for node in 1..=NODES {
            pass.new_node().unwrap();
            pass.set(node, "text", "a".repeat(250)).unwrap();
        }
        store
    }

    /// A pass whose writes don't wait for pages.
    fn writer(store: &Store) -> Pass {
        let mut pass = store.pass().unwrap();
        pass.set_retry(Retry {
            full: 0,
            ..Retry::default()
        });
        pass
    }

    fn write(pass: &Pass) -> Result<()> {
        pass.set(1, "text", "b".repeat(100))
    }

    /// Writes until no page is free.
    fn fill(pass: &Pass) {
        let error = loop {
            if let Err(error) = write(pass) {
                break error;
            }
        };
        assert!(matches!(error, Error::Full { .. }), "{error}");
    }

    fn state_of(pass: &mut Pass) -> StateCopy {
        read(&pass.pin().unwrap(), || true).unwrap().unwrap()
    }

    #[test]
    fn it_is_read_at_once_if_no_write_needs_pages() {
        let store = nearly_full();
        let (mut writer, mut steps) = (writer(&store), Vec::new());
        let copy = copy_by_steps(&store, &mut |step| {
            steps.push(step);
            if steps.len() == 2 {
                write(&writer).unwrap();
            }
        })
        .unwrap();
        assert_eq!((copy.number, copy.next), (2 * NODES, NODES + 1));
        assert!(steps.len() > 2 && steps == vec![Step::Read; copy.batches.len()]);
        assert_eq!(state_of(&mut writer).number, copy.number + 1);
    }

    #[test]
    fn it_makes_way_for_writes_and_is_complete_in_the_end() {
        let store = nearly_full();
        let (mut writer, mut rests, mut last) = (writer(&store), Vec::new(), 0);
        let copy = copy_by_steps(&store, &mut |step| match step {
            Step::Read if store.succession().is_closed() => last += 1,
            Step::Read => fill(&writer),
            Step::Rest(time) => {
                // The pages are free again.
                write(&writer).unwrap();
                rests.push(time.as_millis());
            }
        })
        .unwrap();
        assert_eq!(rests, [10, 20, 40, 80, 160, 320]);
        assert!(last > 2 && last == copy.batches.len());
        assert_eq!(copy, state_of(&mut writer));
        write(&writer).unwrap();
    }

    #[test]
    fn a_write_waits_for_the_last_copy_and_finds_pages() {
        let store = nearly_full();
        let (of_test, waiting) = (writer(&store), writer(&store));
        thread::scope(|scope| {
            let mut waiting = Some(waiting);
            let mut written = None;
            let copied = copy_by_steps(&store, &mut |step| {
                if step != Step::Read {
                    return;
                }
                if !store.succession().is_closed() {
                    fill(&of_test);
                } else if let Some(pass) = waiting.take() {
                    written = Some(scope.spawn(move || write(&pass).map(|()| pass.status())));
                }
            });
            let status = written.unwrap().join().unwrap().unwrap().unwrap();
            assert_eq!(copied.unwrap().number + 1, status.entries);
        });
    }
}
