//! What live queries have reported, until the program asks for it.

use crate::faults::Fault;
use crate::numbers::BEC_NO_WATCH;
use bestore_client::wire::Push;
use bestore_client::Error;
use std::collections::btree_map::Entry;
use std::collections::{BTreeMap, BTreeSet};

/// The nodes that a live query's result has gained, and those that it has lost, since the program was given the last ones.
#[derive(Debug, Default)]
pub(crate) struct Changes {
    pub created: BTreeSet<u64>,
    pub removed: BTreeSet<u64>,
}

impl Changes {
    /// Adds later changes. A node that came and then left, or that left and then came, is in neither list.
    fn add(&mut self, created: &[u64], removed: &[u64]) {
        for node in removed {
            if !self.created.remove(node) {
                self.removed.insert(*node);
            }
        }
        for node in created {
            if !self.removed.remove(node) {
                self.created.insert(*node);
            }
        }
    }
}

/// What has been received for a live query.
#[derive(Debug, Default)]
pub(crate) struct Received {
    pub changes: Changes,
    /// The snapshot that the changes lead to.
    pub number: u64,
    /// Whether the last line has more to come, so the changes don't lead to the snapshot yet.
    is_partial: bool,
    /// Why the live query has ended.
    pub end: Option<Fault>,
}

/// What has been received for each live query, and the changes that the program was given last.
#[derive(Debug, Default)]
pub(crate) struct Updates {
    received: BTreeMap<u64, Received>,
    pub last: Changes,
}

impl Updates {
    /// Takes in a line.
    pub fn take_in(&mut self, push: Push) {
        let received = self.received.entry(push.watch).or_default();
        received.changes.add(&push.created, &push.removed);
        received.number = push.commit;
        received.is_partial = push.more;
        received.end = push.error.map(|refusal| Error::Refused(refusal).into());
    }

    /// Returns whether the last line of this live query has more to come.
    pub fn is_partial(&self, watch: u64) -> bool {
        self.received.get(&watch).map_or(false, |received| received.is_partial)
    }

    /// Removes and returns what was received for a live query that has something to report completely.
    pub fn take_any(&mut self) -> Option<(u64, Received)> {
        let complete = |(watch, received): (&u64, &Received)| (!received.is_partial).then_some(*watch);
        let watch = self.received.iter().find_map(complete)?;
        self.received.remove(&watch).map(|received| (watch, received))
    }

    /// Removes and returns what was received for this live query.
    pub fn take(&mut self, watch: u64) -> Received {
        self.received.remove(&watch).unwrap_or_default()
    }

    /// Returns why this live query has ended, if that was received. The fault is the server's otherwise.
    pub fn end_of(&mut self, watch: u64, fault: Fault) -> Fault {
        match self.received.entry(watch) {
            Entry::Occupied(mut entry) if fault.fault.error == BEC_NO_WATCH => match entry.get_mut().end.take() {
                Some(end) => {
                    entry.remove();
                    end
                }
                None => fault,
            },
            _ => fault,
        }
    }
}

#[cfg(test)]
mod tests {
    use super::*;

    fn push(watch: u64, commit: u64, created: &[u64], removed: &[u64], more: bool) -> Push {
        Push {
            watch,
            commit,
            created: created.into(),
            removed: removed.into(),
            more,
            ..Push::default()
        }
    }

    #[test]
    fn changes_add_up() {
        let mut updates = Updates::default();
        updates.take_in(push(1, 2, &[1, 2], &[9], false));
        updates.take_in(push(2, 2, &[5], &[], true));
        updates.take_in(push(1, 3, &[9, 3], &[1], true));
        assert!(updates.take_any().is_none() && updates.is_partial(1));
        updates.take_in(push(1, 3, &[], &[7], false));
        let (watch, received) = updates.take_any().unwrap();
        assert_eq!((watch, received.number), (1, 3));
        assert_eq!(received.changes.created.into_iter().collect::<Vec<_>>(), [2, 3]);
        assert_eq!(received.changes.removed.into_iter().collect::<Vec<_>>(), [7]);
        assert!(updates.take_any().is_none());
        assert_eq!(updates.take(2).changes.created.len(), 1);
        assert!(updates.take(2).changes.created.is_empty());
    }
}
