//! Pushed lines that the program hasn't asked for yet.

use crate::wire::{ErrorName, Push, Refusal};
use std::collections::{BTreeSet, VecDeque};

/// Pushed lines with their lengths, up to a limit on their total size in bytes.
#[derive(Debug)]
pub struct Pushes {
    waiting: VecDeque<(usize, Push)>,
    bytes: usize,
    most: usize,
    /// The watches that have lost lines.
    lost: BTreeSet<u64>,
}

impl Pushes {
    pub fn new(most: usize) -> Self {
        Self {
            waiting: VecDeque::new(),
            bytes: 0,
            most,
            lost: BTreeSet::new(),
        }
    }

    /// Adds a push whose line has this length in bytes. If it doesn't fit, its watch loses all its lines, including later ones.
    pub fn add(&mut self, length: usize, push: Push) {
        if self.lost.contains(&push.watch) {
            return;
        }
        if self.bytes + length <= self.most {
            self.bytes += length;
            self.waiting.push_back((length, push));
            return;
        }
        self.forget(push.watch);
        self.lost.insert(push.watch);
        self.waiting.push_back((0, self.end_of(push)));
    }

    /// Removes and returns the oldest push.
    pub fn take(&mut self) -> Option<Push> {
        let (length, push) = self.waiting.pop_front()?;
        self.bytes -= length;
        Some(push)
    }

    /// Returns whether this newly received push belongs to a watch that has lost lines.
    pub fn is_lost(&self, push: &Push) -> bool {
        self.lost.contains(&push.watch)
    }

    fn forget(&mut self, watch: u64) {
        self.waiting.retain(|(_, push)| push.watch != watch);
        self.bytes = self.waiting.iter().map(|(length, _)| length).sum();
    }

    /// Returns the final push of this push's watch, which reports that lines were lost.
    fn end_of(&self, push: Push) -> Push {
        let message = format!(
            "more than {} bytes of pushes were waiting to be read, and those of watch {} were dropped; start it again",
            self.most, push.watch
        );
        Push {
            watch: push.watch,
            commit: push.commit,
            error: Some(Refusal::new(ErrorName::PushesLost, message)),
            ..Push::default()
        }
    }
}

#[cfg(test)]
mod tests {
    use super::*;

    fn push(watch: u64, commit: u64) -> Push {
        Push {
            watch,
            commit,
            ..Push::default()
        }
    }

    #[test]
    fn a_watch_without_room_loses_its_lines_and_no_other_does() {
        let mut pushes = Pushes::new(100);
        pushes.add(40, push(1, 1));
        pushes.add(40, push(2, 1));
        pushes.add(40, push(1, 2));
        pushes.add(60, push(2, 2));
        pushes.add(1, push(1, 3));
        assert_eq!(pushes.take(), Some(push(2, 1)));
        let end = pushes.take().unwrap();
        assert_eq!((end.watch, end.commit), (1, 2));
        assert_eq!(end.error.unwrap().name, ErrorName::PushesLost);
        assert_eq!(pushes.take(), Some(push(2, 2)));
        assert_eq!((pushes.take(), pushes.bytes), (None, 0));
        assert!(pushes.is_lost(&push(1, 4)) && !pushes.is_lost(&push(2, 4)));
    }
}
