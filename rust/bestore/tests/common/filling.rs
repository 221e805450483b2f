//! Random writes that fill a store. The tests of bestored use this file too.

use bestore::{Batch, Kind, Value};
use std::ops::Range;

const KINDS: [Kind; 5] = [Kind::Text, Kind::Int32, Kind::Int64, Kind::Uint32, Kind::Uint64];

/// After this many writes, a store only grows, so that it gets full.
const WRITES: u64 = 3_000;

/// How many of the newest nodes are written then.
const NEWEST: u64 = 100;

/// Returns the seeds of this many stores. `BESTORE_STORES` overrides how many, and `BESTORE_SEED` says which one is the first.
pub fn seeds(stores: u64) -> Range<u64> {
    let number = |name, default| std::env::var(name).map_or(default, |number| number.parse().unwrap());
    let first = number("BESTORE_SEED", 1);
    first..first + number("BESTORE_STORES", stores)
}

/// Numbers that look random.
struct Random(u64);

impl Random {
    fn below(&mut self, limit: u64) -> u64 {
        self.0 = self
            .0
            .wrapping_mul(6_364_136_223_846_793_005)
            .wrapping_add(1_442_695_040_888_963_407);
        (self.0 >> 33) % limit
    }
}

/// What a store is filled with: how often each kind of operation comes, how many names there are, and how long texts are.
pub struct Mix {
    random: Random,
    writes: u64,
    names: u64,
    longest: u64,
    removals: u64,
    unsets: u64,
    nodes: u64,
}

impl Mix {
    pub fn new(seed: u64) -> Self {
        let mut random = Random(seed);
        let removals = random.below(4);
        Self {
            names: 1 + random.below(20),
            longest: 1 + random.below(245),
            unsets: random.below(8),
            nodes: removals + 1 + random.below(10),
            removals,
            writes: 0,
            random,
        }
    }

    /// Returns a number below the limit.
    pub fn below(&mut self, limit: u64) -> u64 {
        self.random.below(limit)
    }

    fn name(&mut self) -> (String, Kind) {
        let number = self.below(self.names);
        (format!("name{number}"), KINDS[number as usize % KINDS.len()])
    }

    fn value(&mut self, kind: Kind) -> Value {
        let number = self.below(1 << 20);
        let length = (number % self.longest) as usize;
        match kind {
            Kind::Text => Value::Text("t".repeat(length) + &number.to_string()),
            Kind::Raw => Value::Raw(vec![7; length]),
            kind => Value::integer(kind, &number.to_string()).unwrap(),
        }
    }

    fn add_to(&mut self, batch: &mut Batch, next: u64) {
        let newest = if self.writes < WRITES { u64::MAX } else { NEWEST };
        let node = next + 1 - self.below(newest.min(next + 1));
        let (name, kind) = self.name();
        let (unsets, nodes) = (self.removals + self.unsets, self.removals + self.unsets + self.nodes);
        match self.below(40) {
            way if way < self.removals => batch.remove_node(node),
            way if way < unsets => batch.unset(node, &name),
            way if way < nodes => batch.new_node(),
            39 => batch.set(node, &name, self.value(Kind::Raw)),
            _ => batch.set(node, &name, self.value(kind)),
        };
    }

    /// Returns the next write, given the number of the next new node. Some writes can't be made because of what the store has.
    pub fn write(&mut self, next: u64) -> Batch {
        let mut batch = Batch::new();
        self.writes += 1;
        if self.writes == WRITES {
            (self.removals, self.unsets, self.nodes) = (0, 0, 20);
        }
        if self.below(50) == 0 {
            let (name, kind) = self.name();
            match self.below(4) {
                0 => batch.remove_index(&name),
                _ => batch.make_index(&name, kind),
            };
            return batch;
        }
        for _ in 0..=self.below(6) {
            self.add_to(&mut batch, next);
        }
        batch
    }
}
