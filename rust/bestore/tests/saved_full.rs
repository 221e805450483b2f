//! Tests of kept stores that were filled until no page was free: each opens again with as many pages.
#![cfg(feature = "saved")]

mod common;

use bestore::saved::{Options, Saved};
use bestore::{Error, Limits, Retry};
use common::filling::{seeds, Mix};
use common::Folder;

/// How many stores to fill.
const STORES: u64 = 40;

/// Writes until no page was free a few times. Compacts now and then.
fn fill(saved: &Saved, mix: &mut Mix) {
    let mut pass = saved.pass().unwrap();
    pass.set_retry(Retry {
        full: 0,
        ..Retry::default()
    });
    let mut left = 1 + mix.below(3);
    while left > 0 {
        let next = pass.pin().unwrap().next_node().unwrap();
        let written = pass.apply(&mix.write(next));
        left -= u64::from(matches!(written, Err(Error::Full { .. })));
        if mix.below(500) == 0 {
            saved.compact().unwrap();
        }
    }
}

fn listed(saved: &Saved) -> (Vec<u8>, u64) {
    let mut pass = saved.pass().unwrap();
    let snapshot = pass.pin().unwrap();
    let batches = snapshot.listing().map(Result::unwrap);
    (batches.flatten().collect(), snapshot.next_node().unwrap())
}

/// Fills a store, and opens its file again twice.
fn check(folder: &Folder, seed: u64) {
    let mut mix = Mix::new(seed);
    let limits = Limits {
        pages: 8 + mix.below(593),
        ..Limits::default()
    };
    let mut options = Options::new();
    options.limits(limits).every(std::time::Duration::from_secs(3_600));
    let open = || {
        options
            .open(folder.file())
            .unwrap_or_else(|error| panic!("seed {seed}: {error}"))
    };
    let saved = open();
    fill(&saved, &mut mix);
    let (before, number) = (listed(&saved), number_of(&saved));
    saved.close().unwrap();
    for _ in 0..2 {
        let saved = open();
        assert!(listed(&saved) == before, "seed {seed}: the volume differs");
        assert_eq!(number_of(&saved), number, "seed {seed}");
        saved.close().unwrap();
    }
    std::fs::remove_file(folder.file()).unwrap();
}

/// Returns the number in the file of the last entry in memory.
fn number_of(saved: &Saved) -> u64 {
    let pass = saved.pass().unwrap();
    saved.number_in_file(pass.status().unwrap().entries)
}

#[test]
fn a_full_store_opens_again_with_as_many_pages() {
    let folder = Folder::in_memory("full");
    seeds(STORES).for_each(|seed| check(&folder, seed));
}
