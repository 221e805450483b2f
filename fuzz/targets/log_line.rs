//! Applies a leader's log entries on a follower. After each entry, the follower's store must be the
//! same as the leader's.
//!
//! An input consists of the number of entries that the log already has, and of batches as bytes,
//! each after its length.
#![no_main]

use bestore::{Batch, Limits, Store};
use bestore_fuzz::Input;

bestore_fuzz::target!(|input| {
    let mut input = Input::new(input);
    let entries = input.number() >> 1;
    let mut batches = Vec::new();
    while !input.is_empty() && batches.len() < 20 {
        batches.extend(Batch::from_bytes(input.part()));
    }
    let added = bestored::in_process::entries_of(&batches, entries).expect("there is memory");
    let store = Store::open(Limits {
        pages: 256,
        passes: 1,
        commits: 1000,
    });
    let store = store.expect("there is memory");
    let follower = store.pass().expect("the store has a pass");
    for (due, (number, bytes)) in (entries + 1..).zip(added) {
        assert_eq!(number, due, "an entry is missing");
        let batch = Batch::from_bytes(&bytes).expect("an entry is a batch");
        let written = follower.apply(&batch).expect("a follower accepts what the leader did");
        let mut repeated = batch.clone();
        repeated.set_nodes(&written.nodes);
        assert_eq!(repeated, batch, "entry {number} makes different nodes");
    }
});
