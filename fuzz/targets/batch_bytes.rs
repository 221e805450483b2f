//! Reads a batch from bytes, as kept files and logs contain them. A valid batch must be encoded as the same bytes. If a store
//! accepts the batch, it must be in the store's journal.
#![no_main]

use bestore::{Batch, Error, Limits, Store};

bestore_fuzz::target!(|input| {
    match Batch::from_bytes(input) {
        Ok(batch) => {
            assert!((1..=64).contains(&batch.len()));
            match batch.to_bytes() {
                Ok(bytes) => assert_eq!(bytes, input, "the bytes aren't those that were read"),
                Err(error) => panic!("a batch that was read can't be written: {error}"),
            }
            applies(&batch);
        }
        Err(Error::BadBatch { offset, .. }) => assert!(offset <= input.len(), "the error is at {offset}"),
        Err(error) => panic!("no batch is refused as {error:?}"),
    }
});

/// Checks that a batch which an empty store accepts is in its journal, and that a batch which it refuses leaves no trace.
fn applies(batch: &Batch) {
    let limits = Limits {
        pages: 64,
        passes: 1,
        commits: 8,
    };
    let store = Store::open(limits).expect("there is memory for a store");
    let pass = store.pass().expect("the store has a pass");
    let entries: Vec<_> = match pass.apply(batch) {
        Ok(written) => {
            assert_eq!(written.number, 1);
            let mut expected = batch.clone();
            expected.set_nodes(&written.nodes);
            vec![expected]
        }
        Err(_) => Vec::new(),
    };
    let journal = pass
        .journal_from(0)
        .map(|entry| entry.expect("the journal is read").batch);
    assert_eq!(journal.collect::<Vec<_>>(), entries);
}
