//! Checks three of the library's promises while threads are writing:
//!
//! - a new pass sees what was written before it was created, if it joins the writer's witness;
//! - a pinned pass reads a single prefix of the journal;
//! - everything that a pass has written is in the journal that `finish` returns, at its commit number.
//!
//! `BESTORE_ROUNDS` is the number of stores to open, check for all three, and close.

use bestore::{Batch, Error, Kind, Limits, Pass, Store, Written};
use std::thread;

const WRITERS: u64 = 3;
const WRITES: usize = 8;

/// A writer's number, and the commit numbers of its writes.
type Writes = (u64, Vec<u64>);

fn rounds() -> usize {
    let rounds = std::env::var("BESTORE_ROUNDS").ok();
    rounds.map_or(50, |rounds| rounds.parse().unwrap())
}

/// Creates a node that contains the pass's number.
fn write_node(pass: &mut Pass) -> u64 {
    loop {
        let snapshot = pass.pin().unwrap();
        let (number, next) = (snapshot.number(), snapshot.next_node().unwrap());
        drop(snapshot);
        let own = i64::try_from(pass.number().unwrap()).unwrap();
        match pass.apply_if(number, Batch::new().new_node().set(next, "by", own)) {
            Ok(Written { number, .. }) => return number,
            Err(Error::Conflict { .. }) => {}
            Err(error) => panic!("{error}"),
        }
    }
}

/// Reads one snapshot several times while others write. Entry 1 creates an index, and each later entry creates a node.
fn read_one_prefix(pass: &mut Pass, least: u64) {
    let snapshot = pass.pin().unwrap();
    assert!(snapshot.number() >= least);
    for _ in 0..3 {
        let found = snapshot.query("by>=0").unwrap();
        assert_eq!(found.len() as u64, snapshot.number() - 1);
        assert_eq!(snapshot.next_node().unwrap(), snapshot.number());
    }
}

/// Writes and reads through a pass that has seen the journal up to this number.
fn run(mut pass: Pass, made: u64) -> Writes {
    read_one_prefix(&mut pass, made);
    let write = |_| {
        let number = write_node(&mut pass);
        read_one_prefix(&mut pass, number);
        number
    };
    let written = (0..WRITES).map(write).collect();
    (pass.number().unwrap(), written)
}

/// Runs one round. Each pass is created after another write by the first one, while the earlier threads are already writing.
fn play() {
    let limits = Limits {
        pages: 256,
        passes: WRITERS + 1,
        ..Limits::default()
    };
    let store = Store::open(limits).unwrap();
    let mut own = store.pass().unwrap();
    own.make_index("by", Kind::Int64).unwrap();
    let begin = |_| {
        let made = write_node(&mut own);
        let pass = store.pass().unwrap();
        assert!(pass.join(&mut own.witness().unwrap()).unwrap() >= made);
        thread::spawn(move || run(pass, made))
    };
    let running: Vec<_> = (0..WRITERS).map(begin).collect();
    let writes: Vec<Writes> = running.into_iter().map(|it| it.join().unwrap()).collect();
    drop(own);
    let journal = store.finish().unwrap();
    for (number, written) in writes {
        for commit in written {
            let entry = format!("{commit} by {number} new; ");
            assert!(journal.lines().any(|line| line.starts_with(&entry)));
        }
    }
}

#[test]
fn the_promises_hold_while_threads_write() {
    for _ in 0..rounds() {
        play();
    }
}
