//! Tests of kept files that several threads open at the same moment. SQLite's locks treat them as it treats programs.
#![cfg(feature = "saved")]

mod common;

use bestore::saved::{self, Error, Saved};
use common::Folder;
use std::sync::Barrier;
use std::thread;

/// How many times the file is opened, and by how many threads at a time.
const ROUNDS: usize = 60;
const THREADS: usize = 3;

#[test]
fn one_of_those_who_open_a_closed_file_at_the_same_moment_gets_it() {
    let folder = Folder::new("at-once");
    let file = folder.file();
    saved::open(&file).unwrap().pass().unwrap().new_node().unwrap();
    let barrier = Barrier::new(THREADS);
    let open = || {
        (0..ROUNDS)
            .map(|_| {
                barrier.wait();
                let opened = saved::open(&file);
                // Whoever has opened the file holds it until all others have tried.
                barrier.wait();
                let is_open = opened.is_ok();
                assert!(is_open || matches!(opened, Err(Error::Held { .. })), "{opened:?}");
                opened.map(Saved::close).unwrap_or(Ok(())).unwrap();
                is_open
            })
            .collect::<Vec<bool>>()
    };
    let rounds: Vec<Vec<bool>> = thread::scope(|scope| {
        let threads: Vec<_> = (0..THREADS).map(|_| scope.spawn(open)).collect();
        threads.into_iter().map(|thread| thread.join().unwrap()).collect()
    });
    for round in 0..ROUNDS {
        let opened = rounds.iter().filter(|thread| thread[round]).count();
        assert_eq!(opened, 1, "round {round}");
    }
}
