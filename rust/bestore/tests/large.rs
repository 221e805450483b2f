//! Tests that no answer of a large store is cut, and that its pages take no memory before they are used.

mod common;

use bestore::{Batch, Kind, Limits, Order, Pass, Prepared, Store};
use common::resident;

const NODES: u64 = 220_000;
const LIMITS: Limits = Limits {
    pages: 131_072,
    passes: 1,
    commits: 1_000_000,
};

/// How many bytes of memory a store may take that has just been opened.
const OPENED: u64 = 30 << 20;

/// Creates the nodes, each with its number, negated, as the indexed `k`.
fn fill(pass: &Pass) {
    pass.make_index("k", Kind::Int64).unwrap();
    for first in (1..=NODES).step_by(32) {
        let mut batch = Batch::new();
        for node in first..(first + 32).min(NODES + 1) {
            batch.new_node().set(node, "k", -(node as i64));
        }
        pass.apply(&batch).unwrap();
    }
}

#[test]
fn no_answer_of_a_large_store_is_cut() {
    let before = resident();
    let store = Store::open(LIMITS).unwrap();
    assert!(resident() - before < OPENED, "{} bytes", resident() - before);
    let mut pass = store.pass().unwrap();
    fill(&pass);
    let snapshot = pass.pin().unwrap();
    let all: Vec<u64> = (1..=NODES).collect();
    let prepared = Prepared::new("k<0").unwrap();
    assert_eq!(snapshot.query("k<0").unwrap(), all);
    assert_eq!(snapshot.query_prepared(&prepared).unwrap(), all);
    assert_eq!(snapshot.first_prepared(&prepared, 0, usize::MAX).unwrap(), all);
    let mut any = snapshot.any_prepared(&prepared, usize::MAX).unwrap();
    any.sort_unstable();
    assert_eq!(any, all);
    let page = snapshot
        .page(&prepared, &Order::by("k").descending(), None, usize::MAX)
        .unwrap();
    assert_eq!(page.nodes, all);
    assert_eq!(snapshot.nodes().count() as u64, NODES);
}
