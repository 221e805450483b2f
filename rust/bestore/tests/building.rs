//! Tests of stores that begin with a volume, and of the listings that give one.

mod common;

use bestore::listing::{records, Record};
use bestore::{Batch, Builder, Error, Kind, Limits, Pass, Store};
use common::{sized, ten};

fn builder() -> Builder {
    let limits = Limits {
        pages: 256,
        ..Limits::default()
    };
    Builder::new(limits).unwrap()
}

fn listed(pass: &mut Pass) -> Vec<Vec<u8>> {
    pass.pin().unwrap().listing().map(Result::unwrap).collect()
}

/// Builds a store from what the pass sees.
fn built(pass: &mut Pass) -> Store {
    let snapshot = pass.pin().unwrap();
    let mut builder = builder();
    for batch in snapshot.listing() {
        builder.batch(&batch.unwrap()).unwrap();
    }
    builder.finish(snapshot.next_node().unwrap()).unwrap()
}

#[test]
fn a_built_store_has_the_volume_and_takes_writes() {
    let mut pass = ten();
    pass.remove_node(10).unwrap();
    pass.remove_node(4).unwrap();
    pass.set(3, "color", "red").unwrap();
    pass.make_index("color", Kind::Text).unwrap();
    pass.set(5, "color", "blue").unwrap();
    pass.set(6, "color", 6_i64).unwrap();
    let store = built(&mut pass);
    let mut other = store.pass().unwrap();
    assert_eq!(listed(&mut other), listed(&mut pass));
    assert_eq!(other.status().unwrap().entries, 0);
    let (snapshot, made) = (pass.pin().unwrap(), other.pin().unwrap());
    assert_eq!(made.number(), 0);
    for text in ["size>=1", "color==*", "size>3 && size<7"] {
        assert_eq!(made.query(text).unwrap(), snapshot.query(text).unwrap());
    }
    assert_eq!(made.query("color==*").unwrap(), [5]);
    for (node, is_held) in [(3, false), (5, true), (6, false), (7, false), (99, false)] {
        assert_eq!(made.is_held(node, "color").unwrap(), is_held, "{node}");
    }
    drop(made);
    assert_eq!(other.new_node().unwrap(), 11);
    other.set(3, "color", "green").unwrap();
    assert_eq!(other.pin().unwrap().query("color==*").unwrap(), [3, 5]);
    assert_eq!(other.pin().unwrap().number(), 2);
}

#[test]
fn numbers_may_have_gaps_and_be_large() {
    let mut builder = builder();
    builder.index("a", Kind::Uint64).unwrap();
    let last = (1 << 63) - 1;
    for node in [2, 300_000_000_000_001, last] {
        builder.node(node).unwrap();
        builder.attribute("a", node, true).unwrap();
    }
    assert_eq!(
        builder
            .finish(1 << 63)
            .unwrap()
            .pass()
            .unwrap()
            .pin()
            .unwrap()
            .query("a>1")
            .unwrap(),
        [2, 300_000_000_000_001, last]
    );
}

#[test]
fn what_is_out_of_order_is_refused_and_the_rest_goes_on() {
    let mut builder = builder();
    builder.index("b", Kind::Text).unwrap();
    assert!(matches!(builder.index("b", Kind::Text), Err(Error::IndexExists)));
    assert!(matches!(builder.index("a", Kind::Text), Err(Error::IndexExists)));
    assert!(matches!(builder.index("c", Kind::Raw), Err(Error::NotIndexable)));
    assert!(matches!(builder.index("", Kind::Text), Err(Error::NameLength { .. })));
    assert!(matches!(builder.attribute("a", "", false), Err(Error::NoNode)));
    assert!(matches!(builder.node(0), Err(Error::NoNode)));
    builder.node(5).unwrap();
    assert!(matches!(builder.node(5), Err(Error::NoNode)));
    assert!(matches!(builder.node(1 << 63), Err(Error::NoNode)));
    assert!(matches!(builder.index("z", Kind::Text), Err(Error::NoNode)));
    builder.attribute("b", "text", true).unwrap();
    assert!(matches!(builder.attribute("b", "text", true), Err(Error::NoAttribute)));
    assert!(matches!(builder.attribute("c", "text", true), Err(Error::NoIndex)));
    assert!(matches!(
        builder.attribute("c", "a\0", false),
        Err(Error::HasNul { .. })
    ));
    let long = vec![0; 256];
    assert!(matches!(
        builder.attribute("c", &long, false),
        Err(Error::DataLength { .. })
    ));
    builder.attribute("c", 1_i32, false).unwrap();
    builder.node(6).unwrap();
    assert!(matches!(builder.attribute("b", 1_i32, true), Err(Error::NotIndexable)));
    let store = builder.finish(7).unwrap();
    let mut pass = store.pass().unwrap();
    let snapshot = pass.pin().unwrap();
    assert_eq!(snapshot.query("b==text").unwrap(), [5]);
    assert_eq!(snapshot.attributes(5).unwrap().len(), 2);
    assert_eq!(snapshot.attributes(6).unwrap(), []);
}

#[test]
fn the_next_node_is_greater_than_the_last_one() {
    for (next, is_fine) in [
        (0, false),
        (6, false),
        (7, true),
        (1 << 63, true),
        ((1 << 63) + 1, false),
    ] {
        let mut builder = builder();
        builder.node(6).unwrap();
        match builder.finish(next) {
            Ok(store) => assert_eq!(
                (store.pass().unwrap().pin().unwrap().next_node().unwrap(), is_fine),
                (next, true)
            ),
            Err(error) => assert!(matches!(error, Error::NoNode) && !is_fine, "{next}: {error}"),
        }
    }
}

#[test]
fn limits_and_pages_have_bounds() {
    for (pages, passes, commits) in [(7, 1, 1), (16_777_217, 1, 1), (8, 0, 1), (8, 64, 1), (8, 1, 0)] {
        let limits = Limits { pages, passes, commits };
        assert!(matches!(Builder::new(limits), Err(Error::BadLimits)));
    }
    let limits = Limits {
        pages: 8,
        ..Limits::default()
    };
    let mut builder = Builder::new(limits).unwrap();
    let full = (1..10_000).find_map(|node| builder.node(node).err());
    assert!(matches!(full, Some(Error::Full { .. })));
    assert!(matches!(builder.node(20_000), Err(Error::Full { .. })));
    assert!(matches!(builder.finish(30_000), Err(Error::Full { .. })));
}

#[test]
fn a_listing_has_batches_of_64_kibibytes() {
    let store = sized(4096);
    let mut pass = store.pass().unwrap();
    for node in (1..=2_000).step_by(20) {
        let mut batch = Batch::new();
        for node in node..node + 20 {
            batch
                .new_node()
                .set(node, "raw", vec![1; 250])
                .set(node, "text", "a".repeat(100));
        }
        pass.apply(&batch).unwrap();
    }
    let batches = listed(&mut pass);
    let (last, whole) = batches.split_last().unwrap();
    assert!(whole.len() > 8 && last.len() <= (64 << 10) + 325);
    assert!(whole
        .iter()
        .all(|batch| (64 << 10..(64 << 10) + 325).contains(&batch.len())));
    let nodes = batches.iter().flat_map(|batch| records(batch).unwrap());
    let nodes = nodes.filter(|record| matches!(record, Ok(Record::Node { .. })));
    assert_eq!(nodes.count(), 2_000);
}

#[test]
fn an_empty_store_has_no_batches() {
    let mut pass = sized(64).pass().unwrap();
    assert!(listed(&mut pass).is_empty());
    assert_eq!(built(&mut pass).pass().unwrap().new_node().unwrap(), 1);
    pass.make_index("a", Kind::Text).unwrap();
    assert_eq!(listed(&mut pass).len(), 1);
}

#[test]
fn a_batch_that_is_not_a_listing_is_refused() {
    let mut builder = builder();
    assert!(matches!(
        builder.batch(b"BEB\x01"),
        Err(Error::BadBatch { offset: 2, .. })
    ));
    assert!(matches!(
        builder.batch(b"BEV\x01\x02"),
        Err(Error::BadBatch { offset: 5, .. })
    ));
    builder.batch(b"BEV\x01").unwrap();
    builder.finish(1).unwrap();
}

#[test]
fn an_empty_store_can_begin_with_another_volume() {
    let mut from = ten();
    let batches = listed(&mut from);
    let store = sized(256);
    let (mut pass, mut idle) = (store.pass().unwrap(), store.pass().unwrap());
    assert_eq!(idle.pin().unwrap().number(), 0);
    assert_eq!(idle.hold().unwrap(), 0);
    assert_eq!(store.begin_with(&batches, 11).unwrap(), 1);
    assert_eq!(idle.pin().unwrap().nodes().count(), 0);
    idle.release();
    for pass in [&mut pass, &mut idle] {
        assert_eq!(pass.pin().unwrap().number(), 1);
        assert_eq!(listed(pass), batches);
    }
    assert_eq!(pass.apply(Batch::new().new_node()).unwrap().number, 2);
    let entries: Vec<_> = pass.journal_from(0).map(|entry| entry.unwrap().number).collect();
    assert_eq!((entries, pass.journal_begin().unwrap()), (vec![2], 1));
    assert!(matches!(store.begin_with(&batches, 11), Err(Error::NotEmpty)));
}

#[test]
fn a_store_that_is_not_empty_keeps_its_volume() {
    let mut from = ten();
    let (batches, store) = (listed(&mut from), built(&mut from));
    assert!(matches!(store.begin_with(&batches, 11), Err(Error::NotEmpty)));
    let written = sized(256);
    let pass = written.pass().unwrap();
    pass.make_index("a", Kind::Text).unwrap();
    pass.remove_index("a").unwrap();
    assert!(matches!(written.begin_with(&batches, 11), Err(Error::NotEmpty)));
    let empty = sized(256);
    assert!(matches!(empty.begin_with(&batches, 10), Err(Error::NoNode)));
    assert!(matches!(empty.begin_with([b"BEB"], 10), Err(Error::BadBatch { .. })));
    assert_eq!(empty.begin_with(&batches, 11).unwrap(), 1);
}
