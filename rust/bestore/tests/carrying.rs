//! Tests of carrying on a store, which frees its journal's memory.

mod common;

use bestore::{Batch, Error, Kind, Live, Pass, Retry, Store, Value};
use common::{shared, sized, store, ten};
use std::sync::atomic::{AtomicBool, Ordering};
use std::thread;
use std::time::Duration;

/// Creates a node with this size.
fn of_size(pass: &Pass, size: i64) -> u64 {
    let node = pass.new_node().unwrap();
    pass.set(node, "size", size).unwrap();
    node
}

/// Increments node 1's count with a change.
fn add(pass: &mut Pass) {
    let added = pass.change(|change| {
        let count = change.get(1, "count")?.and_then(|value| value.as_i64()).unwrap_or(0);
        change.set(1, "count", count + 1).map(drop)
    });
    added.unwrap();
}

/// Returns node 1's count, and the number of the snapshot in which it was read.
fn count(pass: &mut Pass) -> (i64, u64) {
    let snapshot = pass.pin().unwrap();
    let count = snapshot.get(1, "count").unwrap().and_then(|value| value.as_i64());
    (count.unwrap_or(0), snapshot.number())
}

#[test]
fn numbers_nodes_and_indices_go_on() {
    let store = store();
    let mut pass = store.pass().unwrap();
    pass.make_index("size", Kind::Int64).unwrap();
    let (first, second) = (of_size(&pass, 5), of_size(&pass, 6));
    pass.remove_node(second).unwrap();
    let entries = pass.status().unwrap().entries;
    for times in 1..=3 {
        store.carry_on().unwrap();
        assert_eq!(pass.status().unwrap().entries, entries + times - 1);
        let number = pass.pin().unwrap().number();
        assert_eq!(number, entries + times - 1);
        let written = pass.apply_if(number, Batch::new().new_node()).unwrap();
        assert_eq!((written.number, written.nodes), (number + 1, vec![second + times]));
        assert_eq!(pass.pin().unwrap().query("size>=5").unwrap(), [first]);
    }
}

#[test]
fn a_pinned_snapshot_stays_and_its_pass_writes_ahead() {
    let store = store();
    let (mut pass, mut other) = (store.pass().unwrap(), store.pass().unwrap());
    pass.new_node().unwrap();
    pass.set(1, "size", 5_i64).unwrap();
    let snapshot = pass.pin().unwrap();
    store.carry_on().unwrap();
    assert!(store.is_read_before());
    assert!(matches!(store.carry_on(), Err(Error::InUse)));
    // Nothing has been written in between.
    let number = snapshot.number();
    assert_eq!(
        snapshot
            .pass()
            .apply_if(number, Batch::new().set(1, "size", 6_i64))
            .unwrap()
            .number,
        number + 1
    );
    other.set(1, "size", 7_i64).unwrap();
    match snapshot.pass().apply_if(number, Batch::new().set(1, "size", 8_i64)) {
        Err(Error::Conflict { expected, found }) => assert_eq!((expected, found), (number, number + 2)),
        other => panic!("{other:?}"),
    }
    assert_eq!(
        (snapshot.number(), snapshot.get(1, "size").unwrap()),
        (number, Some(5_i64.into()))
    );
    assert_eq!((store.generation(), snapshot.pass().generation()), (1, 0));
    drop(snapshot);
    // A pass that has only written still uses the old store.
    assert_eq!(pass.pin().unwrap().get(1, "size").unwrap(), Some(7_i64.into()));
    assert!(store.is_read_before());
    assert!(other.follow().unwrap());
    assert!(!other.follow().unwrap());
    assert!(!store.is_read_before());
    store.carry_on().unwrap();
    assert_eq!(pass.pin().unwrap().number(), number + 2);
}

#[test]
fn a_snapshot_that_is_held_stays_until_it_is_released() {
    let store = store();
    let mut pass = store.pass().unwrap();
    pass.new_node().unwrap();
    let number = pass.hold().unwrap();
    store.carry_on().unwrap();
    pass.set(1, "size", 5_i64).unwrap();
    pass.follow().unwrap();
    let read = |pass: &mut Pass| {
        let snapshot = pass.pin().unwrap();
        (snapshot.number(), snapshot.get(1, "size").unwrap())
    };
    assert_eq!(read(&mut pass), (number, None));
    assert!(store.is_read_before());
    pass.release();
    assert_eq!(read(&mut pass), (number + 1, Some(Value::from(5_i64))));
    assert!(!store.is_read_before());
}

#[test]
fn a_change_ends_in_the_store_that_was_carried_on() {
    let store = store();
    let mut pass = store.pass().unwrap();
    pass.new_node().unwrap();
    let mut tries = 0;
    let made = pass.change(|change| {
        tries += 1;
        store.carry_on().unwrap_or_default();
        change.set(1, "size", 5_i64)?;
        Ok(change.new_node())
    });
    assert_eq!((made.unwrap(), tries), (2, 1));
    let (mut other, mut tries) = (store.pass().unwrap(), 0);
    pass.follow().unwrap();
    pass.change(|change| {
        tries += 1;
        if tries == 1 {
            other.set(1, "size", 6_i64)?;
            store.carry_on()?;
        }
        let size = change.get(1, "size")?.and_then(|value| value.as_i64()).unwrap_or(0);
        change.set(1, "size", size + 1).map(drop)
    })
    .unwrap();
    assert_eq!(tries, 2);
    assert_eq!(other.pin().unwrap().get(1, "size").unwrap(), Some(7_i64.into()));
}

#[test]
fn the_journal_has_what_came_since() {
    let store = store();
    let pass = store.pass().unwrap();
    for _ in 0..3 {
        pass.new_node().unwrap();
    }
    assert_eq!(pass.journal_begin().unwrap(), 0);
    let mut entries = pass.journal_from(1);
    assert_eq!(entries.next().unwrap().unwrap().number, 2);
    store.carry_on().unwrap();
    assert_eq!(pass.journal_begin().unwrap(), 3);
    assert!(entries.next().is_none());
    pass.remove_node(2).unwrap();
    for mut entries in [pass.journal_from(0), pass.journal_from(3), entries] {
        let entry = entries.next().unwrap().unwrap();
        assert_eq!((entry.number, &entry.batch), (4, &*Batch::new().remove_node(2)));
        assert!(entries.next().is_none());
    }
    assert!(pass.journal_from(4).next().is_none());
}

#[test]
fn live_queries_and_witnesses_go_on() {
    let store = store();
    let (mut pass, mut other) = (store.pass().unwrap(), store.pass().unwrap());
    pass.make_index("size", Kind::Int64).unwrap();
    let first = of_size(&pass, 5);
    let mut live = Live::new("size>=5").unwrap();
    assert_eq!(live.refresh_changed(&pass.pin().unwrap()).unwrap().created, [first]);
    let mut witness = pass.witness().unwrap();
    let number = pass.pin().unwrap().number();
    store.carry_on().unwrap();
    let second = of_size(&other, 6);
    pass.set(first, "size", 4_i64).unwrap();
    let updates = live.refresh_changed(&pass.pin().unwrap()).unwrap();
    assert_eq!((updates.created, updates.removed), (vec![second], vec![first]));
    assert!(other.join(&mut witness).unwrap() >= number);
    assert_eq!(other.pin().unwrap().number(), number + 3);
    assert!(other.join(&mut pass.witness().unwrap()).unwrap() >= number + 3);
    let of_another = ten().witness();
    assert!(matches!(other.join(&mut of_another.unwrap()), Err(Error::OtherStore)));
}

#[test]
fn indices_have_what_they_had_and_the_journal_begins_empty() {
    let store = store();
    let mut pass = store.pass().unwrap();
    let (early, late) = (of_size(&pass, 5), pass.new_node().unwrap());
    pass.make_index("size", Kind::Int64).unwrap();
    pass.set(late, "size", 6_i64).unwrap();
    let before = pass.status().unwrap().entries;
    let list = |pass: &mut Pass| -> Vec<u8> { pass.pin().unwrap().listing().flat_map(Result::unwrap).collect() };
    let listed = list(&mut pass);
    store.carry_on().unwrap();
    assert_eq!(list(&mut pass), listed);
    assert_eq!(pass.pin().unwrap().query("size>0").unwrap(), [late]);
    assert!(!pass.pin().unwrap().is_held(early, "size").unwrap());
    assert_eq!(
        (pass.journal_begin().unwrap(), pass.status().unwrap().entries),
        (before, before)
    );
    assert_eq!(pass.journal().unwrap(), "");
    pass.set(early, "size", 7_i64).unwrap();
    let numbers: Vec<u64> = pass.journal_from(0).map(|entry| entry.unwrap().number).collect();
    assert_eq!(numbers, [before + 1]);
}

#[test]
fn there_are_as_many_passes_as_before() {
    let store = shared(2);
    let mut passes = vec![store.pass().unwrap(), store.pass().unwrap()];
    // No pass is left for the task, so it uses the store's own pass.
    for _ in 0..3 {
        passes[0].new_node().unwrap();
        store.carry_on().unwrap();
        assert!(matches!(store.pass(), Err(Error::NoPass)));
        passes.iter_mut().for_each(|pass| assert!(pass.follow().unwrap()));
        assert!(!store.is_read_before());
    }
    passes.pop();
    let last = store.pass().unwrap();
    assert_eq!(last.new_node().unwrap(), 4);
    drop((passes, last));
    // The text has only what was written after the state.
    let text = store.finish().unwrap();
    assert_eq!(text.lines().count(), 1, "{text}");
}

/// Now and then the task has the only pass, and a caller that needs one waits for it.
#[test]
fn a_pass_is_there_while_the_store_is_carried_on() {
    let store = shared(1);
    thread::scope(|scope| {
        let taking = scope.spawn(|| {
            for _ in 0..500 {
                store.pass().unwrap().new_node().unwrap();
            }
        });
        while !taking.is_finished() {
            store
                .carry_on()
                .unwrap_or_else(|error| assert!(matches!(error, Error::InUse)));
        }
    });
    assert_eq!(store.pass().unwrap().new_node().unwrap(), 501);
}

#[test]
fn it_is_due_after_some_entries() {
    let store = sized(64);
    let mut pass = store.pass().unwrap();
    pass.new_node().unwrap();
    for round in 0..2 {
        let mut writes = 0;
        while !store.is_due() {
            writes += 1;
            pass.set(1, "text", format!("{writes:0>200}")).unwrap();
        }
        assert!((4_500..5_000).contains(&writes), "{writes} in round {round}");
        store.carry_on().unwrap();
        assert!(!store.is_due());
        pass.follow().unwrap();
    }
    store.set_due_after(1000);
    for is_due in [false, false, false, true] {
        pass.set(1, "text", "a".repeat(250)).unwrap();
        assert_eq!(store.is_due(), is_due);
    }
    store.set_due_after(10_000);
    // After a task has failed, it isn't retried soon.
    let snapshot = pass.pin().unwrap();
    store.carry_on().unwrap();
    while !store.is_due() {
        snapshot.pass().set(1, "text", "x".repeat(255)).unwrap();
    }
    assert!(matches!(store.carry_on(), Err(Error::InUse)));
}

/// Each write increments a count, so a snapshot's number determines its count.
#[test]
fn writers_and_readers_go_on_while_it_is_carried_on() {
    const WRITERS: i64 = 4;
    const WRITES: i64 = 400;
    let store = store();
    let mut pass = store.pass().unwrap();
    pass.new_node().unwrap();
    let is_over = AtomicBool::new(false);
    thread::scope(|scope| {
        let writers: Vec<_> = (0..WRITERS)
            .map(|_| {
                scope.spawn(|| {
                    let mut pass = store.pass().unwrap();
                    (0..WRITES).for_each(|_| add(&mut pass));
                })
            })
            .collect();
        let reader = scope.spawn(|| {
            let (mut pass, mut last) = (store.pass().unwrap(), 0);
            while !is_over.load(Ordering::Relaxed) {
                let (count, number) = count(&mut pass);
                assert_eq!(number, count as u64 + 1);
                assert!(count >= last);
                last = count;
            }
        });
        let carrier = scope.spawn(|| {
            // Run at least once, even if the writers finish before this thread starts.
            while store.generation() == 0 || !is_over.load(Ordering::Relaxed) {
                match store.carry_on() {
                    Ok(()) => {}
                    Err(Error::InUse) => thread::yield_now(),
                    Err(error) => panic!("{error}"),
                }
            }
        });
        let written: Vec<_> = writers.into_iter().map(|writer| writer.join()).collect();
        // If a writer has failed, stop the other threads too.
        is_over.store(true, Ordering::Relaxed);
        written.into_iter().for_each(Result::unwrap);
        reader.join().unwrap();
        carrier.join().unwrap();
    });
    assert_eq!(count(&mut pass), (WRITERS * WRITES, 1 + (WRITERS * WRITES) as u64));
}

/// Carries the store on as soon as the older one is no longer in use.
fn carry_on(store: &Store) -> Result<(), Error> {
    loop {
        match store.carry_on() {
            Err(Error::InUse) => thread::yield_now(),
            outcome => return outcome,
        }
    }
}

/// The writers always need pages that a pinned snapshot would hold, and yet none of their writes fails.
#[test]
fn a_store_without_room_for_a_snapshot_is_carried_on() {
    let store = sized(96);
    let mut pass = store.pass().unwrap();
    for node in 1..=100 {
        pass.new_node().unwrap();
        pass.set(node, "text", "a".repeat(100)).unwrap();
    }
    let is_over = AtomicBool::new(false);
    let write = || {
        let (mut pass, mut writes) = (store.pass().unwrap(), 0);
        pass.set_retry(Retry {
            within: Duration::MAX,
            full: u32::MAX,
            busy: u32::MAX,
            ..Retry::default()
        });
        while !is_over.load(Ordering::Relaxed) {
            writes += 1;
            pass.set(writes % 100 + 1, "text", "b".repeat(100)).unwrap();
            pass.follow().unwrap();
        }
        writes
    };
    let (carried, writes) = thread::scope(|scope| {
        let writers = [scope.spawn(write), scope.spawn(write)];
        let carried = carry_on(&store).and_then(|()| {
            pass.follow()?;
            carry_on(&store)
        });
        is_over.store(true, Ordering::Relaxed);
        (
            carried,
            writers.map(|writer| writer.join().unwrap()).iter().sum::<u64>(),
        )
    });
    carried.unwrap();
    assert_eq!((store.generation(), pass.generation()), (2, 1));
    assert_eq!(pass.pin().unwrap().number(), 200 + writes);
    assert_eq!(pass.generation(), 2);
}
