//! Tests of batches and changes, and of the errors with which they are refused.

mod common;

use bestore::{Batch, Error, Keeper, Kind, Limits, MakeWrite, Oldest, Pass, Retry, Status, Store, Value, Written};
use common::{patient, sized, store, ten};
use std::sync::atomic::{AtomicBool, Ordering};
use std::sync::{mpsc, Arc, Mutex};
use std::thread;
use std::time::Duration;

fn count(pass: &mut Pass, node: u64) -> i64 {
    let value = pass.pin().unwrap().get(node, "count").unwrap();
    value.and_then(|value| value.as_i64()).unwrap_or(0)
}

#[test]
fn a_batch_is_done_whole_or_not_at_all() {
    let pass = ten();
    let before = pass.status().unwrap().entries;
    let mut batch = Batch::new();
    batch.new_node().set(99, "size", 1_i64);
    assert!(matches!(pass.apply(&batch), Err(Error::NoNode)));
    assert_eq!(pass.status().unwrap().entries, before);
    let written = pass.apply(Batch::new().remove_node(1).new_node().new_node()).unwrap();
    assert_eq!((written.number, written.nodes), (before + 1, vec![11, 12]));
}

#[test]
fn bad_operations_are_named() {
    let pass = ten();
    let at = Some(1);
    let refused = |batch: &Batch| pass.apply(batch).unwrap_err();
    let name = refused(Batch::new().new_node().set(1, "", 1_i32));
    assert!(matches!(name, Error::NameLength { operation } if operation == at));
    let data = refused(Batch::new().new_node().set(1, "a", "x".repeat(256)));
    assert!(matches!(data, Error::DataLength { operation } if operation == at));
    let nul = refused(Batch::new().new_node().set(1, "a", "\0"));
    assert!(matches!(nul, Error::HasNul { operation } if operation == at));
    assert!(matches!(refused(&Batch::new()), Error::BadCount { count: 0 }));
    let mut long = Batch::new();
    for _ in 0..65 {
        long.new_node();
    }
    assert!(matches!(refused(&long), Error::BadCount { count: 65 }));
    let index = refused(Batch::new().make_index("size", Kind::Text));
    assert!(matches!(index, Error::IndexExists));
    let raw = refused(Batch::new().make_index("raw", Kind::Raw));
    assert!(matches!(raw, Error::NotIndexable));
    assert!(matches!(pass.remove_index("none"), Err(Error::NoIndex)));
    assert!(matches!(pass.unset(1, "none"), Err(Error::NoAttribute)));
}

#[test]
fn a_conditional_write_finds_the_journal_as_it_expects() {
    let mut pass = ten();
    let number = pass.pin().unwrap().number();
    let mut batch = Batch::new();
    batch.new_node();
    let written = pass.apply_if(number, &batch).unwrap();
    assert_eq!(written.number, number + 1);
    match pass.apply_if(number, &batch) {
        Err(Error::Conflict { expected, found }) => {
            assert_eq!((expected, found), (number, number + 1));
        }
        other => panic!("{other:?}"),
    }
}

#[test]
fn a_change_names_the_nodes_that_it_makes() {
    let mut pass = ten();
    let (first, second, number) = pass
        .change(|change| {
            let (first, second) = (change.new_node(), change.new_node());
            change.set(first, "size", 1_i64)?.set(second, "size", 2_i64)?;
            assert_eq!(change.batch().len(), 4);
            Ok((first, second, change.number()))
        })
        .unwrap();
    let snapshot = pass.pin().unwrap();
    assert_eq!(snapshot.number(), number);
    assert_eq!(snapshot.get(first, "size").unwrap(), Some(Value::Int64(1)));
    assert_eq!(snapshot.get(second, "size").unwrap(), Some(Value::Int64(2)));
}

#[test]
fn a_change_without_operations_writes_nothing() {
    let mut pass = ten();
    let before = pass.status().unwrap().entries;
    assert_eq!(pass.change(|change| change.snapshot().query("size==5")).unwrap(), [5]);
    let stopped = pass.change(|change| {
        change.new_node();
        Err::<(), _>(Error::other("enough"))
    });
    assert_eq!(stopped.unwrap_err().to_string(), "enough");
    assert_eq!(pass.status().unwrap().entries, before);
}

#[test]
fn a_change_looks_at_kinds() {
    let mut pass = ten();
    let refused = pass
        .change(|change| change.set(1, "size", 5_i32).map(drop))
        .unwrap_err();
    let said = "the index \"size\" takes values of kind i64, and this one is i32; set it as i64, or no query finds it";
    assert_eq!(refused.to_string(), said);
    pass.change(|change| {
        change.remove_index("size")?.set(1, "size", 5_i32)?;
        change.make_index("length", Kind::Uint32)?;
        assert!(change.set(1, "length", 5_i64).is_err());
        change.set(1, "length", 5_u32)?.set(1, "other", "free")?;
        Ok(())
    })
    .unwrap();
    assert_eq!(pass.pin().unwrap().query("length==5").unwrap(), [1]);
}

/// If a call on a change can't return its error, the change returns it at the end.
#[test]
fn an_operation_that_is_not_collected_ends_the_change() {
    let mut pass = ten();
    let before = pass.status().unwrap().entries;
    let many = pass.change(|change| {
        let nodes: Vec<_> = (0..66).map(|_| change.new_node()).collect();
        assert_eq!((nodes[0], nodes[64], change.batch().len()), (11, 75, 64));
        change.remove_node(1);
        Ok(())
    });
    assert!(matches!(many, Err(Error::BadCount { count: 65 })));
    let unnamed = pass.change(|change| {
        change.remove_node(1).unset(2, "");
        assert_eq!(change.get(1, "size")?, None);
        Ok(())
    });
    assert!(matches!(unnamed, Err(Error::NameLength { operation: Some(1) })));
    assert_eq!(pass.status().unwrap().entries, before);
}

/// While another pass is writing or holds the free pages, a change starts over, up to the number of times that its pass allows.
#[test]
fn a_change_at_full_begins_again() {
    let store = sized(16);
    let (mut pass, mut reader) = (store.pass().unwrap(), store.pass().unwrap());
    let node = pass.new_node().unwrap();
    reader.hold().unwrap();
    fill(&pass, node);
    let (mut runs, reader) = (0, Mutex::new(reader));
    pass.change(|change| {
        runs += 1;
        if runs == 3 {
            reader.lock().unwrap().release();
        }
        change.set(node, "a", "y".repeat(255)).map(drop)
    })
    .unwrap();
    assert!(runs >= 3);
    reader.lock().unwrap().hold().unwrap();
    fill(&pass, node);
    pass.set_retry(Retry::NEVER);
    let refused = pass.change(|change| change.set(node, "a", "z".repeat(255)).map(drop));
    assert!(matches!(refused, Err(Error::Full { .. })));
}

#[test]
fn no_change_is_lost_between_two_threads() {
    let store = store();
    let mut pass = store.pass().unwrap();
    let node = pass.new_node().unwrap();
    let add = || {
        let mut pass = patient(&store);
        for _ in 0..500 {
            pass.change(|change| {
                let value = change.snapshot().get(node, "count")?;
                let count = value.and_then(|value| value.as_i64()).unwrap_or(0);
                change.set(node, "count", count + 1)?;
                Ok(())
            })
            .unwrap();
        }
    };
    thread::scope(|scope| {
        scope.spawn(add);
        scope.spawn(add);
    });
    assert_eq!(count(&mut pass, node), 1000);
}

#[test]
fn nodes_that_two_threads_make_have_their_own_attributes() {
    let store = store();
    let file = |owner: &'static str| {
        let mut pass = patient(&store);
        for _ in 0..200 {
            pass.change(|change| {
                let node = change.new_node();
                change.set(node, "owner", owner)?.set(node, "node", node)?;
                Ok(())
            })
            .unwrap();
        }
    };
    thread::scope(|scope| {
        scope.spawn(|| file("ada"));
        scope.spawn(|| file("bob"));
    });
    let mut pass = store.pass().unwrap();
    let snapshot = pass.pin().unwrap();
    for node in snapshot.nodes() {
        let node = node.unwrap();
        assert_eq!(snapshot.get(node, "node").unwrap(), Some(Value::Uint64(node)));
        assert_eq!(snapshot.attributes(node).unwrap().len(), 2);
    }
    assert_eq!(snapshot.nodes().count(), 400);
}

#[test]
fn a_change_gives_up_after_so_many_conflicts() {
    let store = store();
    let (mut pass, other) = (store.pass().unwrap(), store.pass().unwrap());
    pass.set_retry(Retry {
        conflict: 3,
        ..Retry::default()
    });
    let mut tries = 0;
    let refused = pass.change(|change| {
        tries += 1;
        other.new_node()?;
        change.new_node();
        Ok(())
    });
    assert!(matches!(refused, Err(Error::Conflict { .. })));
    assert_eq!(tries, 4);
}

/// Sets an attribute over and over until the store has no free page.
fn fill(pass: &Pass, node: u64) -> Error {
    loop {
        if let Err(error) = pass.set(node, "a", "x".repeat(255)) {
            return error;
        }
    }
}

#[test]
fn a_full_store_says_what_keeps_its_pages() {
    let store = sized(16);
    let (mut reader, mut writer) = (store.pass().unwrap(), store.pass().unwrap());
    writer.set_retry(Retry::NEVER);
    let node = writer.new_node().unwrap();
    let snapshot = reader.pin().unwrap();
    match fill(&writer, node) {
        Error::Full { oldest } => assert_eq!(oldest, snapshot.number()),
        other => panic!("{other}"),
    }
    let oldest = writer.status().unwrap().oldest.unwrap();
    assert_eq!(oldest.snapshot, snapshot.number());
    assert_eq!(oldest.pass, snapshot.pass().number().unwrap());
    drop(snapshot);
    writer.set(node, "a", "again").unwrap();
    assert_eq!(writer.status().unwrap().oldest, None);
}

/// Until the change runs a second time, the other thread holds the write lock most of the time by reading a long journal.
#[test]
fn a_change_on_a_snapshot_that_is_held_runs_again_while_another_pass_has_the_lock() {
    let store = store();
    let mut pass = patient(&store);
    let node = pass.new_node().unwrap();
    for count in 0..3_000_i64 {
        pass.set(node, "count", count).unwrap();
    }
    let is_over = AtomicBool::new(false);
    thread::scope(|scope| {
        scope.spawn(|| {
            let reading = patient(&store);
            while !is_over.load(Ordering::Relaxed) {
                reading.journal().unwrap();
            }
        });
        let mut tries = 0_i64;
        while tries < 2 {
            let held = pass.hold().unwrap();
            tries = 0;
            let changed = pass.change(|change| {
                tries += 1;
                is_over.store(tries > 1, Ordering::Relaxed);
                assert_eq!(change.snapshot().number(), held);
                change.set(node, "count", tries).map(drop)
            });
            changed.unwrap();
            pass.release();
            // The last attempt's operations have been written, and only once.
            let snapshot = pass.pin().unwrap();
            assert_eq!(
                (snapshot.number(), snapshot.get(node, "count").unwrap()),
                (held + 1, Some(tries.into()))
            );
        }
    });
}

#[test]
fn a_write_waits_for_another_pass_to_unpin() {
    let store = sized(16);
    let mut writer = patient(&store);
    let node = writer.new_node().unwrap();
    let (pinned, wait) = mpsc::channel();
    thread::scope(|scope| {
        let mut reader = store.pass().unwrap();
        scope.spawn(move || {
            let snapshot = reader.pin().unwrap();
            pinned.send(()).unwrap();
            thread::sleep(Duration::from_millis(50));
            drop(snapshot);
        });
        wait.recv().unwrap();
        for _ in 0..100 {
            writer.set(node, "a", "x".repeat(255)).unwrap();
        }
    });
    let own = writer.pin().unwrap();
    let started = std::time::Instant::now();
    assert!(matches!(fill(own.pass(), node), Error::Full { .. }));
    assert!(started.elapsed() < Duration::from_secs(30));
}

/// A keeper that makes another pass release its snapshot as soon as a write finds no free page.
#[derive(Debug)]
struct Releases(Mutex<Pass>);

impl Keeper for Releases {
    fn keep(&self, _: u64, _: &Batch, write: MakeWrite<'_>) -> bestore::Result<(Written, u64)> {
        let written = write();
        if matches!(written, Err(Error::Full { .. })) {
            self.0.lock().unwrap().release();
        }
        written.map(|written| (written, 0))
    }

    fn wait(&self, _: u64) -> bestore::Result<()> {
        Ok(())
    }
}

/// By the time that the store's status is read, no pass holds pages any more.
#[test]
fn a_write_finds_pages_that_were_given_back_just_after_it_failed() {
    let store = sized(16);
    let mut other = store.pass().unwrap();
    let node = other.new_node().unwrap();
    other.hold().unwrap();
    let keeper = Arc::new(Releases(Mutex::new(other)));
    let mut pass = store.pass().unwrap().kept_by(keeper.clone());
    let is_held = || keeper.0.lock().unwrap().held().is_some();
    while is_held() {
        pass.set(node, "count", 5_i64).unwrap();
    }
    keeper.0.lock().unwrap().hold().unwrap();
    while is_held() {
        pass.change(|change| change.set(node, "count", 6_i64).map(drop))
            .unwrap();
    }
}

#[test]
fn a_status_says_whether_a_write_may_find_pages() {
    let status = |oldest| Status {
        pages: 64,
        free: 1,
        retired: 9,
        entries: 10,
        commits: 100,
        oldest,
    };
    let other = Some(Oldest { snapshot: 8, pass: 2 });
    // Another pass holds pages, or held them when the write failed; in the last case, only the pass itself does.
    assert!(status(other).may_free_pages(1, 8));
    assert!(status(None).may_free_pages(1, 8));
    assert!(!status(other).may_free_pages(2, 8));
    // No pages were held when the write failed.
    assert!(!status(None).may_free_pages(1, 10));
    assert!(!status(other).may_free_pages(1, 10));
    assert!(status(None).may_free_pages(1, 9));
}

#[test]
fn limits_are_kept() {
    let open = |pages, passes, commits| Store::open(Limits { pages, passes, commits });
    for (pages, passes, commits) in [(7, 1, 1), (16_777_217, 1, 1), (8, 0, 1), (8, 64, 1), (8, 1, 0)] {
        assert!(matches!(open(pages, passes, commits), Err(Error::BadLimits)));
    }
    let store = open(16, 63, 2).unwrap();
    let passes: Vec<_> = (0..63).map(|_| store.pass().unwrap()).collect();
    assert!(matches!(store.pass(), Err(Error::NoPass)));
    let numbers: Vec<_> = passes.iter().map(|pass| pass.number().unwrap()).collect();
    drop(passes);
    assert!(numbers.contains(&store.pass().unwrap().number().unwrap()));
    let pass = store.pass().unwrap();
    pass.new_node().unwrap();
    pass.new_node().unwrap();
    assert!(matches!(pass.new_node(), Err(Error::CommitsSpent)));
}

#[test]
fn a_pass_that_was_dropped_is_met() {
    let store = store();
    let (first, second) = (store.pass().unwrap(), store.pass().unwrap());
    assert!(matches!(second.meet(), Err(Error::NoPass)));
    first.new_node().unwrap();
    drop(first);
    assert_eq!(second.meet().unwrap(), 1);
}

#[test]
fn the_last_clone_closes_its_store() {
    let store = store();
    let (pass, clone) = (store.pass().unwrap(), store.clone());
    pass.new_node().unwrap();
    let (store, error) = store.finish().unwrap_err();
    assert!(matches!(error, Error::InUse));
    drop(clone);
    let (store, error) = store.finish().unwrap_err();
    assert!(matches!(error, Error::InUse));
    pass.new_node().unwrap();
    let journal = pass.journal().unwrap();
    drop(pass);
    assert_eq!(store.finish().unwrap(), journal);
}

#[test]
fn a_witness_is_joined_in_another_thread() {
    let store = store();
    let (first, mut second) = (patient(&store), patient(&store));
    let (send, receive) = mpsc::channel();
    let writer = thread::spawn(move || {
        for _ in 0..100 {
            let number = first.apply(Batch::new().new_node()).unwrap().number;
            send.send((number, first.witness().unwrap())).unwrap();
        }
    });
    for (number, mut witness) in receive {
        let seen = second.join(&mut witness).unwrap();
        assert!(seen >= number && second.pin().unwrap().number() >= seen);
        assert!(second.apply(Batch::new().new_node()).unwrap().number > seen);
    }
    writer.join().unwrap();
}

#[test]
fn a_witness_is_of_one_store_and_outlives_it() {
    let (mine, theirs) = (store().pass().unwrap(), store().pass().unwrap());
    mine.new_node().unwrap();
    let mut witness = mine.witness().unwrap();
    assert!(matches!(theirs.join(&mut witness), Err(Error::OtherStore)));
    assert_eq!(mine.join(&mut witness).unwrap(), 1);
    drop(mine);
    assert!(matches!(theirs.join(&mut witness), Err(Error::OtherStore)));
}

#[test]
fn a_pass_outlives_its_store() {
    let pass = store().pass().unwrap();
    assert_eq!(pass.new_node().unwrap(), 1);
    thread::spawn(move || assert_eq!(pass.new_node().unwrap(), 2))
        .join()
        .unwrap();
}

fn can_go<T: Send>() {}
fn can_be_shared<T: Send + Sync>() {}

#[test]
fn threads_get_what_they_may() {
    can_go::<Pass>();
    can_go::<bestore::Snapshot<'_>>();
    can_go::<bestore::Prepared>();
    can_go::<bestore::Live>();
    can_be_shared::<Store>();
    can_be_shared::<Error>();
    can_be_shared::<Batch>();
}

#[test]
fn a_store_has_as_many_passes_as_there_may_be_if_nothing_is_said() {
    let store = Store::open(Limits::default()).unwrap();
    let passes: Vec<Pass> = (0..63).map(|_| store.pass().unwrap()).collect();
    assert!(matches!(store.pass(), Err(Error::NoPass)));
    assert_eq!(passes[62].new_node().unwrap(), 1);
    let more = Limits {
        passes: 64,
        ..Limits::default()
    };
    assert!(matches!(Store::open(more), Err(Error::BadLimits)));
}

#[test]
fn an_index_gets_what_was_set_before_it() {
    let mut pass = sized(1024).pass().unwrap();
    for number in 0..150_i64 {
        let node = pass.new_node().unwrap();
        match number % 3 {
            0 => pass.set(node, "a \"b\"", number).unwrap(),
            1 => pass.set(node, "a \"b\"", "text").unwrap(),
            _ => {}
        }
    }
    assert!(matches!(pass.reindex("a \"b\""), Err(Error::NoIndex)));
    pass.make_index("a \"b\"", Kind::Int64).unwrap();
    pass.set(1, "a \"b\"", -1_i64).unwrap();
    let before = pass.status().unwrap().entries;
    assert_eq!(pass.reindex("a \"b\"").unwrap(), 49);
    assert_eq!(pass.status().unwrap().entries, before + 1);
    assert_eq!(pass.pin().unwrap().pairs("a \"b\"").unwrap(), 50);
    assert_eq!(pass.pin().unwrap().query("'a \"b\"'==-1").unwrap(), [1]);
    assert_eq!(pass.reindex("a \"b\"").unwrap(), 0);
    for kind in [Kind::Text, Kind::Int32, Kind::Uint32, Kind::Uint64] {
        pass.remove_index("a \"b\"").unwrap();
        pass.make_index("a \"b\"", kind).unwrap();
        let expected = if kind == Kind::Text { 50 } else { 0 };
        assert_eq!(pass.reindex("a \"b\"").unwrap(), expected, "{kind}");
    }
}
