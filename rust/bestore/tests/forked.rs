//! In a forked child, the parent's handles are dead. The tests run one at a time, because a fork copies only one thread.

mod common;

use bestore::{Error, Limits, Live, Prepared, Store};
use std::os::unix::process::CommandExt;
use std::process::Command;
use std::sync::atomic::{AtomicBool, Ordering};
use std::thread;

/// Runs the closure in a forked child, and returns the child's exit status.
fn in_a_child(closure: impl FnOnce() -> bool) -> i32 {
    // SAFETY: the child only calls the closure, and exits with `_exit`.
    unsafe {
        let child = libc::fork();
        if child == 0 {
            let is_right = std::panic::catch_unwind(std::panic::AssertUnwindSafe(closure));
            libc::_exit(i32::from(!is_right.unwrap_or(false)));
        }
        let mut status = 0;
        assert_eq!(libc::waitpid(child, &mut status, 0), child);
        status
    }
}

fn is_dead<T: std::fmt::Debug>(answer: bestore::Result<T>) -> bool {
    matches!(answer, Err(Error::Forked))
}

#[test]
fn handles_of_the_parent_are_dead_in_a_child() {
    plain_handles();
    locks_of_other_threads();
    #[cfg(feature = "saved")]
    kept_store();
    #[cfg(feature = "saved")]
    lock_of_a_kept_store();
}

#[cfg(feature = "saved")]
fn kept_store() {
    let path = std::path::Path::new(env!("CARGO_TARGET_TMPDIR")).join("forked.bestore");
    let _ = std::fs::remove_file(&path);
    let saved = bestore::saved::open(&path).unwrap();
    let pass = saved.pass().unwrap();
    pass.new_node().unwrap();
    let mut kept = Some(saved);
    let status = in_a_child(|| {
        let saved = kept.take().unwrap();
        let are_dead = is_dead(pass.new_node()) && is_dead(saved.pass()) && saved.flush().is_err();
        drop(saved);
        are_dead
    });
    assert_eq!(status, 0);
    pass.new_node().unwrap();
    kept.unwrap().close().unwrap();
    let saved = bestore::saved::open(&path).unwrap();
    assert_eq!(saved.pass().unwrap().pin().unwrap().nodes().count(), 2);
}

/// A lock that another thread had when the process was forked stays locked in the child, where no call may wait for it.
fn locks_of_other_threads() {
    let store = common::store();
    let pass = store.pass().unwrap();
    for _ in 0..200 {
        pass.new_node().unwrap();
    }
    drop(pass);
    let is_over = AtomicBool::new(false);
    thread::scope(|scope| {
        scope.spawn(|| {
            while !is_over.load(Ordering::Relaxed) {
                store.carry_on().unwrap();
            }
        });
        let child = |_| {
            in_a_child(|| {
                // SAFETY: the call takes a number. Its signal ends a child that waits.
                unsafe { libc::alarm(120) };
                if !store.is_read_before() && is_dead(store.carry_on()) {
                    // Ends without a report of leaks: the child has lost what the other threads of the parent had.
                    let _ = Command::new("true").exec();
                }
                false
            })
        };
        let failed = (0..40).map(child).find(|status| *status != 0);
        is_over.store(true, Ordering::Relaxed);
        assert_eq!(failed, None);
    });
}

/// A kept store has another lock, which a thread that writes has most of the time.
#[cfg(feature = "saved")]
fn lock_of_a_kept_store() {
    let folder = common::Folder::new("forked-lock");
    let saved = folder.open_lazily(64);
    let pass = saved.pass().unwrap();
    let node = pass.new_node().unwrap();
    let is_over = &AtomicBool::new(false);
    thread::scope(|scope| {
        scope.spawn(move || {
            while !is_over.load(Ordering::Relaxed) {
                pass.set(node, "count", 5_i64).unwrap();
            }
        });
        let child = |_| {
            in_a_child(|| {
                // SAFETY: the call takes a number. Its signal ends a child that waits.
                unsafe { libc::alarm(120) };
                if saved.failure().is_none() {
                    // Ends without a report of leaks: the child has lost what the other threads of the parent had.
                    let _ = Command::new("true").exec();
                }
                false
            })
        };
        let failed = (0..40).map(child).find(|status| *status != 0);
        is_over.store(true, Ordering::Relaxed);
        assert_eq!(failed, None);
    });
}

fn plain_handles() {
    let store = common::store();
    let mut pass = store.pass().unwrap();
    let prepared = Prepared::new("a==1").unwrap();
    let live = Live::new("a==1").unwrap();
    pass.new_node().unwrap();
    let mut witness = pass.witness().unwrap();
    let snapshot = pass.pin().unwrap();
    let status = in_a_child(|| {
        let are_dead = is_dead(store.pass())
            && is_dead(snapshot.get(1, "a"))
            && is_dead(snapshot.columns(&[], &["a"]))
            && is_dead(snapshot.pass().new_node())
            && is_dead(prepared.text())
            && is_dead(snapshot.pass().witness())
            && is_dead(snapshot.pass().join(&mut witness));
        drop(witness);
        let own = Store::open(Limits::default()).unwrap();
        let works = own.pass().unwrap().new_node().unwrap() == 1;
        drop((snapshot, live));
        are_dead && works
    });
    assert_eq!(status, 0);
    let mut pass = store.pass().unwrap();
    assert_eq!(pass.new_node().unwrap(), 2);
    assert!(pass.pin().unwrap().contains(1).unwrap());
    assert!(store.pass().is_ok());
}
