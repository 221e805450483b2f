//! Calls give up in time, even beside 30 processes that compute.

mod common;

use bestore::{Batch, Error, Keeper, MakeWrite, Pass, Result, Retry, Written};
use common::{sized, store, PATIENT};
use std::process::{Child, Command, Stdio};
use std::sync::{Arc, Mutex};
use std::time::{Duration, Instant};

const COMPUTING: usize = 30;
const WITHIN: Duration = Duration::from_millis(300);
/// For a busy machine.
const SPARE: Duration = Duration::from_secs(5);

/// The time is the only limit.
const RETRY: Retry = Retry {
    within: WITHIN,
    change_within: WITHIN,
    ..PATIENT
};

/// Processes that compute until this is dropped.
struct Computing(Vec<Child>);

impl Computing {
    fn start() -> Self {
        let start = |_| {
            Command::new("timeout")
                .args(["60", "nice", "-n19", "sh", "-c", "while :; do :; done"])
                .stdin(Stdio::null())
                .spawn()
                .unwrap()
        };
        Self((0..COMPUTING).map(start).collect())
    }
}

impl Drop for Computing {
    fn drop(&mut self) {
        for child in &self.0 {
            // `timeout` passes the signal on.
            let killed = Command::new("kill").arg(child.id().to_string()).status();
            assert!(killed.unwrap().success());
        }
    }
}

/// Checks that the call fails after the time that it was given.
fn gives_up<T>(call: impl FnOnce() -> Result<T>) -> Error {
    let begin = Instant::now();
    let error = call().err().unwrap();
    let spent = begin.elapsed();
    assert!(spent >= WITHIN && spent < WITHIN + SPARE, "{spent:?}");
    error
}

/// A keeper through which a write is always refused, as if another pass were writing.
#[derive(Debug)]
struct Busy;

impl Keeper for Busy {
    fn keep(&self, _: u64, _: &Batch, _: MakeWrite<'_>) -> Result<(Written, u64)> {
        Err(Error::Busy { pass: 1 })
    }

    fn wait(&self, _: u64) -> Result<()> {
        Ok(())
    }
}

fn patient(mut pass: Pass) -> Pass {
    pass.set_retry(RETRY);
    pass
}

#[test]
fn calls_give_up_in_time() {
    let _computing = Computing::start();
    a_change_conflicts();
    a_store_is_full();
    a_store_is_busy();
}

fn a_change_conflicts() {
    let store = store();
    let (mut pass, other) = (patient(store.pass().unwrap()), store.pass().unwrap());
    let node = other.new_node().unwrap();
    let error = gives_up(|| {
        pass.change(|change| {
            other.set(node, "a", 1)?;
            change.set(node, "a", 2).map(drop)
        })
    });
    assert!(matches!(error, Error::Conflict { .. }), "{error}");
}

fn a_store_is_full() {
    let store = sized(16);
    let (mut pass, mut reader) = (store.pass().unwrap(), store.pass().unwrap());
    let node = pass.new_node().unwrap();
    reader.hold().unwrap();
    pass.set_retry(Retry::NEVER);
    while pass.set(node, "a", 1).is_ok() {}
    pass.set_retry(RETRY);
    let error = gives_up(|| pass.set(node, "a", 1));
    assert!(matches!(error, Error::Full { .. }), "{error}");
    let error = gives_up(|| pass.change(|change| change.set(node, "a", 1).map(drop)));
    assert!(matches!(error, Error::Full { .. }), "{error}");
}

fn a_store_is_busy() {
    let store = store();
    let mut pass = patient(store.pass().unwrap().kept_by(Arc::new(Busy)));
    let error = gives_up(|| pass.change(|change| Ok(change.new_node())));
    assert!(matches!(error, Error::Busy { pass: 1 }), "{error}");
}

#[test]
fn a_pass_does_not_write_in_its_own_change() {
    let store = store();
    let (mut pass, other) = (store.pass().unwrap(), store.pass().unwrap());
    let runs = Mutex::new(0);
    let error = pass.change(|change| {
        *runs.lock().unwrap() += 1;
        change.new_node();
        change.snapshot().pass().new_node().map(drop)
    });
    assert!(matches!(error, Err(Error::Nested)), "{error:?}");
    assert_eq!((*runs.lock().unwrap(), pass.status().unwrap().entries), (1, 0));
    pass.new_node().unwrap();
    other.new_node().unwrap();
}
