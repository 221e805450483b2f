//! Answers writes: new batches, and batches that a client sends again.

use crate::answer::View;
use crate::failure::Failure;
use crate::server::Shared;
use crate::tokens::Begun;
use bestore::{Error, Written};
use bestore_client::wire::{self, ErrorName, Token};

/// Writes a batch, unless a batch with the same token has already been written.
pub fn write(shared: &Shared, mut write: wire::Write, view: &mut View<'_, '_>) -> Result<wire::Written, Failure> {
    let wire::Operations { batch, count } = &write.operations;
    if *count > batch.len() {
        return Err(Error::BadCount { count: *count }.into());
    }
    let mut written = match write.token.take() {
        None => write_now(shared, &write, view, |_| ())?,
        Some(token) => {
            write.operations.batch.set_token(token.as_str());
            write_once(shared, &token, &write, view)?
        }
    };
    written.entry = shared.kept.entry(written.commit);
    Ok(written)
}

fn write_once(
    shared: &Shared,
    token: &Token,
    write: &wire::Write,
    view: &mut View<'_, '_>,
) -> Result<wire::Written, Failure> {
    match shared.tokens.begin(token.as_str()) {
        Begun::First(first) => match write_now(shared, write, view, |made| first.made(made)) {
            Err(failure) if failure.is_conflict() => {
                // The client takes this error as proof that the batch wasn't written, not even by another server that it sent
                // the batch to earlier.
                shared.kept.confirm()?;
                let made = shared.tokens.made(token.as_str());
                made.map_or(Err(failure), |written| repeat(shared, written))
            }
            written => written,
        },
        Begun::Repeated(written) => repeat(shared, written),
    }
}

/// Returns the reply to a batch that has already been written.
fn repeat(shared: &Shared, written: wire::Written) -> Result<wire::Written, Failure> {
    // So far, the write may be only in memory.
    shared.kept.flush_if_each()?;
    Ok(wire::Written {
        repeated: true,
        ..written
    })
}

/// Writes a batch. Calls `made` with the reply once the batch is in memory.
fn write_now(
    shared: &Shared,
    write: &wire::Write,
    view: &mut View<'_, '_>,
    mut made: impl FnMut(wire::Written),
) -> Result<wire::Written, Failure> {
    let measured = shared.meter.begin();
    shared.kept.check_write()?;
    check_run(shared, write, view)?;
    let batch = &write.operations.batch;
    let made = |written: &Written| made(shown(written));
    let written = shared.pressure.write(view.pass(), write.expected, batch, made);
    // A write that couldn't be saved is in memory.
    shared.watcher.written();
    match &written {
        Ok(_) => {
            measured.finish();
            shared.kept.compact_if_due();
            shared.carrying.written(&shared.kept);
        }
        Err(_) => shared.kept.end_if_failed(),
    }
    Ok(shown(&written?))
}

/// Returns the reply for a write.
pub fn shown(written: &Written) -> wire::Written {
    wire::Written {
        commit: written.number,
        nodes: written.nodes.clone(),
        ..wire::Written::default()
    }
}

/// Gives the contents of a state to the store, if nobody has ever written to it.
pub fn restore(shared: &Shared, batches: &[Vec<u8>], next: u64) -> Result<wire::Restored, Failure> {
    shared.kept.check_write()?;
    let restored = shared.kept.restore(batches, next);
    shared.watcher.written();
    let commit = restored.map_err(|failure| {
        shared.kept.end_if_failed();
        failure.of_listing()
    })?;
    let entry = shared.kept.entry(commit);
    Ok(wire::Restored { commit, entry })
}

/// Returns an error if the batch was meant for another run of the server.
fn check_run(shared: &Shared, write: &wire::Write, view: &View<'_, '_>) -> Result<(), Failure> {
    match &write.run {
        Some(run) if *run != shared.run => {}
        _ => return Ok(()),
    }
    let expected = write.expected.unwrap_or_default();
    let found = view.pass().status()?.entries;
    let failure = Failure::new(
        ErrorName::Conflict,
        "the server has been restarted, so commit numbers have started again",
    );
    let failure = failure.with("expected", expected).with("found", found);
    Err(failure.with("run", shared.run.clone()))
}
