//! Reports what the server is doing, for the people who run it.

use crate::answer::View;
use crate::clients::{Client, Seat};
use crate::failure::Failure;
use crate::hang::Hang;
use crate::server::Shared;
use bestore::{Oldest, Status};
use bestore_client::wire::{self, ErrorName};

pub fn info(shared: &Shared, view: &View<'_, '_>) -> Result<wire::Info, Failure> {
    let status = view.pass().status()?;
    let rate = shared.meter.rate();
    Ok(wire::Info {
        server: env!("CARGO_PKG_VERSION").into(),
        run: shared.run.clone(),
        process: std::process::id(),
        seconds: shared.meter.now(),
        clients: shared.clients.count() as u64,
        requests: shared.clients.requests(),
        watches: shared.watcher.count() as u64,
        writes: shared.meter.writes(),
        writes_per_second: rate.per_second,
        latency: rate.latency,
        unsaved: shared.kept.hang().and_then(Hang::unsaved),
        commits: shared.kept.hang().and_then(Hang::commits),
        writing: shared.meter.writing(),
        pages: status.pages,
        free: status.free,
        retired: status.retired,
        oldest: oldest(shared, &status),
        files: shared.kept.files(),
        log: shared.kept.role(),
        trouble: shared.kept.trouble(),
    })
}

/// Returns how full the store is.
pub fn status(status: &Status) -> wire::Status {
    wire::Status {
        pages: status.pages,
        free: status.free,
        retired: status.retired,
        entries: status.entries,
        commits: status.commits,
        oldest: status
            .oldest
            .map(|Oldest { snapshot, pass }| wire::HeldBy { snapshot, pass }),
        ..wire::Status::default()
    }
}

/// Returns who holds the oldest snapshot. A snapshot from before the store was carried on is older than any that `status` reports.
fn oldest(shared: &Shared, status: &Status) -> Option<wire::OldestReader> {
    let generation = shared.kept.store().generation();
    shared.clients.reader_before(generation).or_else(|| {
        let Oldest { snapshot, pass } = status.oldest?;
        Some(shared.clients.reader(snapshot, Seat { pass, generation }))
    })
}

/// Closes another client's connection.
pub fn kick(shared: &Shared, own: &Client, kick: &wire::Kick) -> Result<wire::Nothing, Failure> {
    match shared.clients.kick(kick.client) {
        Some(Ok(client)) => {
            let (number, process) = (client.number, client.process);
            let by = own.process;
            report!("bestored: client {number} (process {process}) was disconnected at the request of process {by}");
            Ok(wire::Nothing {})
        }
        Some(Err(error)) => Err(Failure::new(ErrorName::Unexpected, error.to_string())),
        None => {
            let message = format!("no client has the number {}; the clients may have changed", kick.client);
            Err(Failure::new(ErrorName::NoClient, message).with("client", kick.client))
        }
    }
}
