//! Waits for commit numbers, and how long a request may wait.

use crate::answer::View;
use crate::clients::Client;
use crate::failure::Failure;
use crate::pressure::Pressure;
use bestore_client::wire::{self, ErrorName};
use std::time::{Duration, Instant};

/// The default and the maximum time to wait.
const WITHIN: Duration = Duration::from_secs(5);
const MOST: Duration = Duration::from_secs(60);

/// How often to check the journal.
const LOOK: Duration = Duration::from_millis(2);

/// Waits until the journal has the requested number of entries. Later reads of the current snapshot include them. If a snapshot is pinned,
/// the wait ends when it has to be unpinned. It also ends when the client's connection is closed.
pub fn reach(
    view: &mut View<'_, '_>,
    pressure: &Pressure,
    client: &Client,
    reach: &wire::Reach,
) -> Result<wire::Commit, Failure> {
    let wanted = reach.commit;
    let until = Instant::now() + within(reach.within)?;
    let since = view.since();
    let is_over = || Instant::now() >= until || since.map_or(false, |since| pressure.is_over(since));
    loop {
        let found = view.pass().status()?.entries;
        if wanted <= found {
            return Ok(wire::Commit { commit: found });
        }
        if is_over() || client.is_gone_within(LOOK) {
            let failure = Failure::named(ErrorName::NotReached);
            return Err(failure.with("expected", wanted).with("found", found));
        }
        view.follow(client);
    }
}

/// Returns how long a request may wait, from its parameter `within` in milliseconds.
pub fn within(milliseconds: Option<u64>) -> Result<Duration, Failure> {
    match milliseconds.map_or(WITHIN, Duration::from_millis) {
        time if time <= MOST => Ok(time),
        time => Err(Failure::bad_request(&format!(
            "`within` is {} milliseconds, and a request can wait for up to {}",
            time.as_millis(),
            MOST.as_millis()
        ))),
    }
}
