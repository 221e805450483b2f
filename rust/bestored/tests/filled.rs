//! Tests of servers whose stores were filled until no page was free: each starts again with as many pages.

#[path = "../../bestore/tests/common/filling.rs"]
mod filling;

use crate::common::writers::{state_of, Contents};
use crate::common::{Folder, Server};
use bestore_client::wire::{Command, Nothing};
use bestore_client::{Client, ErrorName};
use filling::{seeds, Mix};

/// How many stores to fill.
const STORES: u64 = 6;

/// Writes until no page was free a few times. Compacts now and then.
fn fill(client: &mut Client, mix: &mut Mix) {
    let (mut next, mut left) = (1, 1 + mix.below(3));
    while left > 0 {
        match client.apply(&mix.write(next)) {
            Ok(written) => next += written.nodes.len() as u64,
            Err(error) if error.is(ErrorName::Full) => left -= 1,
            Err(error) => assert!(error.refusal().is_some(), "{error}"),
        }
        if mix.below(500) == 0 {
            client.call::<Nothing>(Command::Compact(Nothing {})).unwrap();
        }
    }
}

fn contents(server: &Server) -> Contents {
    let mut client = server.client();
    client.pin().unwrap();
    state_of(&mut client)
}

/// Fills a server's store, and starts a server with its file twice more. Some servers are killed, and some end.
fn check(seed: u64) {
    println!("BESTORE_SEED={seed}");
    let (folder, mut mix) = (Folder::in_memory(), Mix::new(seed));
    let (pages, journal) = (8 + mix.below(593), [64, 1 << 20][mix.below(2) as usize]);
    let [pages, journal] = [pages, journal].map(|number: u64| number.to_string());
    let options = ["--pages", &pages, "--journal", &journal, "--every", "1000"];
    let server = Server::start_kept(&folder, &options);
    let mut client = server.client();
    fill(&mut client, &mut mix);
    client.call::<Nothing>(Command::Flush(Nothing {})).unwrap();
    let before = contents(&server);
    let mut end = |server: Server| match mix.below(2) {
        0 => server.kill(),
        _ => assert!(server.end_by("TERM").success()),
    };
    end(server);
    for _ in 0..2 {
        let server = Server::start_kept(&folder, &options);
        assert!(contents(&server) == before, "seed {seed}: the volume differs");
        end(server);
    }
}

#[test]
fn a_full_store_is_served_again_with_as_many_pages() {
    seeds(STORES).for_each(check);
}
