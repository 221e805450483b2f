//! Tests how large a server's file and memory get when it writes for a long time. It rewrites the state and frees the journal's
//! memory by itself.

use crate::common::{wait_until, Folder, Server};
use bestore::Batch;
use bestore_client::wire::{Command, Nothing};
use bestore_client::Client;
use std::fs;

/// The number of nodes in the store.
const NODES: u64 = 64;

/// How many times to write each node: 32 MB in total.
const ROUNDS: u64 = 2_000;

/// The file's maximum size: a state of a few KiB, up to 256 KiB of entries before the state is rewritten, and the entries that are
/// written in the meantime.
const MOST_BYTES: u64 = 6 << 20;

/// How many KiB of memory the server may use in addition to what it uses at first: two stores of 1 MiB, the same again for
/// entries, and up to 16 MiB for writes that are waiting for the file.
const MOST_MEMORY: u64 = 24 << 10;

fn start(folder: &Folder) -> Server {
    let keep = folder.join("file");
    let options = [
        "--pages",
        "256",
        "--passes",
        "4",
        "--every",
        "50",
        "--keep",
        keep.to_str().unwrap(),
    ];
    Server::start(folder, &options)
}

fn bytes(client: &mut Client) -> u64 {
    client.info().unwrap().files.unwrap().bytes
}

#[test]
fn file_and_memory_stay_small_and_have_everything() {
    let folder = Folder::in_memory();
    let server = start(&folder);
    let mut client = server.client();
    let mut batch = Batch::new();
    for _ in 0..NODES {
        batch.new_node();
    }
    client.apply(&batch).unwrap();
    let memory = server.most_memory();
    for round in 1..=ROUNDS {
        let mut batch = Batch::new();
        for node in 1..=NODES {
            batch.set(node, "round", format!("{round:0>200}"));
        }
        client.apply(&batch).unwrap();
    }
    client.call::<Nothing>(Command::Flush(Nothing {})).unwrap();
    wait_until("the state was written anew", || bytes(&mut client) < MOST_BYTES);
    let grown = server.most_memory() - memory;
    assert!(grown < MOST_MEMORY, "{grown} KiB more");
    server.kill();

    assert!(fs::metadata(folder.join("file")).unwrap().len() < MOST_BYTES);
    let server = start(&folder);
    let mut client = server.client();
    // The journal consists of the entries after the state, which are fewer than were written.
    assert!(client.status().unwrap().entries < ROUNDS / 4);
    for node in [1, NODES] {
        let round = client.get(node, "round").unwrap();
        assert_eq!(round, Some(format!("{ROUNDS:0>200}").into()));
    }
    drop(client);
    assert!(server.end_by("TERM").success());
    assert!(!folder.join("file-wal").exists() && !folder.join("file-last").exists());
}
