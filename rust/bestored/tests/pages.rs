//! Tests that replies too large for one line arrive in pages.

use crate::common::{Folder, Server, PATIENCE};
use bestore::{Batch, Kind};
use bestore_client::wire::{
    Columns, ColumnsOf, Command, From, Journal, JournalFrom, Nodes, NodesFrom, Nothing, Restore, Restored, Rows, State,
};
use bestore_client::{Client, ErrorName, Query};
use std::borrow::Cow;

/// A number of nodes that is too large for one line.
const NODES: u64 = 60_000;

fn start() -> (Folder, Server) {
    let folder = Folder::new();
    let server = Server::start(&folder, &["--pages", "16384"]);
    (folder, server)
}

/// Creates this many nodes, with sizes from 0 up, sending several requests at a time.
fn fill(client: &mut Client, nodes: u64) {
    client.apply(Batch::new().make_index("size", Kind::Int64)).unwrap();
    let mut sent = Vec::new();
    let mut node = 0;
    while node < nodes {
        let mut batch = Batch::new();
        while node < nodes && batch.len() < 63 {
            node += 1;
            batch.new_node().set(node, "size", node as i64);
        }
        let operations = batch.into();
        let write = bestore_client::wire::Write {
            operations,
            ..Default::default()
        };
        sent.push(client.send(Command::Batch(write)).unwrap());
        if sent.len() == 100 {
            sent.drain(..).for_each(|id| drop(received(client, id)));
        }
    }
    sent.drain(..).for_each(|id| drop(received(client, id)));
}

fn received(client: &mut Client, id: u64) -> bestore_client::wire::Written {
    client.receive(id).unwrap()
}

#[test]
fn many_nodes_come_in_pages() {
    let (_folder, server) = start();
    let mut client = server.client();
    fill(&mut client, NODES);
    let all: Vec<u64> = (1..=NODES).collect();
    client.pin().unwrap();
    assert!(client.query("size>0").unwrap() == all);
    assert_eq!(client.count("size>0").unwrap(), NODES);
    for (asked, found) in [(NODES as usize - 1, NODES - 1), (usize::MAX, NODES)] {
        let mut any = client.any("size>0", asked).unwrap();
        any.sort_unstable();
        any.dedup();
        assert_eq!(any.len() as u64, found);
    }
    let page: Nodes = client.call(Command::Nodes(NodesFrom::default())).unwrap();
    assert_eq!((page.nodes.len(), page.more), (50_000, Some(50_001)));
    client.unpin().unwrap();

    let mut watching = server.client();
    let watched = watching.watch(Some("size>0")).unwrap();
    assert!(watched.more);
    let mut found = watched.nodes.unwrap();
    let push = watching.next_push(PATIENCE).unwrap().unwrap();
    assert_eq!((push.commit, push.more), (watched.commit, false));
    found.extend(push.created);
    assert!(found == all);

    client.apply(Batch::new().remove_index("size")).unwrap();
    let push = watching.next_push(PATIENCE).unwrap().unwrap();
    assert_eq!(push.error.unwrap().name, ErrorName::NotCovered);
}

#[test]
fn long_rows_come_in_pages() {
    let (_folder, server) = start();
    let mut client = server.client();
    fill(&mut client, 200);
    let long = "\u{1}".repeat(255);
    for node in 1..=200 {
        let mut batch = Batch::new();
        for name in 0..10 {
            batch.set(node, &format!("text{name}"), &*long);
        }
        client.apply(&batch).unwrap();
    }
    let names: Vec<String> = (0..10).map(|name| format!("text{name}")).collect();
    let columns: Vec<&str> = names.iter().map(|name| &**name).collect();
    let mut query = Query {
        text: "size>0",
        columns: &columns,
        ..Query::default()
    };
    let (mut rows, mut pages) = (0, 0);
    loop {
        let page = client.hits(query).unwrap();
        let read = page.rows.unwrap();
        assert_eq!(read.len(), page.nodes.unwrap().len());
        assert!(read.iter().flatten().all(|value| value.is_some()));
        rows += read.len();
        pages += 1;
        match page.more {
            Some(from) => query.from = from,
            None => break,
        }
    }
    assert_eq!(rows, 200);
    assert!((3..10).contains(&pages), "{pages} pages");

    let (mut nodes, mut pages) = ((1..=200).collect::<Vec<_>>(), 0);
    while !nodes.is_empty() {
        let names = Columns(names.iter().map(Cow::from).collect());
        let page: Rows = client
            .call(Command::Columns(ColumnsOf {
                nodes: nodes.clone(),
                names,
            }))
            .unwrap();
        assert!(page.rows.iter().flatten().all(|value| value.is_some()));
        nodes.drain(..page.rows.len());
        pages += 1;
    }
    assert!((3..10).contains(&pages), "{pages} pages");
}

/// Restores the pinned snapshot to an empty server, one batch a request. Returns the index of the first batch on the last page.
fn carry_state(from: &mut Client, to: &mut Client) -> u64 {
    let mut index = 0;
    loop {
        let page: State = from.call(Command::State(From { from: index })).unwrap();
        for batch in page.batches {
            let batches = vec![batch];
            let _: Nothing = to.call(Command::Restore(Restore { batches, next: None })).unwrap();
        }
        match page.more {
            Some(more) => index = more,
            None => {
                let (batches, next) = (Vec::new(), Some(page.next));
                let restored: Restored = to.call(Command::Restore(Restore { batches, next })).unwrap();
                assert_eq!(restored.commit, 1);
                return index;
            }
        }
    }
}

/// Applies each entry of the journal to an empty store, and compares the outcomes.
fn carry_journal(from: &mut Client, to: &mut Client) {
    let mut index = 0;
    loop {
        let journal = JournalFrom {
            from: index,
            limit: None,
        };
        let page: Journal = from.call(Command::Journal(journal)).unwrap();
        for entry in page.entries {
            let written = to.apply(&entry.operations.batch).unwrap();
            let mut made = entry.operations.batch.clone();
            made.set_nodes(&written.nodes);
            assert_eq!((written.number, made), (entry.commit, entry.operations.batch));
        }
        match page.more {
            Some(more) => index = more,
            None => return,
        }
    }
}

#[test]
fn the_state_and_the_journal_make_the_store_again() {
    let (_folder, server) = start();
    let mut client = server.client();
    fill(&mut client, 40_000);
    client.apply(Batch::new().remove_node(7)).unwrap();
    let (_folder, by_state) = start();
    client.pin().unwrap();
    let last = carry_state(&mut client, &mut by_state.client());
    assert!(last > 0);
    let again: State = client.call(Command::State(From { from: last })).unwrap();
    assert_eq!((again.more, again.next), (None, 40_001));
    client.unpin().unwrap();
    let (_folder, by_journal) = start();
    carry_journal(&mut client, &mut by_journal.client());
    for other in [&by_state, &by_journal] {
        let mut other = other.client();
        assert!(other.query("size>0").unwrap() == client.query("size>0").unwrap());
        assert_eq!(other.pin().unwrap().next, 40_001);
    }
}
