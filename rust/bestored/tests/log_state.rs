//! Tests the state of a log in PostgreSQL: written, read, restored from a backup, and left there by 0.4.0.

use crate::common::postgres::Database;
use crate::common::writers::{check_history, Contents};
use crate::log::{check_all_alike, database, leader_of, leader_with_writers, set_count, Member};
use bestore::{Batch, Builder, Kind, Limits};
use bestore_client::wire::{Command, Nothing, Restore, Restored};
use bestore_client::{Client, ErrorName};
use std::fmt::Write;

/// Returns the bytes that these hexadecimal digits give.
fn bytes_of(hex: &str) -> Vec<u8> {
    let pairs = hex.as_bytes().chunks(2).map(|pair| std::str::from_utf8(pair).unwrap());
    pairs.map(|pair| u8::from_str_radix(pair, 16).unwrap()).collect()
}

fn hex_of(bytes: &[u8]) -> String {
    bytes.iter().fold(String::new(), |mut hex, byte| {
        write!(hex, "{byte:02x}").unwrap();
        hex
    })
}

/// Returns the log's state.
fn state_in(database: &Database) -> Contents {
    let next = database.sql("SELECT next FROM bestore_log").parse().unwrap();
    let batches = database.sql("SELECT encode(batch, 'hex') FROM bestore_state ORDER BY place");
    (next, batches.lines().map(bytes_of).collect())
}

fn compact(client: &mut Client) {
    client.call::<Nothing>(Command::Compact(Nothing {})).unwrap();
}

#[test]
fn the_state_is_written_and_read() {
    let database = present!(database());
    let (leader, writers) = leader_with_writers(&database, 700);
    writers.write(leader.server.socket(), || {
        writers.wait_for(8);
        let mut client = leader.client();
        for _ in 0..3 {
            compact(&mut client);
            writers.wait_for(8);
        }
        leader.server.kill();
    });
    let entries: u64 = database.sql("SELECT entries FROM bestore_log").parse().unwrap();
    assert!(entries > 700);
    // The entries that the state contains aren't needed any more.
    database.sql("DELETE FROM bestore_entry WHERE number <= (SELECT entries FROM bestore_log)");
    let members = [Member::start(&database, "--follow")];
    leader_of(&members);
    let mut client = members[0].client();
    writers.go_on(&mut client);
    check_history(&mut client, &state_in(&database));
    // The error says which batch of the state is wrong.
    for (change, why) in [
        (
            "UPDATE bestore_state SET batch = 'BEC' WHERE place = 1",
            "batch 0 of the state of the log: it contains something that no store wrote",
        ),
        (
            "DELETE FROM bestore_state WHERE place = 1; UPDATE bestore_log SET next = 0",
            "of the log: it contains something that no store wrote",
        ),
    ] {
        database.sql(change);
        let said = Member::start(&database, "--follow").end();
        assert!(said.contains(why), "{said}");
    }
}

/// Makes the log's state one that 0.4.0 has written, which consists of ordinary batches. Node 3 has been removed.
fn write_state_of_0_4_0(database: &Database) {
    let mut nodes = Batch::new();
    nodes
        .new_node()
        .new_node()
        .new_node()
        .remove_node(3)
        .set(1, "count", 5_u64);
    let mut index = Batch::new();
    index.make_index("count", Kind::Uint64).set(2, "count", 6_u64);
    let rows: Vec<String> = (1..)
        .zip([nodes, index])
        .map(|(place, batch)| format!("({place}, '\\x{}')", hex_of(&batch.to_bytes().unwrap())))
        .collect();
    database.sql(&format!(
        "DELETE FROM bestore_entry; INSERT INTO bestore_state VALUES {};
         UPDATE bestore_log SET format = 1, entries = last, next = 4;",
        rows.join(",")
    ));
}

#[test]
fn a_state_of_0_4_0_is_read_and_replaced() {
    let database = present!(database());
    let (first, mut client) = Member::leading(&database);
    client.apply(&set_count(7)).unwrap();
    first.server.kill();
    write_state_of_0_4_0(&database);
    let leader = Member::start(&database, "--log");
    let mut client = leader.client();
    // The first node's attribute was set before there was an index.
    assert_eq!(client.query("count>0").unwrap(), [2]);
    assert_eq!(client.get(1, "count").unwrap(), Some(5_u64.into()));
    assert_eq!(client.apply(Batch::new().new_node()).unwrap().nodes, [4]);
    assert_eq!(database.sql("SELECT format, last FROM bestore_log"), "1|3");
    compact(&mut client);
    assert_eq!(database.sql("SELECT format, entries FROM bestore_log"), "2|3");
    assert!(state_in(&database).1[0].starts_with(b"BEV"));
    client.apply(Batch::new().new_node()).unwrap();
    check_all_alike(&[leader, Member::start(&database, "--follow")], 0);
}

/// Returns the contents of a store with a large node number, and with an index that lacks a node.
fn contents() -> Contents {
    let mut builder = Builder::new(Limits::default()).unwrap();
    builder.index("count", Kind::Uint64).unwrap();
    builder.node(1).unwrap();
    builder.attribute("count", 5_u64, false).unwrap();
    builder.node(100_000_000_000_001).unwrap();
    builder.attribute("count", 6_u64, true).unwrap();
    let copy = builder.finish(100_000_000_000_003).unwrap().copy_state().unwrap();
    (copy.next, copy.batches)
}

fn restore(client: &mut Client, (next, batches): &Contents) -> Result<Restored, bestore_client::Error> {
    client.call(Command::Restore(Restore {
        batches: batches.clone(),
        next: Some(*next),
    }))
}

#[test]
fn a_backup_becomes_the_beginning_of_a_log() {
    let database = present!(database());
    let contents = contents();
    let leader = Member::start(&database, "--log");
    let mut client = leader.client();
    let follower = Member::start(&database, "--follow");
    let refused = restore(&mut follower.client(), &contents).unwrap_err();
    assert!(refused.is(ErrorName::NotLeader), "{refused}");
    let restored = restore(&mut client, &contents).unwrap();
    assert_eq!((restored.commit, restored.entry), (1, Some(1)));
    assert_eq!(state_in(&database), contents);
    // The follower lacks the first entry, and begins with the state when it is started again.
    let said = follower.end();
    assert!(
        said.contains("the log no longer has entry 1, but the state after entry 1"),
        "{said}"
    );
    assert_eq!(client.query("count>0").unwrap(), [100_000_000_000_001]);
    let made = client.apply(Batch::new().new_node()).unwrap();
    assert_eq!((made.number, &made.nodes[..]), (2, &[100_000_000_000_003][..]));
    assert!(restore(&mut client, &contents).unwrap_err().is(ErrorName::NotEmpty));
    let members = [leader, Member::start(&database, "--follow")];
    check_all_alike(&members, 0);
    members.iter().for_each(|member| member.server.kill());
    let again = Member::start(&database, "--log");
    assert_eq!(again.client().pin().unwrap().next, 100_000_000_000_004);
}

#[test]
fn a_backup_is_not_restored_to_a_log_with_entries() {
    let database = present!(database());
    let (leader, mut client) = Member::leading(&database);
    assert!(restore(&mut client, &contents()).unwrap_err().is(ErrorName::NotEmpty));
    assert_eq!(client.apply(Batch::new().new_node()).unwrap().nodes, [2]);
    leader.server.kill();
    // Nor to one whose store is empty.
    database.sql("UPDATE bestore_log SET last = 5, entries = 5, next = 1; DELETE FROM bestore_entry");
    let again = Member::start(&database, "--log");
    assert!(restore(&mut again.client(), &contents())
        .unwrap_err()
        .is(ErrorName::NotEmpty));
}
