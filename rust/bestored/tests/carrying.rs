//! Tests that a server that receives writes for a long time frees its journal's memory while clients keep working.

use crate::common::writers::{state_of, Contents, Writers};
use crate::common::{wait_until, Folder, Random, Server, PATIENCE};
#[cfg(feature = "log")]
use crate::log::{database, Member, SOON};
use crate::repeats::make;
use bestore::{Batch, Kind};
use bestore_client::wire::{self, Command, Write, Written};
use bestore_client::{Client, Error, ErrorName};
use std::process;
use std::time::{Duration, Instant};

/// Options for a small server, which carries its store on after 128 KiB of entries.
const SMALL: [&str; 6] = ["--pages", "64", "--passes", "16", "--journal", "128"];

/// Options for a server with enough pages to hold a snapshot for a while.
const LARGER: [&str; 6] = ["--pages", "256", "--passes", "4", "--journal", "512"];

/// How many times a server is killed.
const KILLS: u64 = 12;

/// Returns how many entries were written before the journal's first one.
fn begin(client: &mut Client) -> u64 {
    let first = Command::Journal(wire::JournalFrom {
        limit: Some(1),
        ..wire::JournalFrom::default()
    });
    match client.call::<wire::Journal>(first) {
        Ok(_) => 0,
        Err(Error::Refused(refusal)) if refusal.name == ErrorName::Expired => refusal.details["from"].as_u64().unwrap(),
        Err(error) => panic!("{error}"),
    }
}

/// Returns a batch that sets attributes of node 1 and takes 13 KB as an entry.
fn long_entry() -> Batch {
    let mut batch = Batch::new();
    for number in 0..60 {
        batch.set(1, &format!("text{number}"), "a".repeat(200));
    }
    batch
}

/// Writes until the journal begins at a later entry than before, and checks that each write gets the next commit number. Returns
/// the last number.
fn write_on(client: &mut Client) -> u64 {
    let (before, entry) = (begin(client), long_entry());
    let mut last = client.status().unwrap().entries;
    while begin(client) == before {
        for _ in 0..10 {
            last += 1;
            assert_eq!(client.apply(&entry).unwrap().number, last);
        }
    }
    assert!(begin(client) <= last);
    last
}

/// Writes a batch that expects this commit number in this run.
fn write_expecting(client: &mut Client, run: &str, expected: u64, batch: &Batch) -> Result<Written, Error> {
    client.call(Command::Batch(Write {
        operations: batch.clone().into(),
        expected: Some(expected),
        run: Some(run.into()),
        ..Write::default()
    }))
}

/// Pins a snapshot with one client, and writes with another until the store has been carried on. The snapshot is pinned anew after
/// every few writes, since it would otherwise hold too many pages. Returns the pinned state and its number, and the number of the
/// last write.
fn pin_and_write_on(reading: &mut Client, writing: &mut Client) -> (Contents, u64, u64) {
    let before = begin(writing);
    loop {
        let pinned = reading.pin().unwrap().commit;
        let state = state_of(reading);
        let last = (0..10)
            .map(|_| writing.apply(&long_entry()).unwrap().number)
            .last()
            .unwrap();
        assert_eq!(last, pinned + 10);
        if begin(writing) > before {
            return (state, pinned, last);
        }
        reading.unpin().unwrap();
    }
}

#[test]
fn snapshots_stay_and_numbers_go_on() {
    let folder = Folder::in_memory();
    for keep in [false, true] {
        let server = match keep {
            false => Server::start(&folder, &LARGER),
            true => Server::start_kept(&folder, &LARGER),
        };
        let (mut reading, mut writing) = (server.client(), server.client());
        let mut batch = Batch::new();
        batch.make_index("size", Kind::Int64).new_node().set(1, "size", 5_i64);
        writing.apply(&batch).unwrap();
        let (state, pinned, last) = pin_and_write_on(&mut reading, &mut writing);
        writing.apply(Batch::new().set(1, "size", 6_i64).new_node()).unwrap();

        assert_eq!(reading.query("size==5").unwrap(), [1]);
        assert!(state_of(&mut reading) == state);
        let refused = reading.apply_if(pinned, Batch::new().new_node()).unwrap_err();
        let details = match &refused {
            Error::Refused(refusal) if refused.is(ErrorName::Conflict) => &refusal.details,
            _ => panic!("{refused}"),
        };
        assert_eq!(
            (&details["expected"], &details["found"]),
            (&pinned.into(), &(last + 1).into())
        );
        assert_eq!(reading.apply(Batch::new().new_node()).unwrap().number, last + 2);
        assert_eq!(reading.query("size==5").unwrap(), [1]);
        reading.unpin().unwrap();
        assert_eq!(reading.query("size==6").unwrap(), [1]);
        let status = reading.status().unwrap();
        assert_eq!((status.entries, status.oldest), (last + 2, None));
        check_journal(&mut reading, last + 2);
        assert!(server.end_by("TERM").success());
    }
}

/// Checks that the journal is complete from its beginning to this entry.
fn check_journal(client: &mut Client, last: u64) {
    let begin = begin(client);
    let page = client.journal_from(begin).unwrap();
    let numbers = page.entries.iter().map(|entry| entry.commit);
    assert!(numbers.eq(begin + 1..=begin + page.entries.len() as u64));
    assert_eq!(page.length, last);
    assert!(client.journal_from(last).unwrap().entries.is_empty());
}

/// Returns a server that has one node and lets clients hold a snapshot for a day, and two of its clients.
fn holding(folder: &Folder) -> (Server, Client, Client) {
    let server = Server::start(folder, &[&LARGER[..], &["--hold", "86400"]].concat());
    let (reading, mut writing) = (server.client(), server.client());
    writing.apply(Batch::new().new_node()).unwrap();
    (server, reading, writing)
}

#[test]
fn a_snapshot_is_taken_back_when_its_memory_is_needed() {
    let folder = Folder::new();
    let (_server, mut reading, mut writing) = holding(&folder);
    pin_and_write_on(&mut reading, &mut writing);
    write_on(&mut writing);
    let refused = reading.next_node().unwrap_err();
    assert!(refused.is(ErrorName::Expired), "{refused}");
    reading.unpin().unwrap();
    assert_eq!(reading.next_node().unwrap().next, 2);
}

#[test]
fn who_keeps_earlier_memory_is_named_and_can_be_ended() {
    let folder = Folder::new();
    let (server, mut reading, mut writing) = holding(&folder);
    let (_, pinned, _) = pin_and_write_on(&mut reading, &mut writing);
    let clients = writing.clients().unwrap();
    let reader = clients.iter().find(|client| client.pinned.is_some()).unwrap().client;
    // The other client pins a newer snapshot.
    let mut other = server.client();
    let newer = other.pin().unwrap().commit;
    let oldest = writing.info().unwrap().oldest.unwrap();
    assert_eq!((oldest.commit, oldest.earlier), (pinned, true));
    assert_eq!((oldest.client, oldest.process), (Some(reader), Some(process::id())));
    assert!(oldest.milliseconds.is_some());

    writing.kick(reader).unwrap();
    assert!(matches!(reading.unpin(), Err(Error::Closed)));
    let mut left = None;
    wait_until("the earlier memory is given back", || {
        left = writing.info().unwrap().oldest;
        left.as_ref().map_or(true, |oldest| oldest.client != Some(reader))
    });
    let left = left.unwrap();
    assert_eq!((left.commit, left.earlier), (newer, false));
    other.unpin().unwrap();
    write_on(&mut writing);
}

#[test]
fn who_rests_keeps_no_memory() {
    let folder = Folder::new();
    let server = Server::start(&folder, &SMALL);
    let mut writing = server.client();
    writing.apply(Batch::new().new_node()).unwrap();
    let mut resting: Vec<Client> = (0..8).map(|_| server.client()).collect();
    for client in &mut resting {
        client.next_node().unwrap();
    }
    let mut watching = server.client();
    watching.watch(None).unwrap();
    // The store can be carried on again only after every pass has released the earlier memory, including those of the server's own
    // threads.
    for _ in 0..4 {
        write_on(&mut writing);
    }
    for client in &mut resting {
        assert!(client.get(1, "text0").unwrap().is_some());
    }
}

/// Checks that the store is carried on again and again while a client waits on the server for something that doesn't come.
fn check_waiting(server: &Server, command: &str, request: &[u8]) {
    let mut writing = server.client();
    writing.apply(Batch::new().new_node()).unwrap();
    let mut waiting = server.talk();
    waiting.send(request);
    wait_until("it waits", || {
        let clients = writing.clients().unwrap();
        clients.iter().any(|client| client.command.as_deref() == Some(command))
    });
    let begin = Instant::now();
    for _ in 0..4 {
        write_on(&mut writing);
    }
    assert!(begin.elapsed() < Duration::from_secs(30), "{:?}", begin.elapsed());
}

#[test]
fn who_waits_for_a_commit_keeps_no_memory() {
    let folder = Folder::new();
    let server = Server::start(&folder, &SMALL);
    check_waiting(
        &server,
        "reach",
        b"{\"id\":1,\"reach\":{\"commit\":1000000,\"within\":60000}}\n",
    );
}

#[cfg(feature = "log")]
#[test]
fn who_waits_for_an_entry_keeps_no_memory() {
    let database = present!(database());
    let leader = Member::start_with(&database, "--log", &SMALL);
    leader.client();
    check_waiting(
        &leader.server,
        "log",
        b"{\"id\":1,\"log\":{\"entry\":1000000,\"within\":60000}}\n",
    );
}

#[test]
fn live_queries_go_on() {
    let folder = Folder::new();
    let server = Server::start(&folder, &SMALL);
    let (mut watching, mut writing) = (server.client(), server.client());
    let mut batch = Batch::new();
    batch.make_index("size", Kind::Int64).new_node().set(1, "size", 5_i64);
    writing.apply(&batch).unwrap();
    let sizes = watching.watch(Some("size>=5")).unwrap();
    let commits = watching.watch(None).unwrap();
    let mut seen = commits.commit;
    for round in 0..3 {
        let last = write_on(&mut writing);
        let node = round + 2;
        let made = writing.apply(
            Batch::new()
                .new_node()
                .set(node, "size", 6_i64)
                .set(node - 1, "size", 4_i64),
        );
        assert_eq!(made.unwrap().number, last + 1);
        let mut has_changed = false;
        while seen < last + 1 || !has_changed {
            let push = watching.next_push(PATIENCE).unwrap().expect("a push comes");
            if push.watch == sizes.watch {
                assert_eq!((push.created, push.removed), (vec![node], vec![node - 1]));
                has_changed = true;
            } else {
                assert!(push.commit > seen && push.commit <= last + 1);
                seen = push.commit;
            }
        }
    }
}

#[test]
fn tokens_and_runs_stay_right() {
    let folder = Folder::in_memory();
    let server = Server::start_kept(&folder, &SMALL);
    let mut client = server.client();
    let first = make(&mut client, "a").unwrap();
    let run = client.hello().unwrap().run;
    let last = write_on(&mut client);
    let again = make(&mut client, "a").unwrap();
    assert_eq!(
        (again.commit, &again.nodes, again.repeated),
        (first.commit, &first.nodes, true)
    );
    let mut batch = Batch::new();
    batch.new_node();
    for expected in [0, first.commit, last - 1, last + 1] {
        let refused = write_expecting(&mut client, &run, expected, &batch).unwrap_err();
        assert!(refused.is(ErrorName::Conflict), "{refused}");
    }
    let written = write_expecting(&mut client, &run, last, &batch).unwrap();
    assert_eq!((written.commit, written.nodes), (last + 1, vec![2]));
    let refused = write_expecting(&mut client, "another run", last + 1, &batch).unwrap_err();
    assert!(refused.is(ErrorName::Conflict), "{refused}");
    server.kill();

    let server = Server::start_kept(&folder, &SMALL);
    let again = make(&mut server.client(), "a").unwrap();
    assert_eq!((again.nodes, again.repeated), (first.nodes, true));
}

/// Each write adds an entry of about 100 bytes, so a server that lives long enough carries its store on.
#[test]
fn servers_that_are_killed_meanwhile_lose_nothing() {
    let folder = Folder::in_memory();
    let writers = Writers::default();
    writers.begin(&mut Server::start_kept(&folder, &SMALL).client(), 100);
    let (mut random, mut carried) = (Random::new(7), 0);
    for _ in 0..KILLS {
        let server = Server::start_kept(&folder, &SMALL);
        let mut client = server.patient_client();
        writers.go_on(&mut client);
        writers.write(server.socket(), || {
            wait_until("the store is carried on", || begin(&mut client) > 0);
            carried += 1;
            // Some servers are killed just before the store is carried on, some while it is carried on, and some afterwards.
            writers.wait_for(random.below(6_000));
            server.kill();
        });
    }
    assert_eq!(carried, KILLS);
    writers.go_on(&mut Server::start_kept(&folder, &SMALL).client());
}

#[cfg(feature = "log")]
#[test]
fn a_follower_of_a_log_does_it_too() {
    let database = present!(database());
    let leader = Member::start_with(&database, "--log", &SMALL);
    let mut client = leader.client();
    client.apply(Batch::new().new_node()).unwrap();
    let follower = Member::start_with(&database, "--follow", &SMALL);
    let mut other = follower.client();
    let batch = long_entry();
    wait_until("both have let go of the journal", || {
        client.apply(&batch).unwrap();
        begin(&mut client) > 0 && begin(&mut other) > 0
    });
    let entry = client.log().unwrap();
    assert_eq!(other.wait_for_entry(entry.entry, SOON).unwrap().entry, entry.entry);
    client.pin().unwrap();
    other.pin().unwrap();
    assert!(state_of(&mut client) == state_of(&mut other));
    leader.server.kill();
    wait_until("the follower leads", || follower.leads());
    let mut next = follower.client();
    let written = next.call::<wire::Written>(Command::Batch(Write {
        operations: batch.into(),
        ..Write::default()
    }));
    assert_eq!(written.unwrap().entry, Some(entry.entry + 1));
}
