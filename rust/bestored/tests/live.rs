//! Tests live queries.

use crate::common::{wait_until, Folder, Random, Server, Talk, PATIENCE};
use bestore::{Batch, Kind};
use bestore_client::wire::{self, Push};
use bestore_client::{Client, ErrorName};
use std::collections::BTreeSet;
use std::time::{Duration, Instant};

fn start() -> (Folder, Server) {
    let folder = Folder::new();
    let server = Server::start(&folder, &[]);
    server
        .client()
        .apply(Batch::new().make_index("size", Kind::Int64))
        .unwrap();
    (folder, server)
}

/// Creates a node of this size.
fn sized(client: &mut Client, size: i64) -> u64 {
    let made = client.change(|change| {
        let node = change.new_node();
        change.batch().set(node, "size", size);
        Ok(node)
    });
    made.unwrap()
}

fn next(client: &mut Client) -> Push {
    client.next_push(PATIENCE).unwrap().expect("a push comes")
}

#[test]
fn what_changes_is_pushed() {
    let (_folder, server) = start();
    let (mut watching, mut writing) = (server.client(), server.client());
    let first = sized(&mut writing, 5);
    let watched = watching.watch(Some("size>=5")).unwrap();
    assert_eq!((watched.watch, watched.commit), (1, 2));
    assert_eq!(watched.nodes, Some(vec![first]));
    let second = sized(&mut writing, 6);
    let push = next(&mut watching);
    assert_eq!((push.watch, push.commit), (1, 3));
    assert_eq!((push.created, push.removed), (vec![second], vec![]));
    writing.apply(Batch::new().set(first, "size", 4_i64)).unwrap();
    let push = next(&mut watching);
    assert_eq!((push.created, push.removed), (vec![], vec![first]));
    // A node that isn't in the answer doesn't change it, so nothing is pushed.
    sized(&mut writing, 1);
    assert_eq!(watching.next_push(Duration::from_millis(200)).unwrap(), None);
    watching.unwatch(1).unwrap();
    sized(&mut writing, 9);
    assert_eq!(watching.next_push(Duration::from_millis(200)).unwrap(), None);
    assert!(watching.unwatch(1).unwrap_err().is(ErrorName::NoWatch));
    assert_eq!(watching.watch(Some("size>=9")).unwrap().watch, 2);
}

#[test]
fn commits_are_pushed_without_a_query() {
    let (_folder, server) = start();
    let (mut watching, mut writing) = (server.client(), server.client());
    let watched = watching.watch(None).unwrap();
    assert_eq!((watched.commit, watched.nodes), (1, None));
    let mut last = 0;
    for _ in 0..50 {
        last = writing.apply(Batch::new().new_node()).unwrap().number;
    }
    let mut before = 1;
    while before < last {
        let push = next(&mut watching);
        assert!(push.commit > before && push.commit <= last);
        before = push.commit;
    }
}

#[test]
fn a_watch_in_a_snapshot_goes_on_from_it() {
    let (_folder, server) = start();
    let (mut watching, mut writing) = (server.client(), server.client());
    watching.pin().unwrap();
    let node = sized(&mut writing, 5);
    let watched = watching.watch(Some("size>=5")).unwrap();
    assert_eq!((watched.commit, watched.nodes), (1, Some(vec![])));
    assert_eq!(next(&mut watching).created, [node]);
    assert!(watching.query("size>=5").unwrap().is_empty());
}

/// Applies one of the watch's pushes to the nodes found so far.
fn take_in(found: &mut BTreeSet<u64>, push: &Push) {
    for node in &push.removed {
        assert!(found.remove(node), "{push:?}");
    }
    for node in &push.created {
        assert!(found.insert(*node), "{push:?}");
    }
}

/// Sends a request, applies all changes that are pushed before the reply, and returns the reply's `ok`.
fn ask(talk: &mut Talk, request: &str, found: &mut BTreeSet<u64>) -> serde_json::Value {
    talk.send(format!("{{\"id\":1,{request}}}\n").as_bytes());
    loop {
        let mut line: serde_json::Value = serde_json::from_str(&talk.line()).unwrap();
        if line.get("id").is_some() {
            return line["ok"].take();
        }
        take_in(found, &serde_json::from_value(line).unwrap());
    }
}

/// The earlier pushes and the refresh add up to the snapshot's answer, even if newer changes have already been pushed.
#[test]
fn a_refresh_leads_to_the_snapshot() {
    let (_folder, server) = start();
    let (mut talk, mut writing) = (server.talk(), server.client());
    talk.check(
        r#""refresh":{"watch":1}"#,
        r#""error":{"name":"NoWatch","message":"the connection has no such live query; start it with watch","class":"gone"}"#,
    );
    talk.check(
        r#""watch":{"query":"size>=5"}"#,
        r#""ok":{"watch":1,"commit":1,"nodes":[]}"#,
    );
    let mut found = BTreeSet::new();
    for round in 0..60 {
        let node = sized(&mut writing, 5);
        ask(&mut talk, r#""pin":{}"#, &mut found);
        sized(&mut writing, 6);
        if round % 3 == 0 {
            writing.apply(Batch::new().remove_node(node)).unwrap();
        }
        std::thread::sleep(Duration::from_micros(200 * (round % 20)));
        let answer = ask(&mut talk, r#""query":{"query":"size>=5"}"#, &mut found);
        let mut refreshed = ask(&mut talk, r#""refresh":{"watch":1}"#, &mut found);
        // A round can't push its changes while a reply is being sent. The refresh returns such changes first.
        while refreshed.get("more").is_some() {
            take_in(&mut found, &serde_json::from_value(refreshed).unwrap());
            refreshed = ask(&mut talk, r#""refresh":{"watch":1}"#, &mut found);
        }
        assert_eq!(refreshed["commit"], answer["commit"]);
        take_in(&mut found, &serde_json::from_value(refreshed).unwrap());
        let answer: BTreeSet<u64> = serde_json::from_value(answer["nodes"].clone()).unwrap();
        assert_eq!(found, answer);
        ask(&mut talk, r#""unpin":{}"#, &mut found);
    }
    // The watch goes on until it has pushed the last write.
    wait_until("all is pushed", || {
        ask(&mut talk, r#""status":{}"#, &mut found);
        found.len() == 100
    });
}

/// The initial number of nodes. The queries find most of them, so the answers are refreshed from the writes alone.
const MANY: u64 = 300;

/// Writes at random, so that nodes join and leave a large answer, and are created and removed.
fn write_at_random(mut client: Client, seed: u64) {
    let mut random = Random::new(seed);
    for _ in 0..200 {
        let (node, size) = (1 + random.below(MANY), random.below(10) as i64 - 2);
        let mut batch = Batch::new();
        match random.below(8) {
            0 => {
                sized(&mut client, size);
                continue;
            }
            1 => batch.remove_node(node),
            _ => batch.set(node, "size", size),
        };
        match client.apply(&batch) {
            Err(error) if !error.is(ErrorName::NoNode) => panic!("{error}"),
            _ => {}
        }
    }
}

/// For a large answer, too, pushes and refreshes add up to what the query finds while other clients write.
#[test]
fn a_large_answer_is_followed_while_clients_write() {
    let (_folder, server) = start();
    let mut client = server.client();
    for size in 0..MANY {
        sized(&mut client, size as i64 % 10 - 2);
    }
    let mut talk = server.talk();
    let mut found = BTreeSet::new();
    let watched = ask(&mut talk, r#""watch":{"query":"size>=0"}"#, &mut found);
    found.extend(serde_json::from_value::<Vec<u64>>(watched["nodes"].clone()).unwrap());
    assert!(found.len() >= 96);
    let writers: Vec<_> = (0..3)
        .map(|seed| {
            let client = server.client();
            std::thread::spawn(move || write_at_random(client, seed))
        })
        .collect();
    let mut is_over = false;
    while !is_over {
        is_over = writers.iter().all(|writer| writer.is_finished());
        ask(&mut talk, r#""pin":{}"#, &mut found);
        let answer = ask(&mut talk, r#""query":{"query":"size>=0"}"#, &mut found);
        let mut more = true;
        while more {
            let refreshed = ask(&mut talk, r#""refresh":{"watch":1}"#, &mut found);
            more = refreshed.get("more").is_some();
            take_in(&mut found, &serde_json::from_value(refreshed).unwrap());
        }
        let answer: BTreeSet<u64> = serde_json::from_value(answer["nodes"].clone()).unwrap();
        assert_eq!(found, answer);
        ask(&mut talk, r#""unpin":{}"#, &mut found);
    }
    writers.into_iter().for_each(|writer| writer.join().unwrap());
}

/// A refresh that fails leaves the watch unchanged.
#[test]
fn a_refresh_may_fail() {
    let (_folder, server) = start();
    let mut client = server.client();
    let node = sized(&mut client, 5);
    let watch = client.watch(Some("size>=5")).unwrap().watch;
    client.apply(Batch::new().remove_index("size")).unwrap();
    client.pin().unwrap();
    // The server may have ended the watch in the meantime.
    let error = client.refresh(watch).unwrap_err();
    assert!(
        error.is(ErrorName::NotCovered) || error.is(ErrorName::NoWatch),
        "{error}"
    );
    client.unpin().unwrap();
    let commits = client.watch(None).unwrap();
    client.apply(Batch::new().remove_node(node)).unwrap();
    assert_eq!(client.refresh(commits.watch).unwrap().commit, commits.commit + 1);
}

#[test]
fn a_query_that_cant_be_asked_any_more_ends() {
    let (_folder, server) = start();
    let (mut watching, mut writing) = (server.client(), server.client());
    watching.watch(Some("size>=5")).unwrap();
    writing.apply(Batch::new().remove_index("size")).unwrap();
    let push = next(&mut watching);
    assert_eq!(push.error.unwrap().name, ErrorName::NotCovered);
    assert_eq!(watching.status().unwrap().watches, 0);
    writing.apply(Batch::new().make_index("size", Kind::Int64)).unwrap();
    sized(&mut writing, 9);
    assert_eq!(watching.next_push(Duration::from_millis(200)).unwrap(), None);
}

#[test]
fn a_connection_has_32_watches() {
    let (_folder, server) = start();
    let mut client = server.client();
    for _ in 0..32 {
        client.watch(Some("size>=5")).unwrap();
    }
    assert!(client.watch(None).unwrap_err().is(ErrorName::TooManyWatches));
    assert_eq!(client.status().unwrap().watches, 32);
    drop(client);
    wait_until("the watches are gone", || {
        server.client().status().unwrap().watches == 0
    });
}

/// Applies the pushes while the same client writes, and compares the result with the answer at the end.
#[test]
fn changes_add_up_to_the_answer_while_clients_write() {
    let (_folder, server) = start();
    let server = &server;
    std::thread::scope(|scope| {
        for writer in 0..4_i64 {
            scope.spawn(move || {
                let mut client = server.client();
                for round in 0..100 {
                    let node = sized(&mut client, (writer + round) % 10);
                    client.apply(Batch::new().set(node, "size", round % 7)).unwrap();
                }
            });
        }
        let mut client = server.client();
        let watched = client.watch(Some("size>=5")).unwrap();
        let mut found: BTreeSet<u64> = watched.nodes.unwrap().into_iter().collect();
        let mut commit = watched.commit;
        while commit < 801 {
            if let Some(push) = client.next_push(Duration::from_millis(50)).unwrap() {
                assert!(push.commit > commit);
                commit = push.commit;
                for node in push.removed {
                    assert!(found.remove(&node));
                }
                for node in push.created {
                    assert!(found.insert(node));
                }
            }
            let snapshot = client.pin().unwrap();
            let answer = client.query("size>=5").unwrap();
            client.unpin().unwrap();
            if snapshot.commit == commit {
                assert_eq!(answer, found.iter().copied().collect::<Vec<_>>());
            }
            if snapshot.commit == 801 && answer == found.iter().copied().collect::<Vec<_>>() {
                break;
            }
        }
    });
}

/// Ends the watch, and reads everything that was pushed before. Returns how many nodes joined the answer and how many left it.
fn read_until_unwatched(talk: &mut Talk) -> (usize, usize) {
    talk.send(b"{\"id\":2,\"unwatch\":{\"watch\":1}}\n");
    let (mut created, mut removed) = (0, 0);
    loop {
        let line = talk.line();
        if line == r#"{"id":2,"ok":{}}"# {
            return (created, removed);
        }
        let push: Push = serde_json::from_str(&line).unwrap();
        created += push.created.len();
        removed += push.removed.len();
    }
}

/// A client that doesn't read gets fewer and larger pushes. The other clients get theirs in time.
#[test]
fn a_slow_reader_gets_changes_together() {
    let (_folder, server) = start();
    let mut slow = server.talk();
    slow.check(
        r#""watch":{"query":"size>=0"}"#,
        r#""ok":{"watch":1,"commit":1,"nodes":[]}"#,
    );
    let (mut quick, mut writing) = (server.client(), server.client());
    quick.watch(Some("size>=0")).unwrap();
    let mut made = 0;
    for _ in 0..120 {
        let snapshot = writing.pin().unwrap();
        let mut batch = Batch::new();
        for at in 0..32 {
            batch.new_node().set(snapshot.next + at, "size", 1_i64);
        }
        writing.apply_if(snapshot.commit, &batch).unwrap();
        writing.unpin().unwrap();
        made += 32;
        let mut seen = 0;
        while seen < 32 {
            seen += next(&mut quick).created.len();
        }
        let mut remove = Batch::new();
        for at in 0..32 {
            remove.remove_node(snapshot.next + at);
        }
        writing.apply(&remove).unwrap();
        while seen > 0 {
            seen -= next(&mut quick).removed.len();
        }
    }
    assert!(server.most_memory() < 100 << 10);
    let (created, removed) = read_until_unwatched(&mut slow);
    assert!(created >= removed && created <= made, "{created} {removed} {made}");
}

#[test]
fn what_is_pushed_is_in_the_file() {
    let folder = Folder::in_memory();
    for _ in 0..10 {
        let server = Server::start_kept(&folder, &[]);
        let (mut watching, mut writing) = (server.client(), server.client());
        let nodes = writing.pin().unwrap().next - 1;
        let before = watching.watch(None).unwrap().commit;
        // Each of these requests creates a node.
        for _ in 0..20 {
            let operations = Batch::new().new_node().clone().into();
            let write = wire::Write {
                operations,
                ..Default::default()
            };
            writing.send(wire::Command::Batch(write)).unwrap();
        }
        let pushed = next(&mut watching).commit - before;
        server.kill();
        let server = Server::start_kept(&folder, &[]);
        let found = server.client().pin().unwrap().next - 1;
        assert!(
            found >= nodes + pushed && found <= nodes + 20,
            "{found} {nodes} {pushed}"
        );
    }
}

/// The number of clients with slow live queries, and the number of queries that each of them has.
const WATCHING: usize = 8;
const WATCHES: usize = 32;

/// How long these queries may delay a write: as long as one query takes on a busy machine.
const SOON: Duration = Duration::from_millis(500);

/// Returns a query that compares each name 32 times and finds nothing.
fn long_query() -> String {
    let patterns = (0..32).map(|at| format!("name==\"*{at}z*\""));
    patterns.collect::<Vec<_>>().join(" || ")
}

/// Creates nodes whose names take most of 640 pages.
fn name_nodes(client: &mut Client) {
    client.apply(Batch::new().make_index("name", Kind::Text)).unwrap();
    for first in (1..=2_000).step_by(20) {
        let mut batch = Batch::new();
        for node in first..first + 20 {
            batch
                .new_node()
                .set(node, "name", format!("a file of the number {node}"));
        }
        client.apply(&batch).unwrap();
    }
}

/// A round of all live queries takes seconds. A snapshot held for that long would keep pages that writes need.
#[test]
fn no_write_waits_for_a_round_of_live_queries() {
    let folder = Folder::new();
    let server = Server::start(&folder, &["--pages", "640"]);
    let mut client = server.client();
    name_nodes(&mut client);
    let query = long_query();
    let mut watching: Vec<Client> = (0..WATCHING).map(|_| server.client()).collect();
    for client in &mut watching {
        (0..WATCHES).for_each(|_| drop(client.watch(Some(&query)).unwrap()));
    }
    for count in 0..300_i64 {
        let begin = Instant::now();
        client.apply(Batch::new().set(1, "count", count)).unwrap();
        let waited = begin.elapsed();
        assert!(waited < SOON, "write {count} waited for {waited:?}");
    }
    // All queries still run, and their changes are pushed.
    client.apply(Batch::new().set(1, "name", "7z")).unwrap();
    for client in &mut watching {
        let mut found = BTreeSet::new();
        while found.len() < WATCHES {
            let push = next(client);
            assert_eq!(push.created, [1]);
            found.insert(push.watch);
        }
    }
}
