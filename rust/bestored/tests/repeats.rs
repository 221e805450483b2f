//! Tests that a batch is written exactly once when a client sends it again with its token, even if the server is killed.

use crate::common::{wait_until, Folder, Random, Server};
use bestore::Batch;
use bestore_client::wire::{Command, Token, Write, Written};
use bestore_client::{Client, Error, ErrorName, Options};
use std::collections::BTreeSet;
use std::path::Path;
use std::sync::atomic::{AtomicU64, Ordering::Relaxed};
use std::thread;
use std::time::Duration;

/// How long a client keeps sending a write. The server is always back before this time is up.
const PATIENCE: Duration = Duration::from_secs(120);

/// The number of clients, how many batches each of them writes, and how many times the server is killed while they do.
const CLIENTS: u64 = 8;
const BATCHES: u64 = 40;
const KILLS: u64 = 12;

/// A server's maximum lifetime after its first write, in µs.
const LIFE: u64 = 30_000;

/// Creates a node with a batch that has this token.
pub fn make(client: &mut Client, token: &str) -> Result<Written, Error> {
    let mut batch = Batch::new();
    batch.new_node();
    client.call(Command::Batch(Write {
        operations: batch.into(),
        token: Token::new(token),
        ..Write::default()
    }))
}

fn count(client: &mut Client) -> u64 {
    client.pin().unwrap();
    let next = client.next_node().unwrap().next;
    client.unpin().unwrap();
    next - 1
}

#[test]
fn the_longest_times_are_no_fault() {
    let folder = Folder::new();
    let server = Server::start(&folder, &[]);
    let mut options = Options::new();
    options.wait(Duration::MAX).timeout(Some(Duration::MAX));
    let mut client = options.repeat(Duration::MAX).connect(server.socket()).unwrap();
    assert_eq!(client.apply(Batch::new().new_node()).unwrap().number, 1);
    assert_eq!(client.reach(1, Duration::MAX).unwrap().commit, 1);
    client.watch(None).unwrap();
    server.client().apply(Batch::new().new_node()).unwrap();
    assert_eq!(client.next_push(Duration::MAX).unwrap().unwrap().commit, 2);
}

#[test]
fn a_batch_with_its_token_is_written_once() {
    let folder = Folder::new();
    let server = Server::start(&folder, &[]);
    let mut talk = server.talk();
    let batch = r#""batch":{"operations":[["new"]],"token":"a"}"#;
    talk.check(batch, r#""ok":{"commit":1,"nodes":[1]}"#);
    talk.check(
        r#""batch":{"operations":[["new"],["new"]]}"#,
        r#""ok":{"commit":2,"nodes":[2,3]}"#,
    );
    talk.check(batch, r#""ok":{"commit":1,"nodes":[1],"repeated":true}"#);
    server
        .talk()
        .check(batch, r#""ok":{"commit":1,"nodes":[1],"repeated":true}"#);
    talk.check(r#""next":{}"#, r#""ok":{"commit":2,"next":4}"#);
    let long = format!(r#""batch":{{"operations":[["new"]],"token":"{}"}}"#, "a".repeat(65));
    talk.check_parts(&long, &["BadRequest", "a token has 1 to 64 bytes; this one has 65"]);
}

#[test]
fn a_batch_that_was_refused_is_written_when_it_comes_again() {
    let folder = Folder::new();
    let server = Server::start(&folder, &[]);
    let mut talk = server.talk();
    talk.check(
        r#""batch":{"operations":[["set",1,"a",1]],"token":"a"}"#,
        r#""error":{"name":"NoNode","number":2,"message":"there is no such node","class":"mine"}"#,
    );
    talk.check(
        r#""batch":{"operations":[["new"]]}"#,
        r#""ok":{"commit":1,"nodes":[1]}"#,
    );
    let again = r#""batch":{"operations":[["set",1,"a",1]],"token":"a","expected":1}"#;
    talk.check(again, r#""ok":{"commit":2,"nodes":[]}"#);
    // The expected commit number is no longer the current one, but it was when the batch was written.
    talk.check(again, r#""ok":{"commit":2,"nodes":[],"repeated":true}"#);
}

#[test]
fn numbers_of_another_run_are_refused() {
    let folder = Folder::new();
    let server = Server::start(&folder, &[]);
    let run = server.client().hello().unwrap().run;
    let mut talk = server.talk();
    let write = |run: &str| format!(r#""batch":{{"operations":[["new"]],"expected":0,"run":"{run}"}}"#);
    let refused = format!(
        r#""error":{{"name":"Conflict","number":76,"message":"{}","class":"retry","expected":0,"found":0,"run":"{run}"}}"#,
        "the server has been restarted, so commit numbers have started again"
    );
    talk.check(&write("1-1"), &refused);
    talk.check(&write(&run), r#""ok":{"commit":1,"nodes":[1]}"#);
}

#[test]
fn tokens_are_of_the_whole_server_and_outlive_it() {
    let folder = Folder::new();
    let first = {
        let server = Server::start_kept(&folder, &[]);
        let mut client = server.client();
        let first = make(&mut client, "a").unwrap();
        let again = make(&mut client, "a").unwrap();
        let repeated = true;
        assert_eq!(
            again,
            Written {
                repeated,
                ..first.clone()
            }
        );
        first
    };
    // The second time, the entry has become part of the file's state.
    for _ in 0..2 {
        let server = Server::start_kept(&folder, &[]);
        let mut client = server.client();
        let again = make(&mut client, "a").unwrap();
        assert_eq!((again.nodes, again.repeated), (first.nodes.clone(), true));
        assert!(client.status().unwrap().entries >= again.commit);
        server.kill();
    }
}

/// Writes batches, and sends each one again until it gets a reply. Each batch creates a node with the writer's number and its own.
fn write(socket: &Path, writer: u64, written: &AtomicU64) {
    let mut options = Options::new();
    options.wait(PATIENCE).repeat(PATIENCE).timeout(Some(PATIENCE));
    let mut client = options.connect(socket).unwrap();
    for number in 0..BATCHES {
        let value = format!("{writer} {number}");
        match number % 2 {
            0 => client
                .change(|change| {
                    let node = change.new_node();
                    change.batch().set(node, "made", &*value);
                    Ok(())
                })
                .unwrap(),
            _ => {
                let node = client.apply(Batch::new().new_node()).unwrap().nodes[0];
                client.apply(Batch::new().set(node, "made", &*value)).unwrap();
            }
        }
        written.fetch_add(1, Relaxed);
    }
}

#[test]
fn each_batch_is_written_once_although_the_server_is_killed() {
    let folder = Folder::in_memory();
    let options = ["--pages", "512"];
    let mut server = Server::start_kept(&folder, &options);
    server
        .client()
        .apply(Batch::new().make_index("made", bestore::Kind::Text))
        .unwrap();
    let (written, socket) = (&AtomicU64::new(0), folder.join("socket"));
    let mut random = Random::new(1);
    thread::scope(|scope| {
        let writing = |writer| {
            let socket = &socket;
            scope.spawn(move || write(socket, writer, written))
        };
        let writers: Vec<_> = (0..CLIENTS).map(writing).collect();
        for _ in 0..KILLS {
            let before = written.load(Relaxed);
            wait_until("a batch is written", || {
                written.load(Relaxed) > before || before == CLIENTS * BATCHES
            });
            thread::sleep(Duration::from_micros(random.below(LIFE)));
            server.kill();
            server = Server::start_kept(&folder, &options);
        }
        writers.into_iter().for_each(|writer| writer.join().unwrap());
    });
    let mut client = server.client();
    assert_eq!(count(&mut client), CLIENTS * BATCHES);
    let nodes = client.query("made==*").unwrap();
    let values = nodes
        .iter()
        .map(|node| client.get(*node, "made").unwrap().unwrap().to_string());
    assert_eq!(values.collect::<BTreeSet<_>>().len() as u64, CLIENTS * BATCHES);
}

#[test]
fn a_client_that_would_lose_something_does_not_connect_again() {
    let folder = Folder::new();
    let server = Server::start_kept(&folder, &[]);
    let mut repeating = Options::new();
    repeating.repeat(PATIENCE);
    let mut clients: Vec<_> = (0..3).map(|_| repeating.connect(server.socket()).unwrap()).collect();
    clients[0].pin().unwrap();
    clients[1].watch(None).unwrap();
    server.kill();
    let _server = Server::start_kept(&folder, &[]);
    let mut written = clients.iter_mut().map(|client| client.apply(Batch::new().new_node()));
    assert!(matches!(written.next(), Some(Err(Error::Closed))));
    assert!(matches!(written.next(), Some(Err(Error::Closed))));
    assert_eq!(written.next().unwrap().unwrap().nodes, [1]);
}

#[test]
fn a_client_whose_live_query_was_refused_connects_again() {
    let folder = Folder::new();
    let server = Server::start_kept(&folder, &[]);
    let mut client = Options::new().repeat(PATIENCE).connect(server.socket()).unwrap();
    assert!(client.watch(Some("size>")).unwrap_err().is(ErrorName::Syntax));
    server.kill();
    let _server = Server::start_kept(&folder, &[]);
    assert_eq!(client.apply(Batch::new().new_node()).unwrap().nodes, [1]);
}

#[test]
fn a_server_that_stays_away_is_given_up() {
    let folder = Folder::new();
    let server = Server::start(&folder, &[]);
    let mut repeating = Options::new();
    repeating.repeat(Duration::from_millis(200));
    let mut client = repeating.connect(server.socket()).unwrap();
    server.kill();
    assert!(matches!(client.apply(Batch::new().new_node()), Err(Error::Closed)));
    assert!(client.change(|change| Ok(change.new_node())).is_err());
}
