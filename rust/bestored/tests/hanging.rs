//! Tests servers that share a log when the database, or the way to it, is slow or hangs without breaking the connection, and servers
//! that were away for so long that the log lacks what they need next.

use crate::common::proxy::Proxy;
use crate::common::{wait_until, wait_within, Folder};
use crate::log::{database, Member, SOON};
use crate::repeats::make;
use bestore::Batch;
use bestore_client::wire::{Command, Nothing};
use bestore_client::{Client, Error, ErrorName, Options};
use std::net::{SocketAddr, TcpListener, TcpStream};
use std::thread;
use std::time::{Duration, Instant};

/// How long a request to write the state takes at most if the database hangs.
const WRITTEN: Duration = Duration::from_secs(30);

fn compact(client: &mut Client) -> Result<(), Error> {
    client.call::<Nothing>(Command::Compact(Nothing {})).map(drop)
}

#[test]
fn a_server_that_cannot_read_the_state_tries_again_until_a_signal() {
    let database = present!(database());
    let (_leader, mut client) = Member::leading(&database);
    compact(&mut client).unwrap();
    let proxy = Proxy::start(database.postgres.port);
    proxy.hang_at(Some("FROM bestore_state"));
    let [waiting, ended] = [(); 2].map(|()| {
        let member = Member::start_at(Folder::in_memory(), &database.url_at(proxy.port), "--follow");
        wait_within(SOON, "it says that it waits", || member.said().contains("trying again"));
        member
    });
    assert!(ended.server.end_by("TERM").success(), "{}", ended.said());
    proxy.hang_at(None);
    waiting.client().wait_for_entry(1, SOON).unwrap();
}

#[test]
fn a_state_that_cannot_be_written_keeps_no_client_waiting() {
    let database = present!(database());
    let proxy = Proxy::start(database.postgres.port);
    let leader = Member::start_at(Folder::in_memory(), &database.url_at(proxy.port), "--log");
    let mut client = leader.client();
    client.apply(Batch::new().new_node()).unwrap();
    let mut options = Options::new();
    let mut patient = options.timeout(Some(WRITTEN)).connect(leader.server.socket()).unwrap();
    // First the network hangs, and then another session has locked the table.
    proxy.hang_at(Some("INSERT INTO bestore_state"));
    let refused = compact(&mut patient).unwrap_err();
    assert!(refused.is(ErrorName::NotSaved), "{refused}");
    let said = "the state couldn't be written to the log: the database of the log didn't reply within 6 s";
    assert!(refused.to_string().contains(said), "{refused}");
    proxy.hang_at(None);
    thread::scope(|scope| {
        scope.spawn(|| database.sql("BEGIN; LOCK bestore_state IN SHARE MODE; SELECT pg_sleep(12); COMMIT"));
        wait_until("the table is locked", || {
            database
                .sql("SELECT count(*) FROM pg_locks WHERE relation = 'bestore_state'::regclass AND mode = 'ShareLock'")
                != "0"
        });
        let refused = compact(&mut patient).unwrap_err();
        assert!(refused.is(ErrorName::NotSaved), "{refused}");
        // Meanwhile, the leader writes.
        client.apply(Batch::new().new_node()).unwrap();
    });
    compact(&mut patient).unwrap();
    assert_eq!(
        database.sql("SELECT entries, count(*) FROM bestore_log, bestore_state GROUP BY entries"),
        "2|1"
    );
}

#[test]
fn a_follower_behind_a_slow_network_gets_all_entries() {
    let database = present!(database());
    let (_leader, mut client) = Member::leading(&database);
    let mut batch = Batch::new();
    for name in 0..60 {
        batch.set(1, &format!("text{name}"), "a".repeat(200));
    }
    for _ in 0..500 {
        client.apply(&batch).unwrap();
    }
    // The entries take 7 MB, and at most 0.6 MB arrive in a second.
    let proxy = Proxy::start_slow(database.postgres.port, Duration::from_millis(27));
    let follow = || Member::start_at(Folder::in_memory(), &database.url_at(proxy.port), "--follow");
    // A server that is still reading them ends at a signal.
    let reading = follow();
    let sessions =
        "SELECT count(*) FROM pg_stat_activity WHERE datname = current_database() AND application_name = 'bestored'";
    wait_until("it has a session", || database.sql(sessions) == "2");
    let begin = Instant::now();
    assert!(reading.server.end_by("TERM").success(), "{}", reading.said());
    assert!(begin.elapsed() < Duration::from_secs(6), "{:?}", begin.elapsed());
    let follower = follow();
    wait_within(Duration::from_secs(60), "it listens or tries again", || {
        follower.server.socket().exists() || follower.said().contains("trying again")
    });
    let reached = follower.client().wait_for_entry(501, SOON).unwrap();
    assert_eq!(reached.entry, 501, "{}", follower.said());
    assert!(!follower.said().contains("trying again"), "{}", follower.said());
}

#[test]
fn a_follower_that_was_away_for_too_long_says_so() {
    let database = present!(database());
    let (_leader, mut client) = Member::leading(&database);
    let follower = Member::start(&database, "--follow");
    follower.client().wait_for_entry(1, SOON).unwrap();
    follower.server.stop();
    for _ in 0..4 {
        client.apply(Batch::new().new_node()).unwrap();
    }
    compact(&mut client).unwrap();
    client.apply(Batch::new().new_node()).unwrap();
    // A real log keeps the last 10,000 entries before the state.
    database.sql("DELETE FROM bestore_entry WHERE number <= 4");
    follower.server.signal("CONT");
    let said = follower.end();
    assert!(
        said.contains("the log no longer has entry 2, but the state after entry 5;"),
        "{said}"
    );
    let again = Member::start(&database, "--follow");
    assert_eq!(again.client().wait_for_entry(6, SOON).unwrap().entry, 6);
}

/// Returns a listener that accepts no more connections, so that nothing replies to the next one.
fn deaf() -> (TcpListener, Vec<TcpStream>) {
    let listener = TcpListener::bind("127.0.0.1:0").unwrap();
    let address: SocketAddr = listener.local_addr().unwrap();
    let connect = || TcpStream::connect_timeout(&address, Duration::from_millis(300)).ok();
    let waiting = std::iter::from_fn(connect).take(10_000).collect();
    (listener, waiting)
}

#[test]
fn a_database_is_found_behind_a_machine_that_does_not_reply() {
    let database = present!(database());
    let (deaf, _waiting) = deaf();
    // The system completes a connection to this one, but nothing ever replies to what is sent.
    let mute = TcpListener::bind("127.0.0.1:0").unwrap();
    for (node, silent) in [(1, &deaf), (2, &mute)] {
        let port = silent.local_addr().unwrap().port();
        let url = database.url_of_tcp().replace("@", &format!("@127.0.0.1:{port},"));
        let member = Member::start_at(Folder::in_memory(), &url, "--log");
        wait_within(SOON, "it leads", || {
            member.leads() || member.said().contains("trying again")
        });
        assert!(member.leads(), "{}", member.said());
        assert_eq!(make(&mut member.client(), &node.to_string()).unwrap().nodes, [node]);
    }
}

#[test]
fn a_token_that_the_database_could_not_take_is_refused() {
    let database = present!(database());
    let leader = Member::start(&database, "--log");
    leader.client();
    let mut talk = leader.server.talk();
    let batch = r#""batch":{"operations":[["new"]],"token":"a\u0000b"}"#;
    talk.check_parts(batch, &["BadRequest", "a token has 1 to 64 bytes, none of them zero"]);
    assert_eq!(make(&mut leader.client(), "ab").unwrap().nodes, [1]);
}

#[test]
fn a_database_whose_encoding_cannot_store_some_tokens_is_refused() {
    let database = present!(database());
    let latin = database.postgres.database_in("LATIN1");
    for how in ["--log", "--follow"] {
        let said = Member::start(&latin, how).end();
        assert!(
            said.contains("the database of the log has the encoding LATIN1, which can't store every token;"),
            "{said}"
        );
    }
    assert_eq!(latin.sql("SELECT to_regclass('bestore_log') IS NULL"), "t");
    // With this encoding, PostgreSQL stores bytes as they are.
    let bytes = database.postgres.database_in("SQL_ASCII");
    let leader = Member::start(&bytes, "--log");
    assert_eq!(make(&mut leader.client(), "€").unwrap().nodes, [1]);
    let again = leader.follow_again(&bytes);
    wait_until("it leads", || again.leads());
    assert_eq!(make(&mut again.client(), "€").unwrap().nodes, [1]);
    assert_eq!(make(&mut again.client(), "$").unwrap().nodes, [2]);
}
