//! Tests what one leader of a log hands over to the next, and how a paused leader is replaced.

use crate::common::postgres::{Database, Postgres};
use crate::common::{wait_until, wait_within};
use crate::log::{database, database_of, signal, status, Member, OF_LEADER, SOON};
use crate::repeats::make;
use bestore::Batch;
use bestore_client::wire::{Command, Nothing, Token, Write, Written};
use bestore_client::ErrorName;
use std::thread;
use std::time::Duration;

/// How soon clients write to another server after a leader was paused.
const REPLACED: Duration = Duration::from_secs(9);

/// Starts a leader, writes an entry, and starts a follower. Returns all three once the follower has the entry.
fn leader_and_follower(database: &Database) -> (Member, Written, Member) {
    let leader = Member::start(database, "--log");
    let first = make(&mut leader.client(), "a").unwrap();
    let follower = Member::start(database, "--follow");
    follower.client().wait_for_entry(first.entry.unwrap(), SOON).unwrap();
    (leader, first, follower)
}

#[test]
fn a_token_goes_from_one_leader_to_the_next() {
    let database = present!(database());
    let first = Member::start(&database, "--log");
    let mut client = first.client();
    let written = make(&mut client, "a").unwrap();
    client.call::<Nothing>(Command::Compact(Nothing {})).unwrap();
    let later = make(&mut client, "b").unwrap();
    // The follower gets token "a" from the log's state and token "b" from an entry.
    let following = Member::start(&database, "--follow");
    let check = |member: &Member| {
        let mut client = member.client();
        client.wait_for_entry(later.entry.unwrap(), SOON).unwrap();
        for (token, written) in [("a", &written), ("b", &later)] {
            let again = make(&mut client, token).unwrap();
            assert_eq!((&again.nodes, again.repeated), (&written.nodes, true));
        }
    };
    check(&following);
    first.server.kill();
    wait_until("the other one leads", || following.leads());
    check(&following);
    assert!(following.said().contains("this server leads the log, in term 2"));
    let role = following.client().info().unwrap().log.unwrap();
    assert_eq!((&*role.role, role.term, role.lag), ("leader", Some(2), 0));
    let third = make(&mut following.client(), "c").unwrap();
    assert_eq!(third.nodes, [3]);
}

#[test]
fn a_leader_that_is_paused_is_replaced() {
    let database = present!(database());
    let (paused, _, following) = leader_and_follower(&database);
    paused.server.signal("STOP");
    let mut second = None;
    wait_within(REPLACED, "a client writes to the other one", || {
        second = make(&mut following.client(), "b").ok();
        second.is_some()
    });
    assert!(following
        .said()
        .contains("has been silent for 7 seconds; ending its session"));
    assert_eq!(second.unwrap().nodes, [2]);
    paused.server.signal("CONT");
    let third = make(&mut following.client(), "c").unwrap();
    assert_eq!(third.nodes, [3]);
    check_follows(&paused, &third);
}

/// Waits until a server that has led follows, and has this entry.
fn check_follows(member: &Member, written: &Written) {
    wait_until("it follows", || {
        status(&member.server).map_or(false, |status| status.role == "follower")
    });
    member.client().wait_for_entry(written.entry.unwrap(), SOON).unwrap();
}

#[test]
fn a_silent_leader_is_reported_once() {
    let database = present!(database());
    let (paused, _, following) = leader_and_follower(&database);
    // PostgreSQL can't end the session of a process that is stopped.
    let session = database.sql(&format!("SELECT pid {OF_LEADER}"));
    signal(&session, "STOP");
    paused.server.signal("STOP");
    let reports = || following.said().matches("has been silent for 7 seconds").count();
    wait_until("it is reported", || reports() > 0);
    thread::sleep(Duration::from_secs(1));
    assert_eq!(reports(), 1);
    signal(&session, "CONT");
    wait_until("the follower leads", || following.leads());
}

#[test]
fn a_leader_whose_standby_is_away_stays_the_leader() {
    let database = present!(database_of(Postgres::start()));
    let (leader, _, following) = leader_and_follower(&database);
    let set = |setting: &str| {
        database.sql(&format!("ALTER SYSTEM {setting}"));
        database.sql("SELECT pg_reload_conf()");
    };
    set("SET synchronous_standby_names = 'away'");
    // Before PostgreSQL goes by the new setting, writes are still kept.
    let (mut client, mut count) = (leader.client(), 1);
    let refused = loop {
        count += 1;
        if let Err(refused) = make(&mut client, &count.to_string()) {
            break refused;
        }
    };
    assert!(refused.is(ErrorName::NotSaved), "{refused}");
    // By now, the leader has been silent for longer than any other reason allows.
    thread::sleep(Duration::from_secs(2));
    assert!(!following.said().contains("ending its session"), "{}", following.said());
    set("RESET synchronous_standby_names");
    let mut again = None;
    wait_within(SOON, "the leader writes again", || {
        again = make(&mut leader.client(), &count.to_string()).ok();
        again.is_some()
    });
    let again = again.unwrap();
    assert_eq!((again.nodes, again.repeated), (vec![count], true));
    assert!(leader.leads() && !following.leads());
}

/// Waits until a session in the database waits for this event, in a statement that contains this text.
fn wait_for_event(database: &Database, event: &str, statement: &str) {
    let sql = format!(
        "SELECT count(*) FROM pg_stat_activity WHERE datname = current_database() AND pid <> pg_backend_pid()
            AND '{event}' IN (wait_event, wait_event_type) AND position('{statement}' IN query) > 0"
    );
    wait_until(statement, || database.sql(&sql) != "0");
}

#[test]
fn a_leader_that_is_paused_while_it_writes_the_state_is_replaced() {
    let database = present!(database());
    let (paused, _, following) = leader_and_follower(&database);
    let mut client = paused.client();
    thread::scope(|scope| {
        // This transaction locks the log's row for 3 seconds, so the last statement that writes the state waits for it. The leader is
        // paused by then, and its own transaction gets the lock.
        scope.spawn(|| database.sql("BEGIN; SELECT FROM bestore_log FOR UPDATE; SELECT pg_sleep(3); COMMIT"));
        wait_for_event(&database, "PgSleep", "pg_sleep");
        client.send(Command::Compact(Nothing {})).unwrap();
        wait_for_event(&database, "Lock", "UPDATE bestore_log SET entries");
        paused.server.stop();
    });
    wait_within(SOON, "the other one leads", || following.leads());
    let second = make(&mut following.client(), "b").unwrap();
    assert_eq!(second.nodes, [2]);
    paused.server.signal("CONT");
    check_follows(&paused, &second);
}

/// Returns the identifier of a server's run.
fn run_of(member: &Member) -> String {
    member.client().hello().unwrap().run
}

/// Returns a batch with a token that creates a node and expects this commit number in this run.
fn conditional(run: &str, expected: u64) -> Command<'static> {
    let mut batch = Batch::new();
    batch.new_node();
    Command::Batch(Write {
        operations: batch.into(),
        expected: Some(expected),
        run: Some(run.into()),
        token: Token::new("conditional"),
    })
}

#[test]
fn a_follower_does_not_know_that_a_batch_conflicts() {
    let database = present!(database());
    let leader = Member::start(&database, "--log");
    let sent_before = conditional(&run_of(&leader), 0);
    let following = Member::start(&database, "--follow");
    let refused = following.client().call::<Written>(sent_before).unwrap_err();
    assert!(refused.is(ErrorName::NotLeader), "{refused}");
    // A leader that has a different run reports a conflict for the batch.
    leader.server.kill();
    wait_until("the follower leads", || following.leads());
    let sent_before = conditional(&run_of(&following), 0);
    let other = leader.follow_again(&database);
    following.server.kill();
    wait_until("the other one leads", || other.leads());
    let refused = other.client().call::<Written>(sent_before).unwrap_err();
    assert!(refused.is(ErrorName::Conflict), "{refused}");
}

#[test]
fn a_leader_that_was_replaced_does_not_know_that_a_batch_conflicts() {
    let database = present!(database());
    let (old, first, new) = leader_and_follower(&database);
    let mut waiting = old.client();
    waiting.hello().unwrap();
    old.server.stop();
    database.sql(&format!("SELECT pg_terminate_backend(pid) {OF_LEADER}"));
    wait_until("the follower leads", || new.leads());
    let mut client = new.client();
    let commit = client.log().unwrap().commit;
    let run = run_of(&new);
    // The write is made, but the client gets no reply, so it sends the write again, to the earlier
    // leader.
    new.client().send(conditional(&run, commit)).unwrap();
    client.wait_for_entry(first.entry.unwrap() + 1, SOON).unwrap();
    let sent = waiting.send(conditional(&run, commit)).unwrap();
    old.server.signal("CONT");
    let refused = waiting.receive::<Written>(sent).unwrap_err();
    assert!(!refused.is(ErrorName::Conflict), "{refused}");
}
