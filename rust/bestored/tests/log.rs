//! Tests servers that share a log in a real PostgreSQL.

use crate::common::postgres::{Database, Postgres};
use crate::common::proxy::{Lost, Proxy};
use crate::common::writers::{check_history, nothing, state_of, Writers};
use crate::common::{check_gone, command, wait_until, wait_within, Folder, Random, Server};
use crate::slow;
use crate::socket::activated;
use bestore::Batch;
use bestore_client::wire::{Command, LogStatus, Nothing, Write, Written};
use bestore_client::{Client, Error, ErrorName};
use std::cell::RefCell;
use std::fs::{self, File};
use std::os::unix::net::UnixStream;
use std::process;
use std::sync::Arc;
use std::thread;
use std::time::{Duration, Instant};

/// How many times a leader is killed. `BESTORED_LOG_KILLS` overrides it.
const KILLS: u64 = 50;

/// The time after which the test stops killing leaders.
const TIME: Duration = Duration::from_secs(40);

/// A leader's maximum lifetime after its first write, in µs.
const LIFE: u64 = 60_000;

/// The time within which a leader writes again once its database replies.
pub const SOON: Duration = Duration::from_secs(15);

/// The part of a statement that selects the leader's session in the database.
pub const OF_LEADER: &str = "FROM pg_locks JOIN pg_database ON database = pg_database.oid \
                         WHERE locktype = 'advisory' AND datname = current_database()";

/// Returns a database, or prints that there is none.
pub fn database_of(server: Option<Arc<Postgres>>) -> Option<Database> {
    if server.is_none() {
        println!("a log in PostgreSQL: skipped, it isn't installed");
    }
    server.map(|server| server.database())
}

pub fn database() -> Option<Database> {
    database_of(Postgres::shared())
}

/// A server that shares the log, with a folder of its own.
pub struct Member {
    folder: Folder,
    pub server: Server,
}

impl Member {
    /// Starts a server. `how` is `--log` or `--follow`.
    pub fn start(database: &Database, how: &str) -> Self {
        Self::start_in(Folder::in_memory(), database, how)
    }

    /// Starts a server with these options for its size.
    pub fn start_with(database: &Database, how: &str, size: &[&str]) -> Self {
        Self::run(Folder::in_memory(), &[&[how, &database.url()], size].concat())
    }

    /// Starts a server that leads, and writes a node with its client.
    pub fn leading(database: &Database) -> (Self, Client) {
        let leader = Self::start(database, "--log");
        let mut client = leader.client();
        client.apply(Batch::new().new_node()).unwrap();
        (leader, client)
    }

    fn start_in(folder: Folder, database: &Database, how: &str) -> Self {
        Self::start_at(folder, &database.url(), how)
    }

    pub fn start_at(folder: Folder, url: &str, how: &str) -> Self {
        Self::run(folder, &[how, url, "--pages", "512", "--passes", "16"])
    }

    fn run(folder: Folder, options: &[&str]) -> Self {
        let socket = folder.join("socket");
        let mut command = command(&socket, options);
        command.stderr(
            File::options()
                .append(true)
                .create(true)
                .open(folder.join("said"))
                .unwrap(),
        );
        let server = Server::run(command, &socket);
        Self { folder, server }
    }

    /// Kills the server, and starts a follower at the same socket.
    pub fn follow_again(self, database: &Database) -> Self {
        self.server.kill();
        Self::start_at(self.folder, &database.url_of_tcp(), "--follow")
    }

    pub fn client(&self) -> Client {
        assert!(self.server.answers(), "{}", self.said());
        self.server.client()
    }

    /// Returns what the server has written to standard error.
    pub fn said(&self) -> String {
        fs::read_to_string(self.folder.join("said")).unwrap_or_default()
    }

    pub fn leads(&self) -> bool {
        status(&self.server).map_or(false, |status| status.role == "leader")
    }

    /// Waits until the server ends, and returns what it has written to standard error.
    #[track_caller]
    pub fn end(&self) -> String {
        let ended = self.server.wait_end();
        assert!(!ended.success());
        self.said()
    }
}

/// Returns the attribute `count` of node 1.
pub fn count_of(member: &Member) -> Option<u64> {
    let value = member.client().get(1, "count").unwrap();
    value.and_then(|value| value.as_u64())
}

pub fn status(server: &Server) -> Option<LogStatus> {
    Client::connect(server.socket()).ok()?.log().ok()
}

/// Waits until one of the servers leads, and returns its index.
pub fn leader_of(members: &[Member]) -> usize {
    let mut leader = None;
    wait_until("one leads", || {
        leader = members.iter().position(Member::leads);
        leader.is_some()
    });
    leader.unwrap()
}

/// Waits until all servers have the leader's entries, and compares their states.
pub fn check_all_alike(members: &[Member], leader: usize) {
    let mut client = members[leader].client();
    let mut entry = 0;
    // A write that was under way when its connection was cut may come between.
    wait_until("the leader writes nothing more", || {
        entry = client.log().unwrap().entry;
        client.pin().unwrap();
        let is_last = client.log().unwrap().entry == entry;
        if !is_last {
            client.unpin().unwrap();
        }
        is_last
    });
    let state = state_of(&mut client);
    for member in members {
        let mut other = member.client();
        let reached = other.wait_for_entry(entry, Duration::from_secs(60)).unwrap();
        assert_eq!(reached.entry, entry);
        other.pin().unwrap();
        assert!(state_of(&mut other) == state, "{}", member.folder.path().display());
    }
}

/// Sends a signal to the process with this ID.
pub fn signal(process: &str, signal: &str) {
    let sent = process::Command::new("kill").args(["-s", signal, process]).status();
    assert!(sent.unwrap().success());
}

pub fn set_count(count: u64) -> Batch {
    let mut batch = Batch::new();
    batch.set(1, "count", count);
    batch
}

#[test]
fn leaders_are_killed_and_no_answered_write_is_lost() {
    let database = present!(database());
    let kills = std::env::var("BESTORED_LOG_KILLS")
        .ok()
        .and_then(|text| text.parse().ok());
    let kills: u64 = kills.unwrap_or(KILLS);
    let mut members = vec![Member::start(&database, "--log")];
    let writers = Writers::default();
    writers.begin(&mut members[0].client(), 0);
    members.extend((0..2).map(|_| Member::start(&database, "--follow")));
    let (begin, mut random) = (Instant::now(), Random::new(1));
    let (mut killed, mut writing) = (0, 0);
    while killed < kills && begin.elapsed() < TIME {
        let leader = leader_of(&members);
        let server = &members[leader].server;
        writers.go_on(&mut members[leader].client());
        writers.write(server.socket(), || {
            writers.wait_for(1);
            thread::sleep(Duration::from_micros(random.below(LIFE)));
            writing += u64::from(writers.are_writing());
            server.kill();
        });
        killed += 1;
        let member = members.remove(leader);
        members.push(member.follow_again(&database));
    }
    let leader = leader_of(&members);
    writers.go_on(&mut members[leader].client());
    check_all_alike(&members, leader);
    check_history(&mut members[leader].client(), &nothing());
    // Each entry occurs exactly once, and a term's entries come before those of the next term.
    let found = database.sql(
        "SELECT count(*) = last, min(number) = 1, max(number) = last FROM bestore_entry, bestore_log GROUP BY last;",
    );
    assert_eq!(found, "t|t|t");
    let order =
        "SELECT bool_and(term >= before) FROM (SELECT term, lag(term, 1, 0::bigint) OVER (ORDER BY number) AS before \
                 FROM bestore_entry) AS terms";
    assert_eq!(database.sql(order), "t");
    let (seconds, answered) = (begin.elapsed().as_secs(), writers.answered());
    println!("killed {killed} of {kills} leaders in {seconds} s, {writing} times while clients were writing; {answered} writes");
    assert!(writing * 2 >= killed && answered > killed);
}

#[test]
fn a_client_that_is_gone_waits_for_no_entry() {
    let database = present!(database());
    let member = Member::start(&database, "--log");
    assert!(member.server.answers(), "{}", member.said());
    check_gone(
        &member.server,
        "log",
        b"{\"id\":1,\"log\":{\"entry\":9,\"within\":60000}}\n",
    );
}

#[test]
fn followers_refuse_writes_and_wait_for_entries() {
    let database = present!(database());
    let members = [Member::start(&database, "--log"), {
        wait_until("there is a log", || {
            database.sql("SELECT to_regclass('bestore_log') IS NOT NULL") == "t"
        });
        Member::start(&database, "--follow")
    }];
    let (mut leader, mut follower) = (members[0].client(), members[1].client());
    leader.apply(Batch::new().new_node().set(1, "count", 0_u64)).unwrap();
    let led = leader.log().unwrap();
    assert_eq!(
        (&*led.role, led.term, led.entry, led.trouble),
        ("leader", Some(1), 1, None)
    );
    // The error says which server leads, and nothing is written.
    let refused = follower.apply(Batch::new().new_node()).unwrap_err();
    assert!(refused.is(ErrorName::NotLeader), "{refused}");
    let named = refused.refusal().unwrap().details["leader"]
        .as_str()
        .unwrap()
        .to_owned();
    assert_eq!(named, led.leader);
    assert!(
        named.ends_with(&format!(":{}", members[0].server.socket().display())),
        "{named}"
    );
    assert!(follower
        .call::<Nothing>(Command::Compact(Nothing {}))
        .unwrap_err()
        .is(ErrorName::NotLeader));
    // Once the wait ends, the entry is visible.
    for count in 1..=50 {
        let written = leader.apply(&set_count(count)).unwrap();
        let status = follower.wait_for_entry(count + 1, Duration::from_secs(60)).unwrap();
        assert!(status.entry > count && status.entry - status.commit == count + 1 - written.number);
        let found = follower.get(1, "count").unwrap().and_then(|value| value.as_u64());
        assert!(found >= Some(count));
    }
    // Waiting for an entry that never arrives takes the full time. No snapshot is held during the wait.
    let late = follower.wait_for_entry(99, Duration::from_millis(20)).unwrap_err();
    let details = &late.refusal().unwrap().details;
    assert!(
        late.is(ErrorName::NotReached) && details["expected"] == 99 && details["found"] == 51,
        "{late}"
    );
    assert!(follower
        .wait_for_entry(1, Duration::from_secs(61))
        .unwrap_err()
        .is(ErrorName::BadRequest));
    follower.pin().unwrap();
    assert!(follower
        .wait_for_entry(1, Duration::ZERO)
        .unwrap_err()
        .is(ErrorName::Pinned));
    follower.log().unwrap();
    follower.unpin().unwrap();
    // A follower pushes its live queries' changes.
    follower.watch(None).unwrap();
    leader.apply(&set_count(51)).unwrap();
    assert!(follower.next_push(Duration::from_secs(60)).unwrap().is_some());
    // A leader that ends normally hands over the lead.
    assert!(members[0].server.end_by("TERM").success(), "{}", members[0].said());
    wait_until("the follower leads", || members[1].leads());
    follower.apply(&set_count(52)).unwrap();
    assert_eq!(follower.log().unwrap().term, Some(2));
}

#[test]
fn the_leaders_name_contains_the_socket_that_systemd_has_passed() {
    let database = present!(database());
    let folder = Folder::new();
    let (socket, url) = (folder.join("passed"), database.url());
    let options = ["--log", url.as_str(), "--pages", "64", "--passes", "4"];
    let mut server = present!(activated(&socket, &options));
    wait_until("the socket is there", || UnixStream::connect(&socket).is_ok());
    let status = Client::connect(&socket).and_then(|mut client| client.log());
    server.kill().unwrap();
    server.wait().unwrap();
    let leader = status.unwrap().leader;
    assert!(leader.ends_with(&format!(":{}", socket.display())), "{leader}");
}

#[test]
fn a_follower_lives_on_beside_a_client_that_reads_nothing() {
    let database = present!(database());
    let leader = Member::start(&database, "--log");
    let mut client = leader.client();
    slow::begin(&leader.server);
    let follower = Member::start(&database, "--follow");
    let first = client.log().unwrap().entry;
    follower.client().wait_for_entry(first, SOON).unwrap();
    let mut talk = slow::pinned(&follower.server);
    let mut batch = Batch::new();
    batch.set(1, "text0", 0_u64);
    // Before the last of these writes, the follower has used all of its pages.
    for _ in 0..300 {
        client.apply(&batch).unwrap();
    }
    follower.client().wait_for_entry(first + 300, SOON).unwrap();
    slow::check_replies(&mut talk);
}

#[test]
fn a_wrong_outcome_is_named_with_its_entry() {
    let database = present!(database());
    let leader = Member::start(&database, "--log");
    let mut client = leader.client();
    for _ in 0..8 {
        client.apply(Batch::new().new_node()).unwrap();
    }
    // The first follower is already running, and is stopped while the log changes. The others start later.
    let follower = Member::start(&database, "--follow");
    follower.client().wait_for_entry(8, Duration::from_secs(60)).unwrap();
    follower.server.stop();
    // PostgreSQL answers a query that the follower has already sent before the log changes.
    thread::sleep(Duration::from_millis(500));
    for _ in 0..3 {
        client.apply(Batch::new().new_node()).unwrap();
    }
    database.sql("UPDATE bestore_entry SET batch = set_byte(batch, 6, 99) WHERE number = 10");
    follower.server.signal("CONT");
    let why = "entry 10 of the log: it contains something that no store wrote: it makes different nodes here";
    let said = follower.end();
    assert!(said.contains(why), "{said}");
    let said = Member::start(&database, "--follow").end();
    assert!(said.contains(why), "{said}");
    // Each case makes the log invalid: with bytes that aren't a batch, an entry that the store refuses, or a missing entry.
    for (change, why) in [
        (
            "UPDATE bestore_entry SET batch = 'BEC' WHERE number = 5",
            "entry 5 of the log: it contains something that no store wrote",
        ),
        (
            "UPDATE bestore_entry SET batch = set_byte(batch, 5, 1) WHERE number = 4",
            "entry 4 of the log: it contains something that no store wrote",
        ),
        (
            "DELETE FROM bestore_entry WHERE number = 3",
            "entry 3 of the log: it contains something that no store wrote: the entry is missing",
        ),
        (
            "DELETE FROM bestore_entry",
            "entry 1 of the log: it contains something that no store wrote: the entry is missing",
        ),
    ] {
        database.sql(change);
        let said = Member::start(&database, "--follow").end();
        assert!(said.contains(why), "{said}");
    }
}

#[test]
fn a_leader_that_was_away_adds_nothing() {
    for is_next_one_killed in [false, true] {
        if let Some(database) = database() {
            leave_leader(&database, is_next_one_killed);
        }
    }
}

/// Stops a leader while a client is waiting for a write. Resumes it after another server has become the leader and, if
/// `is_next_one_killed`, has been killed.
fn leave_leader(database: &Database, is_next_one_killed: bool) {
    let old = Member::start(database, "--log");
    old.client()
        .apply(Batch::new().new_node().set(1, "count", 0_u64))
        .unwrap();
    let new = Member::start(database, "--follow");
    new.client().wait_for_entry(1, Duration::from_secs(60)).unwrap();
    let mut waiting = old.client();
    waiting.log().unwrap();
    old.server.stop();
    let sent = waiting.send(Command::Batch(Write {
        operations: set_count(1).into(),
        ..Write::default()
    }));
    database.sql(&format!("SELECT pg_terminate_backend(pid) {OF_LEADER}"));
    wait_until("the follower leads", || new.leads());
    let mut client = new.client();
    client.apply(&set_count(2)).unwrap();
    if is_next_one_killed {
        new.server.kill();
    }
    old.server.signal("CONT");
    let answer = waiting.receive::<Written>(sent.unwrap());
    assert!(answer.is_err(), "{answer:?}");
    // It discards the write and follows.
    wait_until("the old leader begins again", || {
        old.said().contains("leads the log now")
    });
    let said = old.said();
    assert!(said.contains("1 writes"), "{said}");
    assert_eq!(
        database.sql("SELECT last, count(*) FROM bestore_log, bestore_entry GROUP BY last"),
        "2|2"
    );
    let new = match is_next_one_killed {
        true => new.follow_again(database),
        false => new,
    };
    let members = [old, new];
    let leader = leader_of(&members);
    check_all_alike(&members, leader);
    assert_eq!(count_of(&members[leader]), Some(2));
    if !is_next_one_killed {
        // A server can't start as the leader of a log that already has one.
        assert_eq!(leader, 1);
        let said = Member::start(database, "--log").end();
        assert!(said.contains(" already leads the log; use --follow"), "{said}");
    }
}

#[test]
fn a_leader_without_its_term_adds_nothing() {
    let database = present!(database());
    let leader = Member::start(&database, "--log");
    let mut client = leader.client();
    client.apply(Batch::new().new_node().set(1, "count", 0_u64)).unwrap();
    // The leader's session continues, and still holds the lock.
    database.sql("UPDATE bestore_log SET term = term + 1, leader = 'another', run = 'another'");
    client.apply(&set_count(1)).unwrap_err();
    // It discards the write, and leads again, since no other server does.
    wait_until("it leads in a new term", || {
        status(&leader.server).map_or(false, |status| status.term == Some(3))
    });
    let said = leader.said();
    assert!(said.contains("another leads the log now"), "{said}");
    assert_eq!(count_of(&leader), Some(0));
    let found = database.sql("SELECT last, count(*) FROM bestore_log, bestore_entry GROUP BY last");
    assert_eq!(found, "1|1");
}

#[test]
fn a_request_or_a_reply_of_the_database_is_lost() {
    let database = present!(database());
    let proxy = Proxy::start(database.postgres.port);
    let leader = Member::start_at(Folder::in_memory(), &database.url_at(proxy.port), "--log");
    let mut client = leader.client();
    client.apply(Batch::new().new_node().set(1, "count", 0_u64)).unwrap();
    for count in 1..=6 {
        proxy.lose(if count % 2 == 0 { Lost::Requests } else { Lost::Replies });
        // The write waits, and is made exactly once.
        let written = client.apply(Batch::new().new_node().set(1, "count", count)).unwrap();
        assert_eq!(written.nodes, [count + 1]);
        assert!(proxy.has_lost());
    }
    assert_eq!(client.log().unwrap().entry, 7);
    let found = database.sql("SELECT last, count(*), max(number) FROM bestore_log, bestore_entry GROUP BY last");
    assert_eq!(found, "7|7|7");
    let follower = Member::start(&database, "--follow");
    check_all_alike(&[leader, follower], 0);
}

#[test]
fn live_queries_get_what_was_written_while_the_log_could_not_be() {
    let database = present!(database());
    let proxy = Proxy::start(database.postgres.port);
    let leader = Member::start_at(Folder::in_memory(), &database.url_at(proxy.port), "--log");
    let (mut client, mut watching) = (leader.client(), leader.client());
    watching.watch(None).unwrap();
    // The last write either reaches the log once the log can be written to again, or is already there and only the reply was lost.
    for lost in [Lost::Requests, Lost::Replies] {
        client.apply(Batch::new().new_node()).unwrap();
        proxy.lose(lost);
        let writing = thread::spawn(move || {
            let refused = client.apply(Batch::new().new_node()).unwrap_err();
            assert!(refused.is(ErrorName::NotSaved), "{refused}");
            // By now the live queries have been refreshed, and they no longer wait for the log.
            thread::sleep(Duration::from_millis(300));
            client
        });
        while !writing.is_finished() {
            if proxy.has_lost() {
                proxy.lose(Lost::Requests);
            }
            thread::sleep(Duration::from_millis(1));
        }
        client = writing.join().unwrap();
        proxy.lose(Lost::Nothing);
        wait_until("the log is written", || client.log().unwrap().trouble.is_none());
        let last = client.log().unwrap().commit;
        while watching
            .next_push(Duration::from_secs(60))
            .unwrap()
            .expect("a push comes")
            .commit
            < last
        {}
    }
}

#[test]
fn the_database_is_started_again_while_clients_write() {
    let database = present!(database_of(Postgres::start()));
    let mut members = vec![Member::start(&database, "--log")];
    let writers = Writers::default();
    writers.begin(&mut members[0].client(), 0);
    members.push(Member::start(&database, "--follow"));
    members[1].client();
    for signal in ["INT", "QUIT"] {
        writers.go_on(&mut members[0].client());
        let errors = writers.write(members[0].server.socket(), || {
            writers.wait_for(8);
            database.postgres.end(signal);
            thread::sleep(Duration::from_millis(300));
            let mut client = members[0].client();
            wait_until("the trouble is known", || client.log().unwrap().trouble.is_some());
            // Leaders and followers still answer reads.
            client.get(1, "count").unwrap().unwrap();
            members[1].client().get(1, "count").unwrap().unwrap();
            database.postgres.begin();
            // The waiting writes get replies, and so do later ones.
            writers.wait_for(32);
            members[0].server.kill();
        });
        assert!(errors.iter().all(|error| error.refusal().is_none()), "{errors:?}");
        wait_until("the follower leads", || members[1].leads());
        let member = members.remove(0);
        members.push(member.follow_again(&database));
        writers.go_on(&mut members[0].client());
        check_all_alike(&members, 0);
    }
}

/// Lets clients write while the database hangs, until the leader has tried to take its lock in another session. Soon after the
/// hang ends, the leader writes again, and no write is lost or made twice.
fn lead_through_a_hang(database: &Database, hang: impl FnOnce(), go_on: impl FnOnce()) {
    let leader = Member::start(database, "--log");
    let writers = Writers::default();
    writers.begin(&mut leader.client(), 0);
    hang();
    let errors = writers.write(leader.server.socket(), || {
        let mut client = leader.client();
        wait_until("the leader asks for its lock", || {
            let trouble = client.log().unwrap().trouble;
            trouble.map_or(false, |trouble| !trouble.contains("reply within"))
        });
        go_on();
        let mut batch = Batch::new();
        batch.set(1, "again", 1_u64);
        wait_within(SOON, "the leader writes again", || client.apply(&batch).is_ok());
        leader.server.kill();
    });
    let mut refusals = errors.iter().filter(|error| error.refusal().is_some());
    assert!(
        refusals.all(|error| error.is(ErrorName::NotSaved) || error.is(ErrorName::Stopped)),
        "{errors:?}"
    );
    let member = leader.follow_again(database);
    wait_until("the follower leads", || member.leads());
    let mut client = member.client();
    writers.go_on(&mut client);
    check_history(&mut client, &nothing());
}

#[test]
fn a_leader_whose_session_hangs_leads_on() {
    let database = present!(database());
    let session = RefCell::default();
    let hang = || {
        wait_until("the session is stopped between two statements", || {
            let leader = database.sql(&format!("SELECT pid {OF_LEADER}"));
            signal(&leader, "STOP");
            let waits_for = database.sql(&format!("SELECT wait_event FROM pg_stat_activity WHERE pid = {leader}"));
            if waits_for != "ClientRead" {
                signal(&leader, "CONT");
            }
            session.replace(leader);
            waits_for == "ClientRead"
        })
    };
    lead_through_a_hang(&database, hang, || signal(&session.borrow(), "CONT"));
}

#[test]
fn a_leader_whose_standby_was_away_leads_on() {
    let database = present!(database_of(Postgres::start()));
    let set = |setting: &str| {
        database.sql(&format!("ALTER SYSTEM {setting}"));
        database.sql("SELECT pg_reload_conf()");
    };
    let hang = || set("SET synchronous_standby_names = 'away'");
    lead_through_a_hang(&database, hang, || set("RESET synchronous_standby_names"));
}

/// Starts a leader with the writers' nodes and this many others.
pub fn leader_with_writers(database: &Database, others: u64) -> (Member, Writers) {
    let leader = Member::start(database, "--log");
    let writers = Writers::default();
    writers.begin(&mut leader.client(), others);
    (leader, writers)
}

#[test]
fn a_full_disk_of_the_database_stops_writes_until_there_is_room() {
    let database = present!(database());
    let (leader, writers) = leader_with_writers(&database, 0);
    let follower = Member::start(&database, "--follow");
    follower.client();
    let fail = "CREATE FUNCTION fail() RETURNS trigger LANGUAGE plpgsql AS $$ BEGIN \
                RAISE EXCEPTION 'could not extend file' USING ERRCODE = 'disk_full'; END $$; \
                CREATE TRIGGER fail BEFORE INSERT ON bestore_entry FOR EACH ROW EXECUTE FUNCTION fail()";
    let errors = writers.write(leader.server.socket(), || {
        writers.wait_for(8);
        database.sql(fail);
    });
    assert!(
        errors
            .iter()
            .all(|error| error.is(ErrorName::NotSaved) || error.is(ErrorName::Stopped)),
        "{errors:?}"
    );
    assert!(
        errors[0].to_string().contains("could not extend file (53100)"),
        "{errors:?}"
    );
    let mut client = leader.client();
    assert!(client.apply(&set_count(0)).unwrap_err().is(ErrorName::Stopped));
    client.get(1, "count").unwrap().unwrap();
    database.sql("DROP TRIGGER fail ON bestore_entry");
    // The writes in memory are added to the log, and the leader continues.
    wait_until("the log is written", || client.log().unwrap().trouble.is_none());
    writers.go_on(&mut client);
    client.apply(Batch::new().new_node()).unwrap();
    check_all_alike(&[leader, follower], 0);
}

#[test]
fn a_server_waits_for_its_database() {
    let database = present!(database_of(Postgres::start()));
    database.postgres.end("INT");
    let [waiting, ended] = [(); 2].map(|()| {
        let member = Member::start(&database, "--log");
        wait_within(SOON, "it says that it waits", || member.said().contains("trying again"));
        member
    });
    assert!(ended.server.end_by("TERM").success(), "{}", ended.said());
    database.postgres.begin();
    waiting.client().apply(Batch::new().new_node()).unwrap();
    assert_eq!(waiting.said().matches("trying again").count(), 1, "{}", waiting.said());
    // If a fault can't go away by itself, the server exits with an error.
    let url = database.url().replace("///test", "///none");
    let said = Member::start_at(Folder::in_memory(), &url, "--log").end();
    assert!(said.contains("does not exist (3D000)"), "{said}");
}

#[test]
fn what_is_no_log_is_refused() {
    let database = present!(database());
    let said = |how: &str| Member::start(&database, how).end();
    assert!(said("--follow").contains("the database has no log; --log makes one"));
    let member = Member::start(&database, "--log");
    member.client().apply(Batch::new().new_node()).unwrap();
    member.server.kill();
    for (change, why) in [
        (
            "UPDATE bestore_log SET format = 3",
            "the log has format 3, and format 2 is the one known here",
        ),
        ("UPDATE bestore_log SET format = 0", "belong to another program"),
        (
            "ALTER TABLE bestore_log RENAME COLUMN format TO size",
            "belong to another program",
        ),
    ] {
        database.sql(change);
        let text = said("--log");
        assert!(text.contains(why), "{text}");
    }
    database.sql("DROP TABLE bestore_log, bestore_state, bestore_entry");
    // A follower exits if its log is replaced or loses entries.
    for (change, why) in [
        (
            "UPDATE bestore_log SET log = 'another'",
            "the database has a different log from before",
        ),
        (
            "UPDATE bestore_log SET last = 1",
            "the log has 1 entries, but this server has 2",
        ),
    ] {
        let leader = Member::start(&database, "--log");
        leader.client().apply(Batch::new().new_node()).unwrap();
        leader.client().apply(Batch::new().new_node()).unwrap();
        let follower = Member::start(&database, "--follow");
        follower.client().wait_for_entry(2, Duration::from_secs(60)).unwrap();
        database.sql(change);
        let (first, second) = (leader.end(), follower.end());
        assert!(first.contains(why) && second.contains(why), "{first}{second}");
        database.sql("DROP TABLE bestore_log, bestore_state, bestore_entry");
    }
    let mut url = command(&member.folder.join("other"), &["--log", "postgresql:///?port=none"]);
    let output = url.output().unwrap();
    assert!(
        String::from_utf8_lossy(&output.stderr).contains("the URL of the log"),
        "{output:?}"
    );
}

#[test]
fn a_server_without_a_log_says_so() {
    let folder = Folder::new();
    let server = Server::start(&folder, &[]);
    let error: Error = server.client().log().unwrap_err();
    assert!(error.is(ErrorName::NoLog));
    let written = server.talk().ask(r#"{"id":1,"batch":{"operations":[["new"]]}}"#);
    assert_eq!(written, r#"{"id":1,"ok":{"commit":1,"nodes":[1]}}"#);
}
