//! Tests servers of a log whose connections to the database are cut again and again.

use crate::common::postgres::Database;
use crate::common::proxy::Proxy;
use crate::common::writers::{check_history, nothing, Writers};
use crate::common::{wait_until, Folder};
use crate::log::{check_all_alike, count_of, database, leader_of, set_count, status, Member};
use bestore::Batch;
use bestore_client::{Client, Options};
use std::cell::Cell;
use std::path::Path;
use std::sync::atomic::{AtomicBool, AtomicU64, Ordering::SeqCst};
use std::thread;

/// How often a leader's connection is cut while it has nothing to write, and while clients write.
const CUTS: u32 = 50;

/// A server, and the connection to its database.
struct Pair {
    proxies: [Proxy; 2],
    members: [Member; 2],
}

/// How many connections were cut, and how often the leader stayed the leader.
#[derive(Debug, Default)]
struct Counts {
    cuts: Cell<u32>,
    stayed: Cell<u32>,
}

impl Pair {
    /// Cuts the connections of this server, and waits until it uses the log again. Returns whether it still leads.
    fn cut(&self, number: usize) -> bool {
        let (proxy, member) = (&self.proxies[number], &self.members[number]);
        let before = proxy.count();
        proxy.cut();
        wait_until("it connects again", || proxy.count() > before);
        wait_until("it uses the log", || {
            assert!(member.server.answers(), "{}", member.said());
            status(&member.server).map_or(false, |status| status.trouble.is_none())
        });
        leader_of(&self.members) == number
    }

    /// Cuts the leader's connections once, and counts it.
    fn cut_leader(&self, counts: &Counts) -> bool {
        let stays = self.cut(leader_of(&self.members));
        counts.cuts.set(counts.cuts.get() + 1);
        counts.stayed.set(counts.stayed.get() + u32::from(stays));
        stays
    }

    /// Lets clients write through the leader, while its connections are cut, until it no longer leads or there have been enough cuts.
    fn cut_while_writing(&self, writers: &Writers, counts: &Counts) {
        let leader = &self.members[leader_of(&self.members)];
        writers.go_on(&mut leader.client());
        writers.write(leader.server.socket(), || {
            let mut stays = true;
            while stays && counts.cuts.get() < CUTS {
                writers.wait_for(1);
                stays = self.cut_leader(counts);
            }
            let mut client = leader.client();
            for other in client.clients().unwrap().iter().filter(|other| !other.own) {
                // The client may have left.
                let _ = client.kick(other.client);
            }
        });
    }
}

#[test]
fn no_cut_connection_ends_a_server() {
    let database = present!(database());
    let proxies = [(); 2].map(|()| Proxy::start(database.postgres.port));
    let start = |proxy: &Proxy, how| Member::start_at(Folder::in_memory(), &database.url_at(proxy.port), how);
    let leader = start(&proxies[0], "--log");
    let writers = Writers::default();
    writers.begin(&mut leader.client(), 0);
    let members = [leader, start(&proxies[1], "--follow")];
    assert!(members[1].server.answers(), "{}", members[1].said());
    let pair = Pair { proxies, members };
    let [idle, busy] = [Counts::default(), Counts::default()];
    while idle.cuts.get() < CUTS {
        pair.cut_leader(&idle);
    }
    while busy.cuts.get() < CUTS {
        pair.cut_while_writing(&writers, &busy);
    }
    println!(
        "the leader stayed after {:?} and {:?} of {CUTS} cuts",
        idle.stayed, busy.stayed
    );
    // A follower takes over only after a leader that is slow to come back.
    assert!(idle.stayed.get() + busy.stayed.get() > CUTS, "{idle:?} {busy:?}");
    let leader = leader_of(&pair.members);
    writers.go_on(&mut pair.members[leader].client());
    check_all_alike(&pair.members, leader);
    check_history(&mut pair.members[leader].client(), &nothing());
}

/// How often a leader loses a write, and how many reads each reader makes before each time, at least.
const LOSSES: u64 = 20;
const READS: u64 = 256;

/// The attribute `count` in a write that is lost.
const LOST: u64 = 7;

/// What readers have seen of the attribute `count`.
#[derive(Debug, Default)]
struct Seen {
    reads: AtomicU64,
    most: AtomicU64,
}

/// Ends the readers, even if the test fails.
struct Over<'a>(&'a AtomicBool);

impl Drop for Over<'_> {
    fn drop(&mut self) {
        self.0.store(true, SeqCst);
    }
}

impl Seen {
    /// Reads until the test is over, on a new connection whenever the server has closed the last one.
    fn read(&self, socket: &Path, options: Options, is_over: &AtomicBool) {
        while !is_over.load(SeqCst) {
            let client = options.connect(socket);
            let _ = client.and_then(|mut client| self.read_on(&mut client, is_over));
        }
    }

    fn read_on(&self, client: &mut Client, is_over: &AtomicBool) -> bestore_client::Result<()> {
        while !is_over.load(SeqCst) {
            let count = client.get(1, "count")?.and_then(|value| value.as_u64());
            self.most.fetch_max(count.unwrap_or(0), SeqCst);
            self.reads.fetch_add(1, SeqCst);
        }
        Ok(())
    }
}

/// Lets the leader make a write that never reaches the log: when `is_seen` returns true, the connection breaks, and the term is over.
/// Returns the attribute `count` that the log ends with.
fn lose_write(leader: &Member, proxy: &Proxy, database: &Database, is_seen: impl Fn() -> bool) -> u64 {
    let mut client = leader.client();
    let term = client.log().unwrap().term;
    // The request that adds the entry contains the batch, which begins with these letters.
    proxy.hang_at(Some("BEB"));
    thread::scope(|scope| {
        let lost = scope.spawn(|| client.apply(&set_count(LOST)));
        wait_until("the write is seen", is_seen);
        database.sql("UPDATE bestore_log SET term = term + 1, run = 'another'");
        proxy.hang_at(None);
        proxy.cut();
        assert!(lost.join().unwrap().is_err());
    });
    wait_until("it leads again, in a later term", || {
        status(&leader.server).map_or(false, |status| status.term > term)
    });
    count_of(leader).unwrap()
}

/// Readers see writes that never happen, but not if their reads are confirmed.
#[test]
fn confirmed_reads_show_no_write_that_never_happens() {
    let database = present!(database());
    let proxy = Proxy::start(database.postgres.port);
    let leader = Member::start_at(Folder::in_memory(), &database.url_at(proxy.port), "--log");
    let made = Batch::new().new_node().set(1, "count", 0_u64).clone();
    leader.client().apply(&made).unwrap();
    let mut confirmed = Options::new();
    confirmed.confirmed(true);
    let mut reads = 0;
    for _ in 0..LOSSES {
        let (is_over, seen) = (&AtomicBool::new(false), &[Seen::default(), Seen::default()]);
        thread::scope(|scope| {
            let _over = Over(is_over);
            for (seen, options) in seen.iter().zip([Options::new(), confirmed]) {
                let socket = leader.server.socket();
                scope.spawn(move || seen.read(socket, options, is_over));
            }
            wait_until("they read", || seen.iter().all(|seen| seen.reads.load(SeqCst) >= READS));
            let is_seen = || seen[0].most.load(SeqCst) == LOST;
            assert_eq!(lose_write(&leader, &proxy, &database, is_seen), 0);
        });
        assert_eq!(
            seen[1].most.load(SeqCst),
            0,
            "a confirmed read shows a write that never happened"
        );
        reads += seen[1].reads.load(SeqCst);
    }
    println!("{reads} confirmed reads, and {LOSSES} writes that never happened");
}
