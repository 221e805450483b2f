//! Kills servers at random moments while clients write to stores that are kept in files.

use crate::common::writers::{check_history, nothing, Contents, Writers};
use crate::common::{Folder, Random, Server};
use bestore_types::saved;
use std::sync::atomic::{AtomicU64, Ordering::Relaxed};
use std::thread;
use std::time::{Duration, Instant};

/// How long the test goes on killing servers, and how many kills it makes at most. `BESTORED_KILLS` overrides the number of kills.
const TIME: Duration = Duration::from_secs(40);
const KILLS: u64 = 300;

/// How many servers run in parallel, each with its own file and clients. A round spends most of its time waiting.
const SERVERS: u64 = 12;

/// One kill in this many happens while the server is starting. The others happen after it has answered a write.
const STARTING: u64 = 8;

/// For one server in this many, the test replays the whole history. Every server compares the file's entries when it starts.
const REPEATED: u64 = 4;

/// A server's maximum lifetime in µs, from its start or from the first write.
const LIFE: u64 = 15_000;

/// Counts the kills that are still to come, and those made so far.
#[derive(Debug)]
struct Tally {
    begin: Instant,
    left: AtomicU64,
    killed: AtomicU64,
    writing: AtomicU64,
    writes: AtomicU64,
}

impl Tally {
    fn takes_another(&self) -> bool {
        let take = |left: u64| left.checked_sub(1);
        self.begin.elapsed() < TIME && self.left.fetch_update(Relaxed, Relaxed, take).is_ok()
    }
}

/// Returns a server's lifetime: at most `LIFE`, and usually much less.
fn life(random: &mut Random) -> Duration {
    let most = random.below(LIFE) + 1;
    Duration::from_micros(random.below(most))
}

/// A file, and the clients that write to the servers that open it.
struct Kept {
    folder: Folder,
    writers: Writers,
    random: Random,
}

impl Kept {
    fn new(number: u64) -> Self {
        let kept = Self {
            folder: Folder::in_memory(),
            writers: Writers::default(),
            random: Random::new(number),
        };
        kept.writers.begin(&mut kept.start().client(), 0);
        kept
    }

    fn start_only(&self) -> Server {
        let keep = self.folder.join("file");
        let options = ["--pages", "256", "--passes", "16", "--keep", keep.to_str().unwrap()];
        Server::start_only(&self.folder, &options)
    }

    /// Starts a server, which compares each of the file's entries as it opens the file.
    fn start(&self) -> Server {
        let server = self.start_only();
        assert!(server.answers());
        server
    }

    /// Returns the state in the file, with which the journal of the next server begins.
    fn state(&self) -> Contents {
        let path = self.folder.join("file");
        match path.exists() {
            true => saved::read(path).map(|read| (read.about.next, read.state)).unwrap(),
            false => nothing(),
        }
    }

    /// Starts a server, and returns it with what its journal begins with.
    fn start_checked(&self) -> (Server, Contents) {
        let begin = self.state();
        let server = self.start();
        let mut client = server.client();
        self.writers.go_on(&mut client);
        check_history(&mut client, &begin);
        (server, begin)
    }

    /// Starts a server and kills it. Returns whether clients were writing.
    fn kill(&mut self) -> bool {
        let life = life(&mut self.random);
        if self.random.below(STARTING) == 0 {
            let server = self.start_only();
            thread::sleep(life);
            server.kill();
            return false;
        }
        let server = if self.random.below(REPEATED) == 0 {
            self.start_checked().0
        } else {
            let server = self.start();
            self.writers.go_on(&mut server.client());
            server
        };
        let mut is_writing = false;
        self.writers.write(server.socket(), || {
            self.writers.wait_for(1);
            thread::sleep(life);
            is_writing = self.writers.are_writing();
            server.kill();
        });
        is_writing
    }

    /// Checks the last server while clients write, and then checks the file after the server has ended normally.
    fn end(&self) {
        let (server, begin) = self.start_checked();
        self.writers.write(server.socket(), || {
            self.writers.wait_for(8);
            check_history(&mut server.client(), &begin);
            assert!(server.end_by("TERM").success());
        });
        self.start_checked();
    }
}

fn kill_servers(number: u64, tally: &Tally) {
    let mut kept = Kept::new(number);
    while tally.takes_another() {
        let was_writing = kept.kill();
        tally.killed.fetch_add(1, Relaxed);
        tally.writing.fetch_add(was_writing.into(), Relaxed);
    }
    kept.end();
    tally.writes.fetch_add(kept.writers.answered(), Relaxed);
}

#[test]
fn no_answered_write_is_lost_and_none_is_made_twice() {
    let kills = std::env::var("BESTORED_KILLS").ok().and_then(|text| text.parse().ok());
    let kills = kills.unwrap_or(KILLS);
    let tally = &Tally {
        begin: Instant::now(),
        left: kills.into(),
        killed: 0.into(),
        writing: 0.into(),
        writes: 0.into(),
    };
    thread::scope(|scope| {
        for number in 0..SERVERS {
            scope.spawn(move || kill_servers(number, tally));
        }
    });
    let [killed, writing, writes] = [&tally.killed, &tally.writing, &tally.writes].map(|count| count.load(Relaxed));
    let seconds = tally.begin.elapsed().as_secs();
    println!(
        "killed {killed} of {kills} times in {seconds} s, {writing} times while clients were writing; {writes} writes"
    );
    assert!(writing * 2 >= killed && writes > killed);
}
