//! The command-line options.

use bestore::Limits;
use bestore_client::SocketPath;
use clap::{value_parser, Arg, ArgAction, ArgGroup, Command};
use std::path::PathBuf;
use std::time::Duration;

/// The maximum number of passes that a store can have.
const MOST_PASSES: u64 = 63;

/// The number of passes that the server needs for itself: one for live queries, and one for clients that connect when all places
/// are taken.
const OWN_PASSES: u64 = 2;

/// The number of passes that a shared log needs.
const LOG_PASSES: u64 = 2;

/// How many bytes are left free on the disk by default, if writes are kept in a file.
const SPARE: u64 = 1 << 20;

/// A log that several machines share, and whether this server starts as its leader.
#[derive(Clone, Debug)]
#[cfg_attr(not(feature = "log"), allow(dead_code))]
pub struct InLog {
    pub url: String,
    pub leads: bool,
    /// The file that contains the password, if one is given.
    pub passfile: Option<PathBuf>,
}

/// The options that the server runs with.
#[derive(Clone, Debug)]
pub struct Options {
    /// The path of the socket, if one was given.
    pub socket: Option<PathBuf>,
    /// Whether the command returns once the server is listening.
    pub background: bool,
    pub keep: Option<PathBuf>,
    pub every: Option<Duration>,
    /// How many bytes to leave free on the disk that holds `keep`.
    pub spare: u64,
    /// The shared log, if the server uses one.
    pub log: Option<InLog>,
    pub pages: u64,
    pub passes: u64,
    pub commits: u64,
    /// If given, how many bytes of entries the journal may hold before its memory is freed.
    pub journal: Option<u64>,
    pub hold: Duration,
    /// The time after which a request is reported as slow.
    pub slow: Option<Duration>,
    /// How long the disk may be overdue with a commit before it counts as one that hangs. Only tests change this.
    pub hung: Duration,
}

fn command() -> Command {
    let number = |name, shown, range: std::ops::RangeInclusive<u64>, default| {
        let parser = value_parser!(u64).range(range);
        Arg::new(name)
            .long(name)
            .value_name(shown)
            .value_parser(parser)
            .default_value(default)
    };
    let path = |name, shown| {
        Arg::new(name)
            .long(name)
            .value_name(shown)
            .value_parser(value_parser!(PathBuf))
    };
    let url = |name, others: &[&'static str]| Arg::new(name).long(name).value_name("URL").conflicts_with_all(others);
    Command::new("bestored")
        .version(env!("CARGO_PKG_VERSION"))
        .about("Shares an attribute store between a user's programs")
        .arg(
            path("socket", "PATH").help(
                "The socket; by default $BESTORE_SOCKET, $XDG_RUNTIME_DIR/bestore/socket or /tmp/bestore-UID/socket",
            ),
        )
        .arg(
            Arg::new("background")
                .long("background")
                .action(ArgAction::SetTrue)
                .help("Returns once the server is listening in the background"),
        )
        .arg(path("keep", "FILE").help("The file that stores the writes"))
        .arg(
            Arg::new("every")
                .long("every")
                .value_name("MS")
                .value_parser(value_parser!(u64).range(1..=3_600_000))
                .requires("keep")
                .help("Replies to writes don't wait for the file: a write reaches it within this time"),
        )
        .arg(
            Arg::new("spare")
                .long("spare")
                .value_name("KIB")
                .value_parser(value_parser!(u64).range(0..=1 << 30))
                .requires("keep")
                .help("Writes stop while the file's disk has less than this free; 1024 by default"),
        )
        .arg(url("log", &["keep", "follow"]).help("Leads a log in PostgreSQL that several machines share"))
        .arg(url("follow", &["keep"]).help("Follows such a log, and takes over when no server leads it"))
        .group(ArgGroup::new("database").args(["log", "follow"]))
        .arg(path("passfile", "FILE").requires("database").help(
            "The password for PostgreSQL, in a line as in .pgpass; otherwise $PGPASSWORD, $PGPASSFILE or ~/.pgpass",
        ))
        .arg(number("pages", "N", 8..=16_777_216, "16384").help("Pages of 4 KiB, which take memory once they are used"))
        .arg(number("passes", "N", 1..=61, "61").help("How many clients may be connected at the same time"))
        .arg(
            number("commits", "N", 1..=u32::MAX.into(), "4294967295")
                .help("How many entries the journal may have in all"),
        )
        .arg(
            Arg::new("journal")
                .long("journal")
                .value_name("KIB")
                .value_parser(value_parser!(u64).range(1..=1 << 30))
                .help("Memory for the journal's entries; by default half the size of the pages, but at least 1024"),
        )
        .arg(
            Arg::new("slow")
                .long("slow")
                .value_name("MS")
                .value_parser(value_parser!(u64).range(1..=3_600_000))
                .help("Reports requests that take longer than this, on standard error"),
        )
        .arg(number("hung", "MS", 1..=3_600_000, "5000").hide(true))
        .arg(number("hold", "SECONDS", 1..=86_400, "60").help("How long a client may keep a snapshot"))
}

impl Options {
    /// Reads the command line. Exits the process after `--help`, `--version` or an error.
    pub fn read() -> Self {
        let read = command().get_matches();
        let number = |name| read.get_one::<u64>(name).copied().unwrap_or_default();
        let in_log = |name, leads| {
            let url = read.get_one::<String>(name).cloned();
            let passfile = read.get_one("passfile").cloned();
            url.map(|url| InLog { url, leads, passfile })
        };
        let log = in_log("log", true).or_else(|| in_log("follow", false));
        let most = MOST_PASSES - OWN_PASSES - log.as_ref().map_or(0, |_| LOG_PASSES);
        Self {
            socket: read.get_one("socket").cloned(),
            background: read.get_flag("background"),
            keep: read.get_one("keep").cloned(),
            every: read.get_one("every").copied().map(Duration::from_millis),
            spare: read.get_one::<u64>("spare").map_or(SPARE, |kib| kib << 10),
            log,
            pages: number("pages"),
            passes: number("passes").min(most),
            commits: number("commits"),
            journal: read.get_one::<u64>("journal").map(|kib| kib << 10),
            hold: Duration::from_secs(number("hold")),
            slow: read.get_one("slow").copied().map(Duration::from_millis),
            hung: Duration::from_millis(number("hung")),
        }
    }

    /// Returns the store's limits.
    pub fn limits(&self) -> Limits {
        Limits {
            pages: self.pages,
            passes: self.passes + OWN_PASSES + self.log.as_ref().map_or(0, |_| LOG_PASSES),
            commits: self.commits,
        }
    }

    /// Returns the path of the socket that the server listens on.
    pub fn socket(&self) -> SocketPath {
        SocketPath::find(self.socket.clone())
    }
}

#[cfg(test)]
mod tests {
    use super::*;

    #[test]
    fn the_command_is_well_made() {
        command().debug_assert();
    }

    /// Asserts that each of these command lines is refused.
    fn assert_refused(lines: &[[&str; 2]]) {
        for arguments in lines {
            let read = command().try_get_matches_from([&["bestored"][..], &arguments[..]].concat());
            assert!(read.is_err(), "{arguments:?}");
        }
    }

    #[test]
    fn numbers_out_of_range_are_refused() {
        assert_refused(&[
            ["--pages", "7"],
            ["--passes", "62"],
            ["--every", "5"],
            ["--spare", "5"],
            ["--hold", "0"],
            ["--slow", "0"],
            ["--journal", "0"],
            ["--passfile", "FILE"],
            ["--slow", "3600001"],
        ]);
    }

    #[test]
    fn writes_are_kept_in_one_place() {
        assert_refused(&[
            ["--log=a", "--keep=b"],
            ["--follow=a", "--keep=b"],
            ["--log=a", "--follow=b"],
        ]);
    }
}
