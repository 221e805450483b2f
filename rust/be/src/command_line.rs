//! The command line. `docs/be.1` describes the commands.

use crate::kind::Type;
use crate::paths::Place;
use crate::text::visible;
use clap::builder::{OsStringValueParser, TypedValueParser};
use clap::{Args, Parser, Subcommand};
use std::ffi::OsString;
use std::io::{self, Write};
use std::path::PathBuf;
use std::time::Duration;

/// Prints help, or an error of the command line, and exits. In an error, control characters of the arguments are escaped.
pub fn exit(error: &clap::Error) -> ! {
    if !error.use_stderr() {
        error.exit();
    }
    let words = std::env::args_os()
        .skip(1)
        .map(|word| word.to_string_lossy().into_owned());
    // A word may contain line feeds, which the error's own lines have too.
    let escaped = words.fold(error.to_string(), |text, word| match visible(&word) {
        shown if shown == word => text,
        shown => text.replace(&word, &shown),
    });
    let lines: Vec<_> = escaped.split('\n').map(visible).collect();
    // If this fails, there is nothing left to do about it.
    let _ = io::stderr().write_all(lines.join("\n").as_bytes());
    std::process::exit(2)
}

/// The attribute tools of BeOS, for a store that bestored shares
#[derive(Debug, Parser)]
#[command(name = "be", version, disable_help_subcommand = true)]
pub struct CommandLine {
    #[command(flatten)]
    pub server: ServerOptions,
    #[command(subcommand)]
    pub command: Command,
}

#[derive(Clone, Debug, Args)]
pub struct ServerOptions {
    /// The server's socket. The default is $BESTORE_SOCKET, or bestored's own default if that isn't set
    #[arg(long, value_name = "PATH", global = true)]
    pub socket: Option<PathBuf>,
    /// Wait up to this long for a server that is starting
    #[arg(long, value_name = "SECONDS", global = true, value_parser = seconds)]
    pub wait: Option<Duration>,
    /// How long to wait for each reply from the server; 60 by default, and 3,600 for backup and dump
    #[arg(long, value_name = "SECONDS", global = true, value_parser = seconds)]
    pub timeout: Option<Duration>,
}

#[derive(Debug, Subcommand)]
pub enum Command {
    Query(Query),
    Addattr(AddAttribute),
    Catattr(ShowAttribute),
    Listattr(ListAttributes),
    Rmattr(RemoveAttribute),
    Rmnode(RemoveNode),
    Import(Import),
    Mkindex(MakeIndex),
    Lsindex(ListIndices),
    Rmindex(RemoveIndex),
    Reindex(Reindex),
    Status(Status),
    /// Print what the server is doing: how much it writes, and who holds an old snapshot
    Info(Activity),
    /// List the connected clients and what each of them is doing
    Clients(Activity),
    Kick(Kick),
    Backup(Backup),
    /// Print a snapshot of the server as JSON: a line about it, then the batches that recreate it
    Dump,
    Restore(Restore),
}

/// Find nodes
#[derive(Debug, Args)]
pub struct Query {
    /// Also print these attributes of each node
    #[arg(short, long, value_name = "NAMES", value_delimiter = ',')]
    pub columns: Vec<String>,
    /// Print only the first N nodes
    #[arg(short = 'n', long, value_name = "N")]
    pub limit: Option<u64>,
    /// Sort the nodes by their values in this index, lowest first. Nodes without a value in it are omitted
    #[arg(short, long, value_name = "NAME")]
    pub sort: Option<String>,
    /// With --sort, print the highest first
    #[arg(short, long, requires = "sort")]
    pub reverse: bool,
    /// With --sort, continue after the page that --json printed with this cursor
    #[arg(long, value_name = "CURSOR", requires = "sort")]
    pub after: Option<String>,
    /// Print any N of the nodes, whichever are found fastest
    #[arg(long, value_name = "N", conflicts_with_all = ["limit", "sort"])]
    pub any: Option<u64>,
    /// Print only the number of nodes
    #[arg(long, conflicts_with_all = ["columns", "limit", "sort", "any"])]
    pub count: bool,
    /// Print why the query takes as long as it does, instead of the nodes: the ranges of index keys that it walks, with about how many
    /// keys each was estimated to have, and how many it has
    #[arg(long, conflicts_with_all = ["columns", "limit", "sort", "any", "count", "watch", "path", "null"])]
    pub explain: bool,
    /// Keep running, and print nodes that enter the answer as +NODE and nodes that leave it as -NODE
    #[arg(short, long, conflicts_with_all = ["limit", "sort", "any"])]
    pub watch: bool,
    /// Escape control characters even when the output is a pipe or a file
    #[arg(short, long, conflicts_with = "json")]
    pub escape: bool,
    /// Print JSON
    #[arg(long)]
    pub json: bool,
    /// Print the paths of files instead of their nodes
    #[arg(short, long, conflicts_with = "json")]
    pub path: bool,
    /// End each line with a zero byte, for names that contain line feeds
    #[arg(short = '0', long, conflicts_with = "json")]
    pub null: bool,
    /// Print times in columns such as last_modified and MAIL:when as dates
    #[arg(short, long, requires = "columns", conflicts_with = "json")]
    pub dates: bool,
    /// The query, such as 'name=="*.txt" && size>=100'
    #[arg(value_name = "QUERY")]
    pub text: String,
}

/// Set an attribute
#[derive(Debug, Args)]
#[command(
    override_usage = "be addattr [-t TYPE] NAME VALUE NODE...\n       be addattr [-t TYPE] -f FILE NAME NODE...\n       \
                            be addattr [-t TYPE] --new NAME VALUE\n       be addattr [-t TYPE] --new -f FILE NAME"
)]
pub struct AddAttribute {
    /// The type of the value
    #[arg(short, long, value_enum, default_value = "string")]
    pub r#type: Type,
    /// Read the value from a file; - is standard input
    #[arg(short, long, value_name = "FILE")]
    pub file: Option<PathBuf>,
    /// Create a node with the attribute, and print its number
    #[arg(long)]
    pub new: bool,
    /// The name of the attribute
    pub name: String,
    /// The value, if it isn't in a file, and the nodes or files
    #[arg(value_name = "VALUE NODE", allow_negative_numbers = true)]
    pub rest: Vec<OsString>,
}

/// Print an attribute
#[derive(Debug, Args)]
pub struct ShowAttribute {
    /// Print only the value, unchanged
    #[arg(short, long)]
    pub raw: bool,
    /// Print one line of JSON for each node
    #[arg(long, conflicts_with = "raw")]
    pub json: bool,
    /// The name of the attribute
    pub name: String,
    /// The nodes, by number, or the files, by path
    #[arg(required = true, value_name = "NODE", value_parser = places())]
    pub nodes: Vec<Place>,
}

/// List the attributes of nodes
#[derive(Debug, Args)]
pub struct ListAttributes {
    /// Also print the values
    #[arg(short, long)]
    pub long: bool,
    /// Also print the values, in hexadecimal
    #[arg(short = 'x', long)]
    pub hexdump: bool,
    /// Print one line of JSON for each node
    #[arg(long, conflicts_with_all = ["long", "hexdump"])]
    pub json: bool,
    /// The nodes, by number, or the files, by path
    #[arg(required = true, value_name = "NODE", value_parser = places())]
    pub nodes: Vec<Place>,
}

/// Remove an attribute
#[derive(Debug, Args)]
pub struct RemoveAttribute {
    /// The name of the attribute
    pub name: String,
    /// The nodes, by number, or the files, by path
    #[arg(required = true, value_name = "NODE", value_parser = places())]
    pub nodes: Vec<Place>,
}

/// Remove nodes and their attributes
#[derive(Debug, Args)]
pub struct RemoveNode {
    /// The nodes, by number, or the files, by path
    #[arg(required = true, value_name = "NODE", value_parser = places())]
    pub nodes: Vec<Place>,
}

/// Create a node for each file in a folder
#[derive(Debug, Args)]
pub struct Import {
    /// Keep running, and follow changes in the folder
    #[arg(short, long)]
    pub follow: bool,
    /// Write the attributes that were set on nodes to their files as extended attributes
    #[arg(short = 'a', long)]
    pub xattr: bool,
    /// Don't read folders on other file systems
    #[arg(short = 'x', long)]
    pub one_file_system: bool,
    /// Read every file again, even if it hasn't changed
    #[arg(long)]
    pub reread: bool,
    /// Print each file that was added, changed or removed
    #[arg(short, long)]
    pub verbose: bool,
    /// Print the counts as JSON
    #[arg(long)]
    pub json: bool,
    /// The folder
    pub folder: PathBuf,
}

/// Create an index of the attributes that are set from then on
#[derive(Debug, Args)]
pub struct MakeIndex {
    /// The type of the values that the index accepts
    #[arg(short, long, value_enum, default_value = "string")]
    pub r#type: Type,
    /// The name of the attributes to index
    pub name: String,
}

/// List the indices
#[derive(Debug, Args)]
pub struct ListIndices {
    /// Also print their types
    #[arg(short, long)]
    pub long: bool,
    /// Same as --long
    #[arg(short, long)]
    pub verbose: bool,
    /// Print JSON
    #[arg(long)]
    pub json: bool,
}

/// Remove an index
#[derive(Debug, Args)]
pub struct RemoveIndex {
    /// The name of the index
    pub name: String,
}

/// Index attributes that were set before the index was created, by setting them again
#[derive(Debug, Args)]
pub struct Reindex {
    /// The name of the index
    pub name: String,
}

/// Print how full the store is, and who holds an old snapshot
#[derive(Debug, Args)]
pub struct Status {
    /// Print JSON
    #[arg(long)]
    pub json: bool,
}

#[derive(Debug, Args)]
pub struct Activity {
    /// Print JSON
    #[arg(long)]
    pub json: bool,
}

/// Disconnect a client
#[derive(Debug, Args)]
pub struct Kick {
    /// The number of the client, as listed by be clients
    #[arg(value_name = "CLIENT")]
    pub client: u64,
}

/// Write a snapshot of the server to a file that bestored can open
#[derive(Debug, Args)]
pub struct Backup {
    /// Print JSON
    #[arg(long)]
    pub json: bool,
    /// The file, which must not exist yet
    pub file: PathBuf,
}

/// Restore a backup to a server whose store is empty
#[derive(Debug, Args)]
pub struct Restore {
    /// Print JSON
    #[arg(long)]
    pub json: bool,
    /// Restore the file's entries only up to N, for example because a later one is damaged
    #[arg(long, value_name = "N")]
    pub until: Option<u64>,
    /// The backup, or the file of a stopped server
    pub file: PathBuf,
}

/// The longest time that an option accepts, in seconds: a day.
const MOST_SECONDS: f64 = 86_400.0;

/// Parses a time.
fn seconds(text: &str) -> Result<Duration, String> {
    match text.parse() {
        Ok(seconds) if (0.0..=MOST_SECONDS).contains(&seconds) => Ok(Duration::from_secs_f64(seconds)),
        _ => Err(format!("a time can be 0 to {MOST_SECONDS} seconds")),
    }
}

/// Parses a word that identifies a node: digits are the node's number, and anything else is a file's path.
fn places() -> impl TypedValueParser<Value = Place> {
    OsStringValueParser::new().map(Place::from)
}
