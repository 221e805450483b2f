//! bestored: one attribute store for a user's programs. `docs/SERVER.md` describes it and its protocol.
//!
//! The program is a library so that fuzz targets can link it. The library makes no promises to other programs.
#![warn(missing_debug_implementations, rust_2018_idioms)]
#![deny(unsafe_code)]

/// Prints a line on standard error.
macro_rules! report {
    ($($text:tt)*) => {
        $crate::report(format_args!($($text)*))
    };
}

mod answer;
mod background;
mod bell;
mod carrying;
mod clients;
mod connection;
mod copy;
mod disk;
mod failure;
mod hang;
pub mod in_process;
mod info;
mod kept;
mod lines;
mod listening;
mod lobby;
#[cfg(feature = "log")]
mod log;
mod memory;
mod meter;
mod notify;
mod options;
mod os;
mod outbox;
mod page;
mod pressure;
mod query;
mod reach;
mod server;
mod socket;
mod text;
mod tokens;
mod watcher;
mod writes;

use background::{Side, Starter};
use bell::Bell;
use copy::Copies;
use kept::{Kept, Opening};
use listening::Listening;
use lobby::Lobby;
use meter::Meter;
use notify::Notifier;
use options::Options;
use pressure::Pressure;
use server::Shared;
use socket::{Place, Socket};
use std::error::Error;
use std::fmt;
use std::fs::File;
use std::io::{self, Write};
use std::path::Path;
use std::process::ExitCode;
use std::sync::{Arc, Mutex};
use tokens::Tokens;

/// Prints a line on standard error. `eprintln` would panic if the line can't be printed, for example on a full disk or after the
/// reader of a pipe has ended.
fn report(line: fmt::Arguments<'_>) {
    let _ = writeln!(io::stderr(), "{line}");
}

/// The command line has an option that can't be used here.
#[derive(Debug)]
struct Unusable(&'static str);

impl fmt::Display for Unusable {
    fn fmt(&self, f: &mut fmt::Formatter<'_>) -> fmt::Result {
        f.write_str(self.0)
    }
}

impl Error for Unusable {}

/// Runs the program with the options from its command line.
pub fn main() -> ExitCode {
    os::save_addresses_if_limited();
    start(Options::read()).unwrap_or_else(|error| {
        report!("bestored: {error}");
        match error.is::<Unusable>() {
            // The status for any other invalid command line. The service manager doesn't restart the server after it.
            true => ExitCode::from(2),
            false => ExitCode::FAILURE,
        }
    })
}

fn start(options: Options) -> Result<ExitCode, Box<dyn Error>> {
    let place = place(&options)?;
    let starter = match options.background {
        false => None,
        true => match background::begin()? {
            Side::Starter(status) => return Ok(status),
            Side::Server(starter) => Some(starter),
        },
    };
    serve(options, place, starter)?;
    Ok(ExitCode::SUCCESS)
}

/// Returns where the server is going to listen.
fn place(options: &Options) -> Result<Place, Box<dyn Error>> {
    match os::passed_socket()? {
        None => Ok(Place::find(&options.socket())?),
        Some(_) if options.socket.is_some() => {
            Err(Unusable("--socket can't be used, because systemd has passed a socket").into())
        }
        Some(_) if options.background => {
            Err(Unusable("--background can't be used, because systemd has passed a socket").into())
        }
        Some(listener) => Ok(Place::Passed(listener)),
    }
}

/// Opens the store, and serves clients until a signal ends the program.
fn serve(mut options: Options, place: Place, starter: Option<Starter>) -> Result<(), Box<dyn Error>> {
    let signals = os::ending_signals()?;
    let mut notifier = Notifier::of_environment();
    let path = place.socket();
    let mut listening = Listening::Not(place, starter);
    while let Some(socket) = serve_once(&options, path.as_deref(), listening, &mut notifier, &signals)? {
        // Another server leads the log now.
        if let Some(log) = &mut options.log {
            log.leads = false;
        }
        listening = Listening::Already(socket);
    }
    Ok(())
}

/// Opens the store, and serves clients until a signal ends the program, or until the server has to begin again. In that case,
/// returns the socket.
fn serve_once(
    options: &Options,
    path: Option<&Path>,
    listening: Listening,
    notifier: &mut Notifier,
    signals: &File,
) -> Result<Option<Socket>, Box<dyn Error>> {
    let run = server::run_text()?;
    let tokens = Arc::new(Tokens::default());
    let opening = Opening {
        options,
        socket: path,
        run: &run,
        tokens: &tokens,
        notifier,
        signals,
    };
    let kept = match notifier.while_loading(|| Kept::open(opening))? {
        Some(kept) => kept,
        None => return Ok(None),
    };
    if let Some(bytes) = options.journal {
        kept.store().set_due_after(bytes);
    }
    let own = kept.pass()?;
    let shared = share(kept, tokens, run, options.clone())?;
    server::run(listening, notifier, signals, shared, own)
}

/// Returns the state that all connections to the server share.
fn share(kept: Kept, tokens: Arc<Tokens>, run: String, options: Options) -> Result<Shared, Box<dyn Error>> {
    let mut visits = kept.pass()?;
    visits.set_retry(pressure::retry());
    Ok(Shared {
        kept,
        tokens,
        watcher: Default::default(),
        pressure: Pressure::new(options.hold),
        clients: Default::default(),
        meter: Meter::new(),
        copies: Copies::new(options.hold),
        carrying: Default::default(),
        again: Bell::new()?,
        lobby: Lobby::new()?,
        is_full: Default::default(),
        not_accepted: Default::default(),
        is_foreign: Default::default(),
        no_thread: Default::default(),
        visits: Mutex::new(visits),
        run,
        options,
    })
}
