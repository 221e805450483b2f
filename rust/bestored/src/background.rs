//! Runs the server in the background. The command returns once the server is listening.

use crate::os::{self, Process};
use std::io::{self, Read, Write};
use std::os::unix::net::UnixStream;
use std::path::Path;
use std::process::ExitCode;

/// Which of the two processes this is.
#[derive(Debug)]
pub enum Side {
    /// The process that ran the command. It exits with this status.
    Starter(ExitCode),
    /// The server.
    Server(Starter),
}

/// The server's connection to the process that ran the command, which waits to learn where the server listens.
#[derive(Debug)]
pub struct Starter(UnixStream);

/// Creates the server's process, in a session of its own. Must be called while the program has only one thread.
pub fn begin() -> io::Result<Side> {
    let (starter, server) = UnixStream::pair()?;
    match os::fork()? {
        Some(process) => {
            drop(server);
            wait(starter, &process).map(Side::Starter)
        }
        None => {
            drop(starter);
            os::leave_terminal()?;
            Ok(Side::Server(Starter(server)))
        }
    }
}

/// Waits until the server is listening or has ended.
fn wait(mut starter: UnixStream, process: &Process) -> io::Result<ExitCode> {
    let mut said = String::new();
    starter.read_to_string(&mut said)?;
    if !said.is_empty() {
        // If standard output is closed, no one needs the message.
        let _ = writeln!(io::stdout(), "bestored: process {} listens at {said}", process.number());
        return Ok(ExitCode::SUCCESS);
    }
    match process.wait()? {
        // The server has already printed the reason.
        Some(status) if status != 0 => Ok(ExitCode::from(status)),
        _ => Err(io::Error::new(
            io::ErrorKind::Other,
            "a signal ended the server before it listened",
        )),
    }
}

impl Starter {
    /// Reports to the waiting process where the server listens.
    pub fn listens_at(mut self, path: &Path) -> io::Result<()> {
        // If that process has ended, the server keeps running.
        let _ = write!(self.0, "{}", path.display());
        os::leave_errors()
    }
}
