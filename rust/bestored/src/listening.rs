//! The server's socket, which stays when the server begins again with a new store in the same process.

use crate::background::Starter;
use crate::socket::{Place, Socket};
use std::io;
use std::path::PathBuf;

/// The server's socket.
#[derive(Debug)]
pub enum Listening {
    /// The server isn't listening yet. If it runs in the background, a process is waiting until it is.
    Not(Place, Option<Starter>),
    /// The server has listened before, with another store.
    Already(Socket),
}

impl Listening {
    /// Starts listening, and reports this to the process that started the server.
    pub fn begin(self, run: &str) -> io::Result<Socket> {
        let (place, starter) = match self {
            Self::Not(place, starter) => (place, starter),
            Self::Already(socket) => {
                report!("bestored: run {run} listens at the same socket");
                return Ok(socket);
            }
        };
        let path = place.path().map(PathBuf::from);
        let socket = place.listen()?;
        if let (Some(starter), Some(path)) = (starter, &path) {
            starter.listens_at(path)?;
        }
        match path {
            Some(path) => report!("bestored: run {run} listens at {}", path.display()),
            None => report!("bestored: run {run} listens at the socket of systemd"),
        }
        Ok(socket)
    }
}
