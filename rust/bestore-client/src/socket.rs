//! Where to find a server's socket, and which users' servers to trust there. The server and all clients follow the same rule.

use crate::{os, Error, Result};
use std::env;
use std::ffi::OsString;
use std::os::unix::net::UnixStream;
use std::path::{Path, PathBuf};

pub use crate::os::{check_path, peer_process, peer_user, user};

/// The path of a server's socket, and whether that path was chosen explicitly.
#[derive(Clone, Debug, PartialEq, Eq)]
pub enum SocketPath {
    /// A path given by an option or by the variable `BESTORE_SOCKET`.
    Named(PathBuf),
    /// The path where servers listen by default, used if no path is given.
    Default(PathBuf),
}

impl SocketPath {
    /// Returns the socket given by the option. Without an option, returns the first of these:
    ///
    /// 1. the path in `BESTORE_SOCKET`, unless it is empty;
    /// 2. `bestore/socket` in the folder `XDG_RUNTIME_DIR`, unless that path is empty or relative;
    /// 3. `/tmp/bestore-UID/socket`, where UID is the effective user ID.
    #[must_use]
    pub fn find(option: Option<PathBuf>) -> Self {
        Self::find_in(option, |name| env::var_os(name), os::user())
    }

    fn find_in(option: Option<PathBuf>, variable: impl Fn(&str) -> Option<OsString>, user: u32) -> Self {
        let path = |name| variable(name).map(PathBuf::from);
        let named = option.or_else(|| path("BESTORE_SOCKET").filter(|path| !path.as_os_str().is_empty()));
        if let Some(named) = named {
            return Self::Named(named);
        }
        let folder = match path("XDG_RUNTIME_DIR").filter(|folder| folder.is_absolute()) {
            Some(folder) => folder.join("bestore"),
            None => format!("/tmp/bestore-{user}").into(),
        };
        Self::Default(folder.join("socket"))
    }

    /// Returns the path of the socket.
    #[must_use]
    pub fn path(&self) -> &Path {
        match self {
            Self::Named(path) | Self::Default(path) => path,
        }
    }

    /// Refuses another user's server at the default path, because anyone can create a socket in the folder for temporary files. Giving a
    /// path means trusting the server there.
    pub(crate) fn check_server(&self, stream: &UnixStream) -> Result<()> {
        let socket = match self {
            Self::Named(_) => return Ok(()),
            Self::Default(socket) => socket.clone(),
        };
        let (server, user) = (peer_user(stream)?, user());
        match server == user || server == 0 {
            true => Ok(()),
            false => Err(Error::OtherUser { socket, server, user }),
        }
    }
}

impl<P: AsRef<Path>> From<P> for SocketPath {
    /// Returns a path that was chosen explicitly.
    fn from(path: P) -> Self {
        Self::Named(path.as_ref().into())
    }
}

#[cfg(test)]
mod tests {
    use super::*;

    /// The values of `BESTORE_SOCKET` and `XDG_RUNTIME_DIR`, and the socket that user 7 gets.
    type Case = (Option<&'static str>, Option<&'static str>, SocketPath);

    fn named(path: &str) -> SocketPath {
        SocketPath::Named(path.into())
    }

    fn default(path: &str) -> SocketPath {
        SocketPath::Default(path.into())
    }

    fn found(option: Option<&str>, socket: Option<&str>, folder: Option<&str>) -> SocketPath {
        let variable = |name: &str| match name {
            "BESTORE_SOCKET" => socket.map(OsString::from),
            "XDG_RUNTIME_DIR" => folder.map(OsString::from),
            _ => None,
        };
        SocketPath::find_in(option.map(PathBuf::from), variable, 7)
    }

    #[test]
    fn each_variable_may_be_set_empty_relative_or_missing() {
        let cases: [Case; 12] = [
            (Some("/a"), Some("/run/user/7"), named("/a")),
            (Some("/a"), Some("run"), named("/a")),
            (Some("/a"), Some(""), named("/a")),
            (Some("/a"), None, named("/a")),
            (Some("a"), Some("/run/user/7"), named("a")),
            (Some("a"), None, named("a")),
            (Some(""), Some("/run/user/7"), default("/run/user/7/bestore/socket")),
            (Some(""), Some(""), default("/tmp/bestore-7/socket")),
            (None, Some("/run/user/7"), default("/run/user/7/bestore/socket")),
            (None, Some("run/user/7"), default("/tmp/bestore-7/socket")),
            (None, Some(""), default("/tmp/bestore-7/socket")),
            (None, None, default("/tmp/bestore-7/socket")),
        ];
        for (socket, folder, expected) in cases {
            assert_eq!(found(None, socket, folder), expected, "{socket:?} {folder:?}");
            assert_eq!(found(Some("b"), socket, folder), named("b"), "{socket:?} {folder:?}");
        }
    }
}
