//! The socket that the server listens on.

use crate::os;
use bestore_client::socket::{check_path, user};
use bestore_client::{Error, Options, SocketPath};
use std::fs::{self, DirBuilder, File, Metadata, OpenOptions};
use std::io::{self, ErrorKind};
use std::os::unix::fs::{DirBuilderExt, FileTypeExt, MetadataExt, OpenOptionsExt};
use std::os::unix::net::UnixListener;
use std::path::{Path, PathBuf};
use std::thread;
use std::time::Duration;

/// How many times to retry, every 0.1 seconds, if another server that is starting holds the lock.
const TRIES: u32 = 50;

/// How long to wait until a server that may be listening accepts a connection.
const FOR_ANSWER: Duration = Duration::from_secs(1);

/// A listening socket. If this program created it, it is removed when dropped.
#[derive(Debug)]
pub struct Socket {
    pub listener: UnixListener,
    made: Option<(PathBuf, (u64, u64))>,
}

/// Where the server is going to listen.
#[derive(Debug)]
pub enum Place {
    /// On the socket that systemd has passed.
    Passed(UnixListener),
    /// At a path where no one is listening yet, in a folder that other users can't change.
    Path(PathBuf),
}

fn wrong(path: &Path, why: impl std::fmt::Display) -> io::Error {
    io::Error::new(ErrorKind::Other, format!("{}: {why}", path.display()))
}

fn identity(file: &Metadata) -> (u64, u64) {
    (file.dev(), file.ino())
}

impl Place {
    /// Checks whether a server can listen at this path. Creates the folder, but not yet the socket.
    pub fn find(socket: &SocketPath) -> io::Result<Self> {
        let path = socket.path();
        check_path(path).map_err(|error| wrong(path, error))?;
        let folder = folder_of(path);
        let opened = match socket {
            SocketPath::Named(_) => open_folder(folder)?,
            SocketPath::Default(_) => open_own_folder(folder)?,
        };
        drop(opened);
        look(path)?;
        Ok(Self::Path(path.into()))
    }

    /// Starts listening, replacing the socket that a dead server left behind. Clients can connect from then on, so the store must
    /// be ready.
    pub fn listen(self) -> io::Result<Socket> {
        match self {
            Self::Passed(listener) => {
                listener.set_nonblocking(true)?;
                Ok(Socket { listener, made: None })
            }
            Self::Path(path) => Socket::make(&path),
        }
    }

    /// Returns the path of the socket, even if systemd has passed it. Returns `None` if it has no path.
    pub fn socket(&self) -> Option<PathBuf> {
        match self {
            Self::Passed(listener) => listener.local_addr().ok()?.as_pathname().map(PathBuf::from),
            Self::Path(path) => Some(path.clone()),
        }
    }

    /// Returns the path where the server is going to listen, unless systemd has passed the socket.
    pub fn path(&self) -> Option<&Path> {
        match self {
            Self::Passed(_) => None,
            Self::Path(path) => Some(path),
        }
    }
}

impl Socket {
    fn make(path: &Path) -> io::Result<Self> {
        let folder = folder_of(path);
        // The lock is held until the function returns.
        let _lock = lock(open_folder(folder)?).map_err(|error| wrong(folder, error))?;
        if look(path)? == Found::Dead {
            fs::remove_file(path)?;
        }
        let bound = os::with_mask(0o177, || UnixListener::bind(path));
        let listener = bound.map_err(|error| wrong(path, error))?;
        listener.set_nonblocking(true)?;
        let made = identity(&fs::symlink_metadata(path)?);
        Ok(Self {
            listener,
            made: Some((path.to_owned(), made)),
        })
    }
}

impl Drop for Socket {
    fn drop(&mut self) {
        if let Some((path, made)) = &self.made {
            if fs::symlink_metadata(path).map_or(false, |found| identity(&found) == *made) {
                let _ = fs::remove_file(path);
            }
        }
    }
}

fn folder_of(path: &Path) -> &Path {
    match path.parent() {
        Some(folder) if !folder.as_os_str().is_empty() => folder,
        _ => Path::new("."),
    }
}

/// Opens the folder, creating it if necessary. Other users must not be able to replace files in it.
fn open_folder(folder: &Path) -> io::Result<File> {
    let opened = open_or_make(folder, 0)?;
    let found = opened.metadata()?;
    if found.uid() != user() && found.uid() != 0 {
        return Err(wrong(
            folder,
            format!(
                "the folder belongs to user {}, and has to belong to user {} or to root",
                found.uid(),
                user()
            ),
        ));
    }
    let (writable, sticky) = (found.mode() & 0o022 != 0, found.mode() & 0o1000 != 0);
    if writable && !sticky {
        return Err(wrong(
            folder,
            "others may write to the folder; chmod go-w removes that permission",
        ));
    }
    Ok(opened)
}

/// Opens the folder of a default path, creating it if necessary. Since anyone could have created it first, it must belong to this
/// user, no one else may write to it, and it must not be a symbolic link.
fn open_own_folder(folder: &Path) -> io::Result<File> {
    let opened = open_or_make(folder, libc::O_NOFOLLOW)?;
    let found = opened.metadata()?;
    if found.uid() != user() {
        return Err(wrong(
            folder,
            format!(
                "the folder belongs to user {}, and has to belong to user {}",
                found.uid(),
                user()
            ),
        ));
    }
    if found.mode() & 0o022 != 0 {
        return Err(wrong(
            folder,
            "others may write to the folder; chmod go-w removes that permission",
        ));
    }
    Ok(opened)
}

fn open_or_make(folder: &Path, flags: libc::c_int) -> io::Result<File> {
    if let Err(error) = DirBuilder::new().mode(0o700).create(folder) {
        if error.kind() != ErrorKind::AlreadyExists {
            return Err(wrong(folder, error));
        }
    }
    let mut options = OpenOptions::new();
    options.read(true).custom_flags(libc::O_DIRECTORY | flags);
    options.open(folder).map_err(|error| match error.raw_os_error() {
        Some(libc::ENOTDIR) => wrong(folder, "it isn't a folder, but a file or a link; name another path"),
        _ => wrong(folder, error),
    })
}

/// Locks the folder, so that servers that start at the same time check for a dead socket one after another.
fn lock(folder: File) -> io::Result<File> {
    for _ in 0..TRIES {
        match os::try_lock(&folder) {
            Err(error) if error.kind() == ErrorKind::WouldBlock => thread::sleep(Duration::from_millis(100)),
            answer => return answer.map(|()| folder),
        }
    }
    Err(io::Error::new(
        ErrorKind::WouldBlock,
        "another program holds the folder's lock",
    ))
}

/// What was found at a path where no one is listening.
#[derive(Clone, Copy, Debug, PartialEq, Eq)]
enum Found {
    Nothing,
    /// A socket that a dead server left behind.
    Dead,
}

fn look(path: &Path) -> io::Result<Found> {
    match fs::symlink_metadata(path) {
        Err(error) if error.kind() == ErrorKind::NotFound => return Ok(Found::Nothing),
        Err(error) => return Err(wrong(path, error)),
        Ok(found) if !found.file_type().is_socket() => {
            return Err(wrong(
                path,
                "there is a file that isn't a socket; remove it, or name another path",
            ))
        }
        Ok(_) => {}
    }
    // A server that accepts no one at the moment, for example because it is stopped, keeps this one waiting only for so long.
    match Options::new().timeout(Some(FOR_ANSWER)).connect(path) {
        Ok(_) | Err(Error::TimedOut(_)) => Err(wrong(path, "a server is listening there")),
        Err(Error::Io(error)) => match error.kind() {
            ErrorKind::ConnectionRefused => Ok(Found::Dead),
            // The server has just ended, and has removed its socket.
            ErrorKind::NotFound => Ok(Found::Nothing),
            _ => Err(wrong(path, error)),
        },
        Err(error) => Err(wrong(path, error)),
    }
}
