//! `--follow`: writes the changes that inotify(7) reports for the folder. If the server goes away, waits until it is back.

use super::known::Known;
use super::summary::Summary;
use super::walk::{is_of_a_store, Walk, Walked};
use super::Import;
use crate::failure::{complain, Failure};
use crate::output::Output;
use crate::polling::poll;
use inotify::{Event, EventMask, Inotify, WatchDescriptor, WatchMask};
use std::collections::{BTreeMap, HashMap};
use std::ffi::OsStr;
use std::fs;
use std::io::{self, ErrorKind};
use std::os::unix::io::{AsRawFd, RawFd};
use std::path::{Path, PathBuf};
use std::thread;
use std::time::{Duration, Instant};

/// Changes in quick succession are written together, once no further change has occurred for this long.
const QUIET: Duration = Duration::from_millis(60);

/// No change waits longer than this, so that files that change constantly are followed too.
const LONGEST: Duration = Duration::from_millis(400);

/// How long to wait for the second half of a move.
const MOVE: Duration = Duration::from_millis(100);

/// Refused changes are retried after a pause, which doubles each time. These are the shortest and the longest pause.
const PAUSES: (Duration, Duration) = (Duration::from_secs(1), Duration::from_secs(300));

/// If the server is gone, connecting is retried after a pause, which doubles each time. These are the shortest and the longest pause.
const AWAY: (Duration, Duration) = (Duration::from_millis(100), Duration::from_secs(5));

/// The size of the buffer for events, in bytes.
const EVENTS: usize = 1 << 16;

/// The watched folders.
pub struct Watches {
    inotify: Inotify,
    folders: HashMap<WatchDescriptor, PathBuf>,
    root: PathBuf,
}

/// What has happened at a path.
#[derive(Clone, Copy, Debug, Default)]
struct Change {
    /// A file may have come or gone. If the path is a folder, everything below it must be read too.
    is_named: bool,
    /// The file itself may have changed, even if the file system reports the same time as when it was last read: the clock for these times
    /// may tick only every 4 ms.
    is_of_file: bool,
}

/// What has changed since the last write.
#[derive(Debug, Default)]
struct Dirty {
    /// Paths where files were added, changed or removed.
    paths: BTreeMap<PathBuf, Change>,
    /// Whether events were lost, so that the whole folder must be read.
    lost: bool,
    /// Whether the imported folder itself is gone.
    gone: bool,
    /// Moves whose second half hasn't arrived yet.
    moves: Vec<u32>,
    /// Whether the server has sent something unrequested or closed the connection.
    is_server_heard: bool,
}

/// When to retry changes that the store has refused.
#[derive(Debug)]
struct Again {
    due: Option<Instant>,
    pause: Duration,
}

impl Again {
    fn new() -> Self {
        Self {
            due: None,
            pause: PAUSES.0,
        }
    }

    /// Records that the whole folder has been read.
    fn scanned(&mut self, is_refused: bool) {
        self.due = is_refused.then(|| Instant::now() + self.pause);
        self.pause = match is_refused {
            true => (2 * self.pause).min(PAUSES.1),
            false => PAUSES.0,
        };
    }

    /// Records that some files have been read.
    fn stepped(&mut self, is_refused: bool) {
        if is_refused && self.due.is_none() {
            self.due = Some(Instant::now() + self.pause);
        }
    }

    /// Returns how long to wait until the next retry, if anything was refused.
    fn left(&self) -> Option<Duration> {
        self.due.map(|due| due.saturating_duration_since(Instant::now()))
    }

    fn is_due(&self) -> bool {
        self.left() == Some(Duration::ZERO)
    }
}

/// What was found at some paths, and what was known about them before.
#[derive(Default)]
struct Seen {
    walked: Walked,
    known: Vec<(PathBuf, Known)>,
    /// The last path that was read along with everything below it.
    below: Option<PathBuf>,
}

impl Seen {
    /// Returns whether the path was read along with a folder above it. Paths must be passed in ascending order.
    fn has(&self, path: &Path) -> bool {
        self.below.as_ref().map_or(false, |folder| path.starts_with(folder))
    }
}

impl Watches {
    pub fn new(root: &Path) -> Result<Self, Failure> {
        let inotify = Inotify::init().map_err(|error| Failure::Watch(root.into(), error))?;
        Ok(Self {
            inotify,
            folders: HashMap::new(),
            root: root.into(),
        })
    }

    /// Watches a folder. Does nothing if the folder is gone or unreadable.
    pub fn add(&mut self, folder: &Path) -> Result<(), Failure> {
        let mask = WatchMask::CREATE
            | WatchMask::DELETE
            | WatchMask::MOVE
            | WatchMask::MODIFY
            | WatchMask::CLOSE_WRITE
            | WatchMask::ATTRIB
            | WatchMask::DELETE_SELF
            | WatchMask::MOVE_SELF
            | WatchMask::ONLYDIR
            | WatchMask::DONT_FOLLOW
            | WatchMask::EXCL_UNLINK;
        match self.inotify.add_watch(folder, mask) {
            Ok(watch) => {
                self.folders.insert(watch, folder.into());
                Ok(())
            }
            // ENOSPC: the limit on the number of watches has been reached.
            Err(error) if error.raw_os_error() == Some(libc::ENOSPC) => Err(Failure::Watch(folder.into(), error)),
            Err(_) => Ok(()),
        }
    }

    /// Waits for a change or for the server, up to the given time. Then collects changes until there is a pause.
    fn wait(&mut self, server: RawFd, within: Option<Duration>) -> Result<Dirty, Failure> {
        let mut dirty = Dirty {
            is_server_heard: self.wait_readable(server, within),
            ..Dirty::default()
        };
        let mut room = vec![0; EVENTS];
        self.read(&mut room, &mut dirty)?;
        let begun = Instant::now();
        let mut last = begun;
        loop {
            thread::sleep(QUIET / 4);
            if self.read(&mut room, &mut dirty)? {
                last = Instant::now();
            }
            let waits = if dirty.moves.is_empty() { Duration::ZERO } else { MOVE };
            if last.elapsed() >= QUIET.max(waits) || begun.elapsed() >= LONGEST + waits {
                return Ok(dirty);
            }
        }
    }

    /// Waits up to the given time for events or for the server. Returns whether the server has sent something or closed the connection. A
    /// signal may end the wait early.
    fn wait_readable(&self, server: RawFd, within: Option<Duration>) -> bool {
        let [_, of_server] = poll([self.inotify.as_raw_fd(), server].map(|fd| (fd, libc::POLLIN)), within);
        of_server != 0
    }

    /// Reads the available events, and returns whether there were any.
    fn read(&mut self, room: &mut [u8], dirty: &mut Dirty) -> Result<bool, Failure> {
        let events = match self.inotify.read_events(room) {
            Ok(events) => events,
            Err(error) if matches!(error.kind(), ErrorKind::WouldBlock | ErrorKind::Interrupted) => return Ok(false),
            Err(error) => return Err(Failure::Watch(self.root.clone(), error)),
        };
        let mut some = false;
        for event in events {
            some = true;
            if event.mask.contains(EventMask::IGNORED) {
                self.folders.remove(&event.wd);
            }
            let folder = self.folders.get(&event.wd).map(PathBuf::as_path);
            dirty.add(&event, folder, &self.root);
        }
        Ok(some)
    }
}

impl Dirty {
    fn add(&mut self, event: &Event<&OsStr>, folder: Option<&Path>, root: &Path) {
        self.lost |= event.mask.contains(EventMask::Q_OVERFLOW);
        let ends = EventMask::DELETE_SELF | EventMask::MOVE_SELF | EventMask::UNMOUNT;
        let folder = match folder {
            Some(folder) => folder,
            None => return,
        };
        self.gone |= folder == root && event.mask.intersects(ends);
        let path = match event.name {
            Some(name) => folder.join(name),
            None => folder.into(),
        };
        if is_of_a_store(&path) {
            return;
        }
        if event.mask.contains(EventMask::MOVED_FROM) {
            self.moves.push(event.cookie);
        }
        if event.mask.contains(EventMask::MOVED_TO) {
            self.moves.retain(|cookie| *cookie != event.cookie);
        }
        let names = EventMask::CREATE | EventMask::DELETE | EventMask::MOVED_FROM | EventMask::MOVED_TO;
        let is_named = event.mask.intersects(names);
        if is_named {
            // This also changes the modification time of the folder.
            self.paths.entry(folder.into()).or_default();
        }
        let changes = EventMask::MODIFY | EventMask::CLOSE_WRITE | EventMask::ATTRIB;
        let change = self.paths.entry(path).or_default();
        change.is_named |= is_named;
        change.is_of_file |= event.mask.intersects(changes);
    }
}

impl Import<'_> {
    /// Follows the folder until it is gone. `is_refused` is true if the store refused anything during the first scan.
    pub fn follow(&mut self, mut watches: Watches, is_refused: bool, output: &mut Output) -> Result<(), Failure> {
        let mut again = Again::new();
        again.scanned(is_refused);
        loop {
            let summary = match self.turn(&mut watches, &mut again) {
                Err(failure) if failure.is_passing() => self.catch_up(&failure, &mut watches, &mut again)?,
                answer => answer?,
            };
            if self.line.verbose {
                summary.print_fates(output)?;
                output.flush()?;
            }
            summary.complain();
        }
    }

    /// Waits for changes, and writes them.
    fn turn(&mut self, watches: &mut Watches, again: &mut Again) -> Result<Summary, Failure> {
        // If a file is missing, look for it again before removing its node.
        let within = match self.missing.is_empty() {
            true => again.left(),
            false => Some(Duration::ZERO),
        };
        let dirty = watches.wait(self.client.as_raw_fd(), within)?;
        self.look_for_folder(dirty.gone)?;
        if dirty.is_server_heard {
            self.client.hello()?;
        }
        if dirty.lost || again.is_due() {
            let summary = self.scan_again(watches)?;
            again.scanned(summary.is_worth_a_retry());
            return Ok(summary);
        }
        let summary = self.step(watches, dirty)?;
        again.stepped(summary.is_worth_a_retry());
        Ok(summary)
    }

    /// Fails if the imported folder is no longer at its path.
    fn look_for_folder(&self, is_gone: bool) -> Result<(), Failure> {
        match is_gone || fs::symlink_metadata(&self.folder).is_err() {
            true => Err(Failure::Gone(self.folder.clone())),
            false => Ok(()),
        }
    }

    /// Waits until the server is back, and writes what has changed in the meantime.
    fn catch_up(&mut self, failure: &Failure, watches: &mut Watches, again: &mut Again) -> Result<Summary, Failure> {
        self.connect_again(failure, AWAY.0)?;
        let summary = self.scan_until_done(watches, Self::scan)?;
        again.scanned(summary.is_worth_a_retry());
        Ok(summary)
    }

    /// Scans the folder. If the server goes away during the scan, waits until it is back and starts over.
    pub fn scan_until_done(
        &mut self,
        watches: &mut Watches,
        scan: fn(&mut Self, Option<&mut Watches>) -> Result<Summary, Failure>,
    ) -> Result<Summary, Failure> {
        let mut pause = AWAY.0;
        loop {
            match scan(self, Some(watches)) {
                Err(failure) if failure.is_passing() => self.connect_again(&failure, pause)?,
                answer => return answer,
            }
            pause = (2 * pause).min(AWAY.1);
        }
    }

    /// Waits until the server is back, for this long at first, and loads what it knows about the folder.
    fn connect_again(&mut self, failure: &Failure, mut pause: Duration) -> Result<(), Failure> {
        complain(&format!("{failure}; waiting for the server"));
        loop {
            thread::sleep(pause);
            self.look_for_folder(false)?;
            match Self::begin(self.connect, self.line, self.folder.clone()) {
                Err(failure) if failure.is_passing() => pause = (2 * pause).min(AWAY.1),
                again => {
                    *self = again?;
                    complain("the server is back");
                    return Ok(());
                }
            }
        }
    }

    /// Writes the changes at these paths.
    fn step(&mut self, watches: &mut Watches, dirty: Dirty) -> Result<Summary, Failure> {
        let mut seen = Seen::default();
        let mut failed = None;
        let mut before = |folder: &Path| {
            if let Err(failure) = watches.add(folder) {
                failed.get_or_insert(failure);
            }
        };
        let mut walk = Walk {
            before: &mut before,
            device: self.device,
        };
        for (path, change) in dirty.paths {
            if change.is_of_file {
                seen.walked.changed.insert(path.clone());
            }
            if !seen.has(&path) {
                self.see(path, change, &mut walk, &mut seen);
            }
        }
        match failed {
            Some(failure) => Err(failure),
            None => self.update(seen.walked, seen.known),
        }
    }

    /// Reads what is at a path now. A new folder, and one that may be read again, is read along with everything below it.
    fn see(&mut self, path: PathBuf, change: Change, walk: &mut Walk<'_>, seen: &mut Seen) {
        let there = fs::symlink_metadata(&path);
        let is_folder = there.as_ref().map_or(false, fs::Metadata::is_dir);
        let is_same_folder = there.as_ref().map_or(false, |about| self.is_same_folder(&path, about));
        // A change of its mode is a change of the folder itself.
        let was_unread = change.is_of_file && self.take_unread(&path);
        if is_same_folder && !was_unread || !(change.is_named || is_folder) {
            seen.known.extend(self.tree.files.remove_entry(&path));
            seen.walked.add(path, there);
            return;
        }
        seen.known.extend(self.tree.take_below(&path));
        let walked = walk.below(&path);
        seen.walked.found.extend(walked.found);
        seen.walked.unread.extend(walked.unread);
        seen.below = Some(path);
    }

    /// Returns whether something at this path or below couldn't be read when it was last found, and forgets it.
    fn take_unread(&mut self, path: &Path) -> bool {
        let range = self.unread.range(path.to_path_buf()..);
        let below: Vec<PathBuf> = range.take_while(|it| it.starts_with(path)).cloned().collect();
        for path in &below {
            self.unread.remove(path);
        }
        !below.is_empty()
    }

    /// Returns whether the folder at this path is the same folder as before.
    fn is_same_folder(&self, path: &Path, about: &fs::Metadata) -> bool {
        let known = self.tree.files.get(path).and_then(|known| known.identity());
        about.is_dir() && known == Some(super::stat::Stat::from(about).identity)
    }
}

/// Returns a message that explains why no more folders can be watched.
pub fn shown(folder: &Path, error: &io::Error) -> String {
    let folder = crate::text::escaped(&folder.to_string_lossy());
    match error.raw_os_error() {
        Some(libc::ENOSPC) => format!(
            "{folder} can't be watched: there are as many watches as the system allows\n  \
             sudo sysctl fs.inotify.max_user_watches=1048576 allows more"
        ),
        _ => format!("{folder} can't be watched: {error}"),
    }
}

#[cfg(test)]
mod tests {
    use super::*;

    #[test]
    fn pauses_double_while_something_is_refused() {
        let mut again = Again::new();
        again.stepped(false);
        assert_eq!((again.due, again.is_due()), (None, false));
        again.stepped(true);
        let due = again.due;
        again.stepped(true);
        again.stepped(false);
        assert!(due.is_some() && again.due == due);
        for pause in [1, 2, 4, 8, 16, 32, 64, 128, 256, 300, 300] {
            assert_eq!(again.pause, Duration::from_secs(pause));
            again.scanned(true);
            assert!(again.left().is_some() && !again.is_due());
        }
        again.scanned(false);
        assert_eq!((again.due, again.pause), (None, PAUSES.0));
    }
}
