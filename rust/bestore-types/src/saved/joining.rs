//! Makes one file of a folder of volumes of 0.4.0, which kept a shelf of several stores: `0.bestore`, `1.bestore` and so on.
//!
//! The file is written beside the folder, with `-new` after the folder's name. Then the folder is renamed, so that its name ends in `-0.4`,
//! and the file takes its place by another rename. A process that is killed on the way leaves all volumes as they were, and the next opening
//! begins again. Python does the same.

use super::file::{File, Token};
use super::volume::{in_shelf, NotJoined, Volume};
use super::volumes::{count, path_of};
use super::{beside, About, Contents, Error, Result, TOKENS};
use std::fs;
use std::io::ErrorKind;
use std::path::{Path, PathBuf};

/// What is added to the folder's name for the file, until the file has the folder's place, and for the folder from then on.
const NEW: &str = "-new";
const KEPT: &str = "-0.4";

/// A step that has been taken.
#[derive(Clone, Copy, Debug, PartialEq, Eq)]
pub enum Step {
    /// The file is complete, beside the folder.
    Written,
    /// The folder has its new name.
    FolderRenamed,
    /// The file has taken the folder's place.
    FileRenamed,
}

/// Returns whether there is a folder with at least one volume at the path.
pub fn is_shelf(path: &Path) -> Result<bool> {
    Ok(path.is_dir() && count(path)? > 0)
}

/// Makes one file of the volumes if there is a folder of them at the path, or if an earlier call for this path was interrupted. Otherwise,
/// does nothing.
///
/// # Errors
/// [`Error::Exists`] if there is something at the path that the folder would get. [`Error::OtherKind`]; [`Error::NoFile`];
/// [`Error::Folder`]; [`Error::DiskFull`], [`Error::Sqlite`]; the errors of opening a volume's file, in [`Error::OfVolume`].
pub fn join(path: &Path) -> Result<()> {
    join_by_steps(path, &mut |_| {})
}

/// Does what [`join`] does, and calls `done` after each step.
#[doc(hidden)]
pub fn join_by_steps(path: &Path, done: &mut impl FnMut(Step)) -> Result<()> {
    let path = target(path);
    let (new, kept) = (with_ending(&path, NEW), with_ending(&path, KEPT));
    if !exists(&path) && exists(&new) && is_shelf(&kept)? {
        rename(&kept, &path)?;
    }
    if !is_shelf(&path)? {
        return Ok(());
    }
    if exists(&kept) {
        return Err(Error::Exists { path: kept });
    }
    // The volumes stay locked until the file is in its place.
    let volumes = write(&path, &new)?;
    done(Step::Written);
    rename(&path, &kept)?;
    done(Step::FolderRenamed);
    rename(&new, &path)?;
    done(Step::FileRenamed);
    (0..)
        .zip(&volumes)
        .for_each(|(volume, _)| remove_empty_wal(&path_of(&kept, volume)));
    Ok(())
}

/// Removes the WAL that opening this file has made, if nothing is in it. The file must still be locked.
fn remove_empty_wal(path: &Path) {
    let wal = with_ending(path, "-wal");
    if fs::metadata(&wal).map_or(false, |found| found.len() == 0) {
        // A WAL that stays does no harm.
        let _ = fs::remove_file(wal);
    }
}

/// Returns the path that this one leads to, if it is a link. What it leads to may not exist.
fn target(path: &Path) -> PathBuf {
    let linked = fs::read_link(path).map(|linked| path.parent().unwrap_or_else(|| Path::new("")).join(linked));
    let path = linked.unwrap_or_else(|_| path.to_owned());
    match path.canonicalize() {
        Ok(path) => path,
        // Without a slash at its end.
        Err(_) => path.components().collect(),
    }
}

fn with_ending(path: &Path, ending: &str) -> PathBuf {
    let mut path = path.as_os_str().to_owned();
    path.push(ending);
    path.into()
}

fn exists(path: &Path) -> bool {
    path.symlink_metadata().is_ok()
}

/// Renames a file or folder, and waits until its new name is on disk.
fn rename(from: &Path, to: &Path) -> Result<()> {
    fs::rename(from, to).map_err(|error| Error::folder(to, error))?;
    beside::synchronise(beside::parent(to))
}

/// Writes the file with everything that the volumes have. Returns the volumes' files, which are open and locked.
fn write(folder: &Path, new: &Path) -> Result<Vec<File>> {
    let (files, joined) = read_volumes(folder, |path| {
        let file = File::open(path)?;
        // Closing the file leaves it and its WAL as they are.
        file.leave();
        Ok(file)
    })?;
    // What a process that was killed has left.
    for ending in ["", "-wal", "-last"] {
        remove(&with_ending(new, ending))?;
    }
    let file = File::begin_state(new, new)?;
    joined.volume.each_batch(|index, batch| file.add_state(index, batch))?;
    for (number, token) in joined.tokens() {
        file.add_token(number, token)?;
    }
    file.end_state(joined.about())?;
    beside::synchronise(new)?;
    Ok(files)
}

/// Removes a file if it exists.
fn remove(path: &Path) -> Result<()> {
    match fs::remove_file(path) {
        Err(error) if error.kind() != ErrorKind::NotFound => Err(Error::folder(path, error)),
        _ => Ok(()),
    }
}

/// Reads the volume of a folder of volumes without changing them.
pub fn read_volume(folder: &Path) -> Result<Volume> {
    let (_, joined) = read_volumes(folder, File::open_to_read)?;
    Ok(joined.volume)
}

/// Reads what the file would have that opening the folder makes.
pub(super) fn read(folder: &Path) -> Result<Contents> {
    let (_, joined) = read_volumes(folder, File::open_to_read)?;
    let mut state = Vec::new();
    joined.volume.each_batch(|_, batch| {
        state.push(batch.to_vec());
        Ok(())
    })?;
    let (about, entries) = (joined.about(), Vec::new());
    Ok(Contents { about, state, entries })
}

/// What several volumes have together.
#[derive(Default)]
struct Joined {
    volume: Volume,
    /// How many entries the volumes have had together.
    entries: u64,
    /// The volumes' tokens, each with the number of entries that came after it in its volume.
    tokens: Vec<(u64, Token)>,
}

impl Joined {
    fn about(&self) -> About {
        About {
            entries: self.entries,
            next: self.volume.next(),
        }
    }

    /// Returns the tokens of the latest entries, with the numbers of their entries in the joined file. Of the volumes' entries with tokens,
    /// those with fewer entries after them count as later.
    fn tokens(&self) -> impl Iterator<Item = (u64, &Token)> {
        let latest = self.tokens.iter().take(TOKENS).enumerate();
        latest.map(|(place, (_, token))| (self.entries - place as u64, token))
    }

    /// Adds the next volume from its file.
    fn add(&mut self, volume: u32, file: &mut File) -> Result<()> {
        let (read, last) = file.volume(u64::MAX)?;
        let tokens = file.tokens(last)?;
        file.check_end(None, last)?;
        self.volume.join(volume, read).map_err(|error| match error {
            NotJoined::Store(error) => error.into(),
            NotJoined::OtherKind { name, first, second } => Error::OtherKind {
                name,
                first,
                second: (volume, second),
            },
        })?;
        self.entries += last;
        self.tokens.extend(tokens.into_iter().map(|(number, mut token)| {
            token.nodes.iter_mut().for_each(|node| *node = in_shelf(volume, *node));
            (last.saturating_sub(number), token)
        }));
        Ok(())
    }
}

/// Opens each volume's file, and reads it.
fn read_volumes(folder: &Path, open: impl Fn(&Path) -> Result<File>) -> Result<(Vec<File>, Joined)> {
    let (mut files, mut joined) = (Vec::new(), Joined::default());
    for volume in 0..count(folder)? {
        let added = open(&path_of(folder, volume)).and_then(|mut file| {
            joined.add(volume, &mut file)?;
            files.push(file);
            Ok(())
        });
        added.map_err(|error| match error {
            error @ Error::OtherKind { .. } => error,
            error => error.of_volume(volume),
        })?;
    }
    joined.tokens.sort_by_key(|(after, _)| *after);
    Ok((files, joined))
}
