//! Folders whose file system isn't mounted now. Their files still exist, so they keep their nodes.

use super::known::Known;
use super::matching::Matched;
use super::stat::{Form, Identity};
use super::walk::Unread;
use super::Import;
use std::collections::{HashMap, HashSet};
use std::io::{Error, ErrorKind};
use std::path::{Path, PathBuf};

/// Why the files in such a folder can't be read, and what removes their nodes.
const UNMOUNTED: &str =
    "the file system that was here isn't mounted, so the nodes of its files are kept; be import --reread removes them";

impl Import<'_> {
    /// Takes out the folders whose file system isn't mounted, and adds them to `unread`. Their nodes, and those of everything below, stay as
    /// they are.
    pub fn without_unmounted(
        &mut self,
        files: Vec<Matched>,
        gone: &[(PathBuf, Known)],
        unread: &mut Vec<Unread>,
    ) -> Vec<Matched> {
        let unmounted = self.unmounted(&files, gone);
        let (kept, files): (Vec<Matched>, Vec<Matched>) =
            files.into_iter().partition(|file| unmounted.contains(&file.found.path));
        for (path, known) in kept.into_iter().filter_map(|file| file.known) {
            let error = Error::new(ErrorKind::Other, UNMOUNTED);
            unread.push(Unread {
                path: path.clone(),
                error,
            });
            self.tree.files.insert(path, known);
        }
        files
    }

    /// Returns the folders that are empty, although a file system was mounted on them and had files when they were last read.
    fn unmounted(&self, files: &[Matched], gone: &[(PathBuf, Known)]) -> HashSet<PathBuf> {
        let folders = files.iter().filter(|file| file.found.stat.form == Form::Folder);
        let is_elsewhere = |file: &&Matched| are_apart(last_identity(file), Some(file.found.stat.identity));
        let folders: Vec<&Matched> = folders.filter(is_elsewhere).collect();
        if folders.is_empty() || self.line.reread {
            return HashSet::new();
        }
        // If the system has given a device another number, these are all of its folders.
        let by_path: HashMap<&Path, &Matched> = files.iter().map(|file| (file.found.path.as_path(), file)).collect();
        let filled: HashSet<&Path> = files.iter().filter_map(|file| file.found.path.parent()).collect();
        let unmounted = folders.into_iter().filter(|file| {
            let path = file.found.path.as_path();
            // Whether a file system was mounted here is shown by the folder above it, which was on another one.
            let above = path.parent().and_then(|above| match by_path.get(above) {
                Some(file) => last_identity(file),
                None => self.tree.files.get(above).and_then(Known::identity),
            });
            are_apart(last_identity(file), above)
                && !filled.contains(path)
                && gone.iter().any(|(lost, _)| lost.starts_with(path))
        });
        unmounted.map(|file| file.found.path.clone()).collect()
    }
}

/// Returns whether both files are known, and on different file systems.
fn are_apart(one: Option<Identity>, other: Option<Identity>) -> bool {
    match (one, other) {
        (Some(one), Some(other)) => !one.is_beside(&other),
        _ => false,
    }
}

/// Returns the identity that a file had when it was last read, if it was at its present path then.
fn last_identity(file: &Matched) -> Option<Identity> {
    let (was, known) = file.known.as_ref()?;
    known.identity().filter(|_| *was == file.found.path)
}
