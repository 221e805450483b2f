//! What an import has done, and what it couldn't do.

use super::content::{NAME_LENGTH, VALUE};
use super::walk::Unread;
use crate::command_line::Import as Line;
use crate::failure::{complain, is_passing, message, Failure};
use crate::output::Output;
use crate::text::escaped;
use bestore_client::Error;
use serde::Serialize;
use std::path::{Path, PathBuf};

/// The maximum number of pages in a store.
const MOST_PAGES: u64 = 16_777_216;

/// The maximum number of paths to print for each problem.
const SHOWN: usize = 10;

/// What happened to a file.
#[derive(Clone, Copy, Debug, PartialEq, Eq)]
pub enum Fate {
    New,
    Changed,
    /// Renamed or moved, and perhaps changed.
    Renamed,
    Removed,
}

impl Fate {
    fn word(self) -> &'static str {
        match self {
            Fate::New => "new",
            Fate::Changed => "changed",
            Fate::Renamed => "renamed",
            Fate::Removed => "removed",
        }
    }
}

/// What an import has done.
#[derive(Debug, Default, Serialize)]
pub struct Summary {
    /// The number of files in the store.
    pub files: usize,
    pub new: usize,
    pub changed: usize,
    pub renamed: usize,
    pub removed: usize,
    /// The number of files that didn't fit into the store.
    pub left: usize,
    /// The number of extended attributes that didn't fit into the store.
    pub xattrs_left: usize,
    /// The number of extended attributes written to files.
    pub xattrs_written: usize,
    /// The number of pages in the store, and how many of them are used.
    pub pages: u64,
    pub used: u64,
    #[serde(serialize_with = "count")]
    pub unread: Vec<Unread>,
    /// The files for which the store refused a change, or to which an attribute couldn't be written, with the reasons.
    #[serde(serialize_with = "count")]
    pub refused: Vec<(PathBuf, String)>,
    /// Whether the folder should be read again later, because the store may then accept what it has refused, or because it has lost nodes.
    #[serde(skip)]
    is_passing: bool,
    #[serde(skip)]
    pub fates: Vec<(Fate, PathBuf)>,
}

fn count<T, S: serde::Serializer>(list: &[T], to: S) -> Result<S::Ok, S::Error> {
    to.serialize_u64(list.len() as u64)
}

impl Summary {
    pub fn add(&mut self, fate: Fate, path: PathBuf) {
        match fate {
            Fate::New => self.new += 1,
            Fate::Changed => self.changed += 1,
            Fate::Renamed => self.renamed += 1,
            Fate::Removed => self.removed += 1,
        }
        self.fates.push((fate, path));
    }

    /// Records that the store has refused a change for a file.
    pub fn refuse(&mut self, path: PathBuf, error: &Error) {
        self.is_passing |= is_passing(error);
        self.refused.push((path, message(error)));
    }

    /// Records that another program has removed a file's node, so that the store differs from what this program assumes.
    pub fn miss(&mut self) {
        self.is_passing = true;
    }

    /// Returns whether reading the folder again later may get more into the store.
    pub fn is_worth_a_retry(&self) -> bool {
        self.is_passing || self.left > 0
    }

    /// Combines this summary with that of the next import of the same folder.
    pub fn and_then(self, next: Self) -> Self {
        Self {
            new: self.new + next.new,
            changed: self.changed + next.changed,
            renamed: self.renamed + next.renamed,
            removed: self.removed + next.removed,
            xattrs_left: self.xattrs_left + next.xattrs_left,
            fates: self.fates.into_iter().chain(next.fates).collect(),
            ..next
        }
    }

    /// Returns whether every file is in the store and up to date.
    pub fn is_whole(&self) -> bool {
        self.left == 0 && self.unread.is_empty() && self.refused.is_empty()
    }

    pub fn print(&self, line: &Line, types: &str, output: &mut Output) -> Result<(), Failure> {
        if line.verbose {
            self.print_fates(output)?;
        }
        match line.json {
            true => output.json(self)?,
            false => {
                let Self {
                    files,
                    new,
                    changed,
                    renamed,
                    removed,
                    ..
                } = self;
                let counts = format!("{new} new, {changed} changed, {renamed} renamed, {removed} removed");
                output.line(format!("{files} files: {counts}").as_bytes())?;
                output.line(format!("types from {types}").as_bytes())?;
            }
        }
        self.complain();
        Ok(())
    }

    /// Prints a line for each file that was added, changed or removed.
    pub fn print_fates(&self, output: &mut Output) -> Result<(), Failure> {
        for (fate, path) in &self.fates {
            output.bytes(fate.word().as_bytes())?;
            output.bytes(b" ")?;
            output.path(path)?;
        }
        Ok(())
    }

    /// Prints what is missing from the store.
    pub fn complain(&self) {
        let unread = self.unread.iter().map(|it| (it.path.as_path(), it.error.to_string()));
        complain_of(unread, "can't be read");
        let refused = self.refused.iter().map(|(path, why)| (path.as_path(), why.clone()));
        complain_of(refused, "can't be written");
        if self.xattrs_left > 0 {
            complain(&format!(
                "{} extended attributes were left out: an import sets an attribute with that name itself, the name isn't text of up to \
                 {NAME_LENGTH} bytes, the value has more than {VALUE} bytes or can't be read, or the node has too many attributes",
                self.xattrs_left
            ));
        }
        if self.left > 0 {
            let help = what_helps(self.files, self.left, self.pages, self.used);
            complain(&format!(
                "the store is full: {} files are in it, and {} are not\n  {help}",
                self.files, self.left
            ));
        }
    }
}

/// Returns a message with limits that would be enough for all files, estimated from the files in the store.
fn what_helps(files: usize, left: usize, pages: u64, used: u64) -> String {
    let (files, left) = (files.max(1) as u64, left as u64);
    // Add a tenth, because files differ.
    let needed = (used * (files + left) / files * 11 / 10).max(pages + 1);
    match needed.next_power_of_two() {
        pages if needed <= MOST_PAGES => format!("bestored --pages {pages} has room for all"),
        _ => format!("even the largest store, bestored --pages {MOST_PAGES}, doesn't have room for all"),
    }
}

fn complain_of<'a>(list: impl ExactSizeIterator<Item = (&'a Path, String)>, what: &str) {
    let count = list.len();
    for (path, why) in list.take(SHOWN) {
        complain(&format!("{}: {why}", escaped(&path.to_string_lossy())));
    }
    if count > SHOWN {
        complain(&format!("{count} files {what}; these are the first {SHOWN}"));
    }
}

#[cfg(test)]
mod tests {
    use super::*;

    #[test]
    fn what_helps_has_room_for_all() {
        let check = |files, left, pages, used, enough: u64| {
            let said = what_helps(files, left, pages, used);
            assert_eq!(said, format!("bestored --pages {enough} has room for all"));
        };
        check(100, 100, 1024, 1000, 4096);
        check(100, 10, 1024, 1000, 2048);
        check(14_000, 46_000, 16_384, 16_000, 131_072);
        check(0, 5, 8, 8, 64);
        check(13_000, 12_000_000, 16_384, 16_384, 16_777_216);
        let said = what_helps(13_000, 13_000_000, 16_384, 16_384);
        assert_eq!(
            said,
            "even the largest store, bestored --pages 16777216, doesn't have room for all"
        );
    }
}
