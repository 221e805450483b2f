//! Updates the store to match the files that were found.

use super::content::{Content, Reader};
use super::edit::{between, keep_extended, place, Edit, Edits, More, OPERATIONS};
use super::known::Known;
use super::matching::{matched, Matched, Matching};
use super::new_files::New;
use super::stat::Form;
use super::summary::{Fate, Summary};
use super::walk::{Found, Unread, Walked};
use super::{bar, Import};
use crate::failure::Failure;
use bestore_client::{Error, ErrorName};
use bestore_types::Batch;
use std::collections::{BTreeMap, HashMap, HashSet};
use std::path::{Path, PathBuf};
use std::thread;

/// How many files are read and written at a time.
const SLICE: usize = 8_192;

/// Why a file isn't written if its folder isn't either.
const NO_FOLDER: &str = "the folder that contains it has no node";

impl Import<'_> {
    /// Writes what was found. If a known file wasn't found, its node is removed only if that happens twice in a row, because a file that is
    /// moved while folders are being read can be missed once at both of its paths.
    pub fn update(&mut self, walked: Walked, known: Vec<(PathBuf, Known)>) -> Result<Summary, Failure> {
        let (found, mut unread) = (walked.found, walked.unread);
        self.refuse_another(&found, &known)?;
        let lost = std::mem::take(&mut self.tree.lost);
        let lost_nodes: Vec<u64> = lost.iter().map(|known| known.node).collect();
        // A file whose folder has no node is recognised by its identity.
        let lost = lost.into_iter().map(|known| (PathBuf::new(), known));
        let missing = std::mem::take(&mut self.missing);
        let missed: HashSet<u64> = missing.iter().map(|(_, known)| known.node).collect();
        let doubles = std::mem::take(&mut self.tree.doubles);
        let known = lost.chain(missing).chain(doubles).chain(known).collect();
        let client = &mut self.client;
        let Matching { files, mut gone } = matched(found, known, |node| match client.attributes(node) {
            Err(error) if error.is(ErrorName::NoNode) => Ok(More::None),
            answer => answer.map(|attributes| More::of(&attributes)),
        })?;
        gone.retain(|(_, known)| !lost_nodes.contains(&known.node));
        move_unread(&mut gone, &files, &unread);
        let files = self.without_unmounted(files, &gone, &mut unread);
        let mut summary = Summary::default();
        self.remove(gone, &missed, &unread, &mut summary)?;
        self.unread.extend(unread.iter().map(|it| it.path.clone()));
        summary.unread = unread;

        let (new, there): (Vec<Matched>, Vec<Matched>) = files.into_iter().partition(|file| file.known.is_none());
        let changed = self.keep_unchanged(there, &walked.changed);
        let new: Vec<Found> = new.into_iter().map(|file| file.found).collect();
        let (folders, files): (Vec<Found>, Vec<Found>) =
            new.into_iter().partition(|found| found.stat.form == Form::Folder);
        for folders in by_depth(folders) {
            self.make(folders, &mut summary)?;
        }
        self.change(changed, &mut summary)?;
        self.make(files, &mut summary)?;
        self.look(&mut summary)?;
        Ok(summary)
    }

    /// Removes the nodes of files that were already missing before. Remembers the other missing files, and those whose nodes the store
    /// refuses to remove. Nodes for anything below an unreadable folder are preserved.
    fn remove(
        &mut self,
        gone: Vec<(PathBuf, Known)>,
        missed: &HashSet<u64>,
        unread: &[Unread],
        summary: &mut Summary,
    ) -> Result<(), Failure> {
        let (kept, gone): (Vec<_>, Vec<_>) = gone
            .into_iter()
            .partition(|(path, _)| unread.iter().any(|it| path.starts_with(&it.path)));
        self.tree.files.extend(kept);
        let (mut gone, missing): (Vec<_>, Vec<_>) =
            gone.into_iter().partition(|(_, known)| missed.contains(&known.node));
        self.missing = missing;
        // The contents of a folder are removed before the folder.
        gone.sort_unstable_by(|one, other| other.0.cmp(&one.0));
        let edits: Vec<Edits> = gone
            .iter()
            .map(|(path, known)| Edits::remove(path.clone(), known.node))
            .collect();
        let refused = self.write(&edits, summary)?;
        let (unremoved, removed): (Vec<_>, Vec<_>) = gone.into_iter().partition(|(path, _)| refused.contains(path));
        self.unremoved.extend(unremoved);
        removed
            .into_iter()
            .for_each(|(path, _)| summary.add(Fate::Removed, path));
        Ok(())
    }

    /// Adds the files that have nodes to the tree, and returns those that differ from the store or may have changed at these paths.
    fn keep_unchanged(&mut self, files: Vec<Matched>, paths: &HashSet<PathBuf>) -> Vec<Matched> {
        let mut nodes: HashMap<PathBuf, u64> = HashMap::new();
        for file in &files {
            if let Some((_, known)) = &file.known {
                nodes.insert(file.found.path.clone(), known.node);
            }
        }
        let mut changed = Vec::new();
        for file in files {
            let (was, known) = match &file.known {
                Some(known) => known,
                None => continue,
            };
            let parent = match self.is_root(&file.found.path) {
                true => known.parent,
                false => {
                    let folder = file.found.path.parent();
                    folder.and_then(|folder| nodes.get(folder).copied().or_else(|| self.node_at(folder)))
                }
            };
            let is_same = (parent.is_some() || self.is_root(&file.found.path))
                && known.stat == file.found.stat.text()
                && known.parent == parent
                && was.file_name() == file.found.path.file_name()
                && !paths.contains(&file.found.path)
                && !self.line.reread;
            self.tree.files.insert(file.found.path.clone(), known.clone());
            if !is_same {
                changed.push(file);
            }
        }
        changed
    }

    /// Refuses a folder that is empty and isn't the same as before, such as the mount point of an unmounted disk. Otherwise the nodes of
    /// its files would be removed, along with everything that users have set on them.
    fn refuse_another(&self, found: &[Found], known: &[(PathBuf, Known)]) -> Result<(), Failure> {
        let was = known.iter().find(|(path, _)| self.is_root(path));
        match (was, found) {
            (Some((_, was)), [root]) if self.is_root(&root.path) && known.len() > 1 => {
                match was.identity() == Some(root.stat.identity) || self.line.reread {
                    true => Ok(()),
                    false => Err(Failure::Another(self.folder.clone())),
                }
            }
            _ => Ok(()),
        }
    }

    fn is_root(&self, path: &Path) -> bool {
        path == self.folder
    }

    /// Returns the node of the file at this path.
    pub fn node_at(&self, path: &Path) -> Option<u64> {
        self.tree.files.get(path).map(|known| known.node)
    }

    /// Records which folder contains the file. Returns `false` if that folder has no node.
    fn place(&self, path: &Path, known: Option<&Known>, content: &mut Content) -> bool {
        let parent = match self.is_root(path) {
            true => known.and_then(|known| known.parent),
            false => path.parent().and_then(|folder| self.node_at(folder)),
        };
        let root = self.is_root(path).then(|| self.root_value());
        let is_placed = parent.is_some() || root.is_some();
        place(&mut content.values, parent, root);
        is_placed
    }

    /// Updates the nodes of these files.
    fn change(&mut self, files: Vec<Matched>, summary: &mut Summary) -> Result<(), Failure> {
        let progress = bar("changed files", files.len());
        for files in slices(files) {
            let found: Vec<&Found> = files.iter().map(|file| &file.found).collect();
            let (contents, count) = (read(&self.reader, &found), files.len());
            let pairs = files.into_iter().zip(contents);
            // What has been moved or replaced meanwhile is left to the next import.
            let (files, contents): (Vec<Matched>, Vec<Content>) =
                pairs.filter(|(_, content)| !content.is_stale).unzip();
            let (mut all, mut fates) = (Vec::new(), Vec::new());
            for (file, content) in files.iter().zip(contents) {
                let (was, known) = match &file.known {
                    Some(known) => known,
                    None => continue,
                };
                let edits = self.edits_of(&file.found, known, content, summary)?;
                let path = file.found.path.clone();
                if !edits.is_empty() {
                    let fate = if *was == path { Fate::Changed } else { Fate::Renamed };
                    fates.push((fate, path.clone()));
                    all.extend(Edits::parts(&path, known.node, &edits));
                }
            }
            let refused = self.write(&all, summary)?;
            let written = fates.into_iter().filter(|(_, path)| !refused.contains(path));
            written.for_each(|(fate, path)| summary.add(fate, path));
            let kept = files.iter().filter(|file| !refused.contains(&file.found.path));
            kept.for_each(|file| self.keep(&file.found));
            progress.inc(count as u64);
        }
        progress.finish_and_clear();
        Ok(())
    }

    /// Returns the changes that turn the attributes of a file's node into those that were read.
    fn edits_of(
        &mut self,
        found: &Found,
        known: &Known,
        mut content: Content,
        summary: &mut Summary,
    ) -> Result<Vec<Edit>, Failure> {
        summary.xattrs_left += content.left_out;
        self.place(&found.path, Some(known), &mut content);
        let had = match self.client.attributes(known.node) {
            Err(error) if error.is(ErrorName::NoNode) => {
                self.forget(&found.path, known.node, summary);
                return Ok(Vec::new());
            }
            answer => answer?,
        };
        if content.is_partial {
            keep_extended(&had, &mut content.values);
        }
        let is_replaced = known.identity() != Some(found.stat.identity);
        Ok(between(&had, &content.values, is_replaced))
    }

    /// Records what the store now knows about a file.
    fn keep(&mut self, found: &Found) {
        let parent = found.path.parent().and_then(|folder| self.node_at(folder));
        let is_root = self.is_root(&found.path);
        if let Some(known) = self.tree.files.get_mut(&found.path) {
            known.stat = found.stat.text();
            if !is_root {
                known.parent = parent;
            }
        }
    }

    /// Writes changes. Changes to several nodes go into one batch; if that is refused, each node's changes are written individually.
    /// Returns the files for which a change was refused.
    pub fn write(&mut self, edits: &[Edits], summary: &mut Summary) -> Result<HashSet<PathBuf>, Failure> {
        let mut refused = HashSet::new();
        let mut at = 0;
        while at < edits.len() {
            // Writing the file's last part, which has `FILE:stat`, would mean that everything has been written.
            if refused.contains(&edits[at].path) {
                at += 1;
                continue;
            }
            let mut batch = Batch::new();
            let first = at;
            while at < edits.len() && (at == first || batch.len() + edits[at].edits.len() <= OPERATIONS) {
                edits[at].add_to(&mut batch);
                at += 1;
            }
            match self.write_batch(batch) {
                Err(Error::Refused(_)) => refused.extend(self.write_each(&edits[first..at], summary)?),
                answer => answer?,
            }
        }
        Ok(refused)
    }

    fn write_each(&mut self, edits: &[Edits], summary: &mut Summary) -> Result<Vec<PathBuf>, Failure> {
        let mut refused = Vec::new();
        for edit in edits {
            let mut batch = Batch::new();
            edit.add_to(&mut batch);
            match self.write_batch(batch) {
                Err(error) if error.is(ErrorName::NoNode) => self.forget(&edit.path, edit.node, summary),
                Err(error @ Error::Refused(_)) => {
                    summary.refuse(edit.path.clone(), &error);
                    refused.push(edit.path.clone());
                }
                answer => answer?,
            }
        }
        Ok(refused)
    }

    /// Removes a file from the tree because another program has removed its node, unless the file has another node there. If the file still
    /// exists, the next import creates a new node.
    fn forget(&mut self, path: &Path, node: u64, summary: &mut Summary) {
        if self.node_at(path) == Some(node) {
            self.tree.files.remove(path);
            summary.miss();
        }
    }

    /// Writes a batch, split into several if it has too many operations.
    fn write_batch(&mut self, batch: Batch) -> Result<(), Error> {
        crate::server::apply(&mut self.client, &batch)
    }

    /// Creates nodes for these files.
    fn make(&mut self, files: Vec<Found>, summary: &mut Summary) -> Result<(), Failure> {
        let progress = bar("new files", files.len());
        for files in slices(files) {
            let found: Vec<&Found> = files.iter().collect();
            let contents = read(&self.reader, &found);
            let mut new = Vec::new();
            for (found, mut content) in files.iter().zip(contents) {
                // A folder gets its node all the same, because its contents may already be there again.
                if content.is_stale && found.stat.form != Form::Folder {
                    continue;
                }
                match self.place(&found.path, None, &mut content) {
                    true => {
                        summary.xattrs_left += content.left_out;
                        let (path, values) = (found.path.clone(), content.values);
                        new.push(New { path, values });
                    }
                    false if self.new_files.is_full => summary.left += 1,
                    // The folder's node was refused, or another program has removed it.
                    false => summary.refused.push((found.path.clone(), NO_FOLDER.into())),
                }
            }
            let stats: HashMap<&Path, String> = files.iter().map(|it| (it.path.as_path(), it.stat.text())).collect();
            let made = self
                .new_files
                .make(&mut self.client, new, &|count| progress.inc(count))?;
            summary.left += made.left.len();
            for (path, error) in made.refused {
                summary.refuse(path, &error);
            }
            for (file, node) in made.nodes {
                let parent = file.path.parent().and_then(|folder| self.node_at(folder));
                let parent = parent.filter(|_| !self.is_root(&file.path));
                let stat = stats.get(file.path.as_path()).cloned().unwrap_or_default();
                self.tree.files.insert(file.path.clone(), Known { node, parent, stat });
                summary.add(Fate::New, file.path);
            }
        }
        progress.finish_and_clear();
        Ok(())
    }

    /// Asks the server how full the store is.
    fn look(&mut self, summary: &mut Summary) -> Result<(), Failure> {
        self.new_files.look(&mut self.client)?;
        summary.files = self.tree.files.len();
        summary.pages = self.new_files.pages;
        summary.used = self.new_files.pages - self.new_files.free;
        Ok(())
    }
}

/// Corrects the paths of what was in folders that were moved and can't be read now, so that it counts as unread and not as gone.
fn move_unread(gone: &mut [(PathBuf, Known)], files: &[Matched], unread: &[Unread]) {
    let unread: HashSet<&Path> = unread.iter().map(|it| it.path.as_path()).collect();
    for file in files.iter().filter(|file| unread.contains(file.found.path.as_path())) {
        let was = match &file.known {
            Some((was, _)) if *was != file.found.path => was,
            _ => continue,
        };
        for (path, _) in gone.iter_mut() {
            if let Ok(rest) = path.strip_prefix(was) {
                *path = file.found.path.join(rest);
            }
        }
    }
}

/// Groups folders by depth, the shallowest first.
fn by_depth(folders: Vec<Found>) -> impl Iterator<Item = Vec<Found>> {
    let mut levels: BTreeMap<usize, Vec<Found>> = BTreeMap::new();
    for folder in folders {
        levels.entry(folder.path.components().count()).or_default().push(folder);
    }
    levels.into_values()
}

fn slices<T>(files: Vec<T>) -> impl Iterator<Item = Vec<T>> {
    let mut left = files.into_iter();
    std::iter::from_fn(move || {
        let slice: Vec<T> = left.by_ref().take(SLICE).collect();
        (!slice.is_empty()).then_some(slice)
    })
}

/// Reads files in parallel, using all processors.
fn read(reader: &Reader, files: &[&Found]) -> Vec<Content> {
    let processors = thread::available_parallelism().map_or(1, |count| count.get());
    let part = (files.len() / processors).max(64);
    let read_part = |files: &[&Found]| files.iter().map(|found| reader.content(found)).collect::<Vec<_>>();
    thread::scope(|scope| {
        let parts: Vec<_> = files
            .chunks(part)
            .map(|files| scope.spawn(move || read_part(files)))
            .collect();
        parts
            .into_iter()
            .flat_map(|part| part.join().expect("a reader ends"))
            .collect()
    })
}
