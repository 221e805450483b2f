//! `import`: creates a node for each file in a folder. A file keeps its node when it is changed, renamed or moved.

pub mod content;
mod edit;
mod encoded_words;
mod extended;
pub mod follow;
mod known;
mod magic;
pub mod mail;
mod matching;
mod new_files;
pub mod stat;
mod summary;
mod types;
mod unmounted;
mod update;
mod walk;

use crate::command_line::Import as Line;
use crate::failure::{complain, message, Failure};
use crate::kind::kind_name;
use crate::output::Output;
use crate::server;
use bestore_client::wire::kind_named;
use bestore_client::{Client, Error, ErrorName};
use bestore_types::{Batch, Kind, Value};
use content::{Reader, INDICES};
use follow::Watches;
use indicatif::{ProgressBar, ProgressStyle};
use known::{Known, Tree};
use new_files::NewFiles;
use std::collections::{BTreeMap, BTreeSet, HashSet};
use std::fs;
use std::os::unix::ffi::OsStrExt;
use std::os::unix::fs::MetadataExt;
use std::path::{Path, PathBuf};
use summary::Summary;
use types::Types;
use walk::Walk;

/// The maximum number of bytes in an imported folder's path, because the path must fit into a value.
const ROOT: usize = 255;

/// The maximum number of times to read the folder while files are missing. In a folder that keeps changing, some may be missing each time.
const SCANS: u32 = 4;

/// Connects to the server.
type Connect<'a> = &'a dyn Fn() -> Result<Client, Failure>;

/// An import of a folder.
pub struct Import<'a> {
    folder: PathBuf,
    connect: Connect<'a>,
    /// If set, only folders on this file system are read.
    device: Option<u64>,
    line: &'a Line,
    client: Client,
    new_files: NewFiles,
    reader: Reader,
    tree: Tree,
    /// Files that weren't at their paths when the paths were last read.
    missing: Vec<(PathBuf, Known)>,
    /// Files that were missing twice in a row but whose nodes the store has refused to remove.
    unremoved: Vec<(PathBuf, Known)>,
    /// Files and folders that couldn't be read when they were last found.
    unread: BTreeSet<PathBuf>,
}

pub fn run(connect: Connect<'_>, line: &Line, output: &mut Output) -> Result<(), Failure> {
    let folder = folder_of(&line.folder)?;
    let mut watches = match line.follow {
        true => Some(Watches::new(&folder)?),
        false => None,
    };
    let mut import = Import::begin(connect, line, folder)?;
    let summary = match &mut watches {
        Some(watches) => import.scan_until_done(watches, Import::scan_first)?,
        None => import.scan_first(None)?,
    };
    summary.print(line, import.reader.types.source(), output)?;
    output.flush()?;
    match watches {
        Some(watches) => import.follow(watches, summary.is_worth_a_retry(), output),
        None => server::all_done(summary.is_whole()),
    }
}

/// Returns the folder's absolute path, with symlinks resolved.
fn folder_of(folder: &Path) -> Result<PathBuf, Failure> {
    let failed = |error| Failure::File(folder.into(), error);
    let whole = fs::canonicalize(folder).map_err(failed)?;
    // Check that it is a readable folder.
    fs::read_dir(&whole).map_err(failed)?;
    match whole.as_os_str().len() <= ROOT {
        true => Ok(whole),
        false => Err(Failure::LongPath(whole)),
    }
}

impl<'a> Import<'a> {
    fn begin(connect: Connect<'a>, line: &'a Line, folder: PathBuf) -> Result<Self, Failure> {
        let mut client = connect()?;
        let indices = make_indices(&mut client)?;
        Ok(Self {
            device: line.one_file_system.then(|| device_of(&folder)).transpose()?,
            tree: Tree::read(&mut client, &folder, &HashSet::new())?,
            new_files: NewFiles::begin(&mut client)?,
            reader: Reader {
                types: Types::of_machine(),
                indices,
            },
            missing: Vec::new(),
            unremoved: Vec::new(),
            unread: BTreeSet::new(),
            folder,
            connect,
            line,
            client,
        })
    }

    /// Reads the whole folder and writes what differs from the store. With `--xattr`, also writes extended attributes.
    fn scan_first(&mut self, watches: Option<&mut Watches>) -> Result<Summary, Failure> {
        let summary = self.scan(watches)?;
        match self.line.xattr {
            true => self.write_extended(summary),
            false => Ok(summary),
        }
    }

    /// Reads the whole folder, and writes what differs from the store.
    fn scan(&mut self, mut watches: Option<&mut Watches>) -> Result<Summary, Failure> {
        let mut summary = self.scan_once(watches.as_deref_mut())?;
        for _ in 1..SCANS {
            if self.missing.is_empty() {
                break;
            }
            summary = summary.and_then(self.scan_once(watches.as_deref_mut())?);
        }
        Ok(summary)
    }

    /// Reloads what the store knows about the folder, and scans the folder. After a refusal, the store may contain more or less than this
    /// program assumes.
    fn scan_again(&mut self, watches: &mut Watches) -> Result<Summary, Failure> {
        self.missing = std::mem::take(&mut self.unremoved);
        let missing = self.missing.iter().map(|(_, known)| known.node).collect();
        self.tree = Tree::read(&mut self.client, &self.folder, &missing)?;
        self.scan(Some(watches))
    }

    fn scan_once(&mut self, mut watches: Option<&mut Watches>) -> Result<Summary, Failure> {
        let progress = spinner("reading the folder");
        let mut failed = None;
        let mut before = |folder: &Path| {
            progress.inc(1);
            if let Some(Err(failure)) = watches.as_mut().map(|watches| watches.add(folder)) {
                failed.get_or_insert(failure);
            }
        };
        let mut walk = Walk {
            before: &mut before,
            device: self.device,
        };
        let mut walked = walk.below(&self.folder);
        if walked.found.is_empty() {
            return Err(Failure::Gone(self.folder.clone()));
        }
        if std::mem::take(&mut self.tree.is_moved) {
            // The store has the folder's earlier path.
            walked.changed.insert(self.folder.clone());
        }
        progress.finish_and_clear();
        if let Some(failure) = failed {
            return Err(failure);
        }
        let known = std::mem::take(&mut self.tree.files).into_iter().collect();
        self.unread.clear();
        self.update(walked, known)
    }

    /// Returns the imported folder's value for `FILE:root`.
    fn root_value(&self) -> Value {
        let path = self.folder.as_os_str();
        path.to_str()
            .map_or_else(|| path.as_bytes().to_vec().into(), |path| path.into())
    }
}

/// Returns the device number of the file system that a folder is on.
fn device_of(folder: &Path) -> Result<u64, Failure> {
    let about = fs::symlink_metadata(folder).map_err(|error| Failure::File(folder.into(), error))?;
    Ok(about.dev())
}

/// Creates the missing indices and adds what is already in the store to them. Returns the kinds of all indices.
fn make_indices(client: &mut Client) -> Result<BTreeMap<String, Kind>, Failure> {
    let kinds = |names: BTreeMap<String, String>| -> BTreeMap<String, Kind> {
        let kind = |(name, kind): (String, String)| kind_named(&kind).map(|kind| (name, kind));
        names.into_iter().filter_map(kind).collect()
    };
    let there = kinds(server::indices(client)?);
    for (name, kind) in INDICES {
        match there.get(name) {
            None => match server::apply(client, Batch::new().make_index(name, kind)) {
                Ok(()) => fill_index(client, name)?,
                // Another import has created it.
                Err(error) if error.is(ErrorName::IndexExists) => {}
                Err(error) => return Err(error.into()),
            },
            Some(other) if *other != kind => complain(&format!(
                "warning: the index {name} holds {}, so it omits each file's {}",
                kind_name(*other),
                kind_name(kind)
            )),
            Some(_) => {}
        }
    }
    Ok(kinds(server::indices(client)?))
}

/// Adds the attributes of existing nodes to a new index. Unchanged files aren't written again, so queries wouldn't find them if the index
/// had been removed since they were imported.
fn fill_index(client: &mut Client, name: &str) -> Result<(), Failure> {
    match client.reindex(name) {
        Ok(_) => {}
        Err(error @ Error::Refused(_)) => complain(&format!(
            "warning: the index {name} may lack earlier nodes, which be reindex {name} adds: {}",
            message(&error)
        )),
        Err(error) => return Err(error.into()),
    }
    Ok(())
}

/// Shows a spinner and a count on a terminal.
fn spinner(what: &'static str) -> ProgressBar {
    let style = ProgressStyle::with_template("{spinner} {msg}: {human_pos} folders").expect("it is a template");
    ProgressBar::new_spinner().with_style(style).with_message(what)
}

/// Shows a progress bar on a terminal.
fn bar(what: &'static str, count: usize) -> ProgressBar {
    let style = ProgressStyle::with_template("{msg} {wide_bar} {human_pos} of {human_len}, {eta} left");
    ProgressBar::new(count as u64)
        .with_style(style.expect("it is a template"))
        .with_message(what)
}
