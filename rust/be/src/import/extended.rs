//! `--xattr`: writes the attributes of nodes to extended attributes of their files.

use super::content::{bytes_of, Content, OWN, STAT, XATTRS};
use super::edit::{Edit, Edits};
use super::known::Known;
use super::stat::{Form, Stat};
use super::summary::Summary;
use super::Import;
use crate::failure::Failure;
use bestore_client::ErrorName;
use bestore_types::Value;
use std::collections::BTreeMap;
use std::fs::{self, Metadata};
use std::io::{self, ErrorKind};
use std::os::unix::fs::MetadataExt;
use std::path::{Path, PathBuf};

impl Import<'_> {
    /// Writes the attributes that users have set on nodes to the nodes' files. Attribute `NAME` becomes the extended attribute `user.NAME`.
    pub fn write_extended(&mut self, mut summary: Summary) -> Result<Summary, Failure> {
        let files: Vec<(PathBuf, Known)> = self.tree.files.clone().into_iter().collect();
        let mut edits = Vec::new();
        for (path, known) in files {
            let attributes = match self.client.attributes(known.node) {
                Err(error) if error.is(ErrorName::NoNode) => continue,
                answer => answer?,
            };
            match write_all(&path, &known, &attributes) {
                Ok((written, stat)) => {
                    summary.xattrs_written += written;
                    edits.extend(stat.map(|stat| self.written(path, known.node, stat)));
                }
                // The file has disappeared since it was read.
                Err(error) if error.kind() == ErrorKind::NotFound => {}
                Err(error) => summary.refused.push((path, error.to_string())),
            }
        }
        self.write(&edits, &mut summary)?;
        Ok(summary)
    }

    /// Returns the changes to make to the node once its attributes are in the file.
    fn written(&mut self, path: PathBuf, node: u64, stat: Stat) -> Edits {
        let text = stat.text();
        if let Some(known) = self.tree.files.get_mut(&path) {
            known.stat = text.clone();
        }
        let mut content = Content::default();
        self.reader.add_extended(&path, &mut content);
        let listed = content.values.remove(XATTRS);
        let mut edits = vec![Edit::Set(STAT.into(), text.into())];
        edits.extend(listed.map(|listed| Edit::Set(XATTRS.into(), listed)));
        Edits { path, node, edits }
    }
}

/// Returns the attributes that users have set.
fn users(attributes: &BTreeMap<String, Value>) -> impl Iterator<Item = (&String, &Value)> {
    attributes.iter().filter(|(name, _)| !OWN.contains(&name.as_str()))
}

/// Writes the attributes that the file doesn't have yet. Returns how many it wrote and, if this is all that has changed since the file was
/// read, what the file system then reports about the file. If another file is at this path by now, writes nothing.
fn write_all(path: &Path, known: &Known, attributes: &BTreeMap<String, Value>) -> io::Result<(usize, Option<Stat>)> {
    let before = fs::symlink_metadata(path)?;
    let stat = Stat::from(&before);
    if !matches!(stat.form, Form::File | Form::Folder) || known.identity() != Some(stat.identity) {
        return Ok((0, None));
    }
    let mut written = 0;
    for (name, value) in users(attributes) {
        let bytes = bytes_of(value);
        let name = format!("user.{name}");
        if xattr::get(path, &name)?.as_deref() != Some(&bytes) {
            xattr::set(path, &name, &bytes)?;
            written += 1;
        }
    }
    let after = fs::symlink_metadata(path)?;
    let is_all = written > 0 && known.stat == stat.text() && has_same_content(&before, &after);
    Ok((written, is_all.then(|| Stat::from(&after))))
}

/// Returns whether these are reports about one file, between which its content hasn't changed. Extended attributes don't count as content.
fn has_same_content(before: &Metadata, after: &Metadata) -> bool {
    let of = |about: &Metadata| {
        let modified = (about.mtime(), about.mtime_nsec());
        (about.dev(), about.ino(), about.size(), modified)
    };
    of(before) == of(after)
}
