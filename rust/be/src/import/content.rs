//! A file's attributes in the store.

use super::mail::{self, Side};
use super::stat::{Form, Stat};
use super::types::{Types, UNKNOWN};
use super::walk::Found;
use bestore_types::{Kind, Value};
use crc32fast::Hasher;
use std::borrow::Cow;
use std::collections::BTreeMap;
use std::ffi::OsStr;
use std::fs::{self, File, OpenOptions};
use std::io::{self, Read};
use std::os::unix::ffi::OsStrExt;
use std::os::unix::fs::OpenOptionsExt;
use std::path::Path;

/// The attributes that an import sets and removes. All others belong to the user.
pub const OWN: [&str; 18] = [
    "name",
    "size",
    "last_modified",
    "created",
    "BEOS:TYPE",
    PARENT,
    ROOT,
    NAME,
    STAT,
    XATTRS,
    "MAIL:from",
    "MAIL:name",
    "MAIL:to",
    "MAIL:cc",
    "MAIL:reply",
    "MAIL:subject",
    "MAIL:when",
    "MAIL:status",
];

/// The node of the folder that contains the file.
pub const PARENT: &str = "FILE:parent";
/// The path of an imported folder.
pub const ROOT: &str = "FILE:root";
/// The bytes of a file name that isn't valid UTF-8.
pub const NAME: &str = "FILE:name";
/// Identifies the file, and shows whether it has changed.
pub const STAT: &str = "FILE:stat";
/// The names of the attributes that come from the file's extended attributes, separated by zero bytes.
pub const XATTRS: &str = "FILE:xattrs";

/// The indices that an import creates.
pub const INDICES: [(&str, Kind); 9] = [
    ("name", Kind::Text),
    ("size", Kind::Int64),
    ("last_modified", Kind::Int64),
    ("BEOS:TYPE", Kind::Text),
    ("MAIL:from", Kind::Text),
    ("MAIL:to", Kind::Text),
    ("MAIL:subject", Kind::Text),
    ("MAIL:when", Kind::Int64),
    ("MAIL:status", Kind::Text),
];

/// The maximum number of attributes per node.
pub const MOST: usize = 64;

/// The maximum number of bytes in a value, and in a name.
pub const VALUE: usize = 255;
pub const NAME_LENGTH: usize = 63;

/// The byte before the sum of a file's extended attributes in `FILE:xattrs`; it is in no name. The sum follows the names, which have up to
/// this many bytes. As long as it stays the same, what a user has set on the node since the file was last read is newer than the file.
pub const SUM: u8 = 0xff;
const NAMES: usize = VALUE - 10;

/// How many bytes of a file to read in order to determine its type.
const BEGIN: usize = 1 << 12;

/// A file's attributes, except the one that records its folder.
#[derive(Debug, Default)]
pub struct Content {
    pub values: BTreeMap<String, Value>,
    /// How many extended attributes were left out because the store can't hold them.
    pub left_out: usize,
    /// Whether the file has been moved, replaced or removed since it was found, so that these may be another file's attributes.
    pub is_stale: bool,
    /// Whether some extended attributes couldn't be read.
    pub is_partial: bool,
}

/// Reads the attributes of files.
#[derive(Debug)]
pub struct Reader {
    pub types: Types,
    /// The kinds of the indices, by name.
    pub indices: BTreeMap<String, Kind>,
}

impl Reader {
    /// Reads a file's attributes. Anything that can't be read is left out.
    pub fn content(&self, found: &Found) -> Content {
        let Found { path, stat } = found;
        let mut content = Content::default();
        let mut set = |name: &str, value: Value| content.values.insert(name.into(), value);
        let name = name_in(path);
        let text = name.to_string_lossy();
        set("name", mail::cut(&text).into());
        if let Cow::Owned(_) = text {
            set(NAME, name.as_bytes().into());
        }
        set("size", stat.size.into());
        set("last_modified", stat.modified.into());
        if let Some(created) = stat.created {
            set("created", created.into());
        }
        set(STAT, stat.text().into());
        let (mime, mail) = self.mime(path, stat, &text);
        set("BEOS:TYPE", mail::cut(&mime).into());
        for (name, value) in mail {
            set(name, value);
        }
        if matches!(stat.form, Form::File | Form::Folder) {
            self.add_extended(path, &mut content);
        }
        content.is_stale = match fs::symlink_metadata(path) {
            Ok(now) => stat.is_of_another(&Stat::from(&now)),
            // A file can be found in a folder although its path is too long.
            Err(error) => error.raw_os_error() != Some(libc::ENAMETOOLONG),
        };
        content
    }

    /// Returns the file's type and, if it is a mail, its mail attributes.
    fn mime(&self, path: &Path, stat: &Stat, name: &str) -> (String, Vec<(&'static str, Value)>) {
        if let Some(mime) = stat.form.mime() {
            return (mime.into(), Vec::new());
        }
        let side = path.parent().and_then(Side::of_folder);
        let mime = match side {
            Some(_) => mail::TYPE,
            None => self.mime_of_file(path, name),
        };
        if side.is_none() && mime != "message/rfc822" {
            return (mime.into(), Vec::new());
        }
        let begin = begin_of(path, mail::HEAD).unwrap_or_default();
        (mail::TYPE.into(), mail::attributes(&begin, side, name_in(path)))
    }

    /// Returns the type that the name implies. If it implies no type or several, the content decides.
    fn mime_of_file(&self, path: &Path, name: &str) -> &str {
        match self.types.of_name(name)[..] {
            [mime] => mime,
            ref mimes => match begin_of(path, BEGIN) {
                Ok(begin) => self.types.of_content(mimes, &begin),
                Err(_) => mimes.first().copied().unwrap_or(UNKNOWN),
            },
        }
    }

    /// Adds the file's `user.*` extended attributes.
    pub fn add_extended(&self, path: &Path, content: &mut Content) {
        let (mut listed, mut sum): (Vec<u8>, u32) = (Vec::new(), 0);
        let names = xattr::list(path);
        // Some file systems have no extended attributes.
        let has_failed = |error: &io::Error| error.raw_os_error() != Some(libc::ENOTSUP);
        content.is_partial = names.as_ref().map_or_else(has_failed, |_| false);
        for full in names.into_iter().flatten() {
            let name = match full.as_bytes().strip_prefix(b"user.") {
                Some(name) => name,
                None => continue,
            };
            let bytes = xattr::get(path, &full);
            content.is_partial |= bytes.is_err();
            let extended = bytes.ok().flatten().and_then(|bytes| self.extended(name, bytes));
            sum = extended.iter().map(sum_of).fold(sum, u32::wrapping_add);
            match extended {
                Some((name, value)) if content.values.len() + 3 < MOST => {
                    if !listed.is_empty() {
                        listed.push(0);
                    }
                    listed.extend_from_slice(name.as_bytes());
                    content.values.insert(name, value);
                }
                _ => content.left_out += 1,
            }
        }
        listed.truncate(whole_names(&listed));
        if !listed.is_empty() {
            listed.extend_from_slice(&[0, SUM]);
            listed.extend_from_slice(format!("{sum:08x}").as_bytes());
            content.values.insert(XATTRS.into(), listed.into());
        }
    }

    /// Converts an extended attribute to one that the store can hold, if possible.
    fn extended(&self, name: &[u8], bytes: Vec<u8>) -> Option<(String, Value)> {
        let name = std::str::from_utf8(name).ok()?;
        if OWN.contains(&name) || name.is_empty() || name.len() > NAME_LENGTH {
            return None;
        }
        let value = self.value_of(name, bytes)?;
        Some((name.into(), value))
    }

    /// Converts the bytes to a value. If there is an index with this name, the value has its kind; otherwise it is a string, or raw bytes
    /// if they aren't text.
    fn value_of(&self, name: &str, bytes: Vec<u8>) -> Option<Value> {
        let kind = self.indices.get(name).copied().unwrap_or(Kind::Text);
        if let Some(value) = std::str::from_utf8(&bytes)
            .ok()
            .and_then(|text| Value::integer(kind, text))
        {
            return Some(value);
        }
        match String::from_utf8(bytes) {
            Ok(text) if text.len() <= VALUE && !text.contains('\0') => Some(text.into()),
            Ok(text) if text.len() <= VALUE => Some(text.into_bytes().into()),
            Err(error) if error.as_bytes().len() <= VALUE => Some(error.into_bytes().into()),
            _ => None,
        }
    }
}

/// Returns how many bytes of a list of names fit into a value, before the sum, without cutting a name short.
fn whole_names(listed: &[u8]) -> usize {
    if listed.len() <= NAMES {
        return listed.len();
    }
    listed[..=NAMES].iter().rposition(|byte| *byte == 0).unwrap_or(0)
}

/// Returns the checksum of an extended attribute.
fn sum_of((name, value): &(String, Value)) -> u32 {
    let mut sum = Hasher::new();
    for part in [name.as_bytes(), &[0], &bytes_of(value)] {
        sum.update(part);
    }
    sum.finalize()
}

/// Returns a file's name within its folder. The root folder's name is `/`.
pub fn name_in(path: &Path) -> &OsStr {
    path.file_name().unwrap_or(path.as_os_str())
}

/// Reads up to this many bytes from the start of the file. It doesn't follow symlinks and never blocks: if a FIFO has taken the file's
/// place, it isn't read.
fn begin_of(path: &Path, most: usize) -> io::Result<Vec<u8>> {
    let flags = libc::O_NONBLOCK | libc::O_NOFOLLOW | libc::O_NOCTTY;
    let file: File = OpenOptions::new().read(true).custom_flags(flags).open(path)?;
    let mut begin = Vec::new();
    if file.metadata()?.is_file() {
        file.take(most as u64).read_to_end(&mut begin)?;
    }
    Ok(begin)
}

/// Returns this value as the bytes of an extended attribute. Numbers are written as digits.
pub fn bytes_of(value: &Value) -> Vec<u8> {
    value
        .as_bytes()
        .map_or_else(|| value.to_string().into_bytes(), <[u8]>::to_vec)
}

/// Returns whether two values are equal when their kinds are ignored, since extended attributes have no kinds.
pub fn is_same(one: &Value, other: &Value) -> bool {
    one == other || bytes_of(one) == bytes_of(other)
}

#[cfg(test)]
mod tests {
    use super::*;

    fn reader() -> Reader {
        Reader {
            types: Types::of_machine(),
            indices: [("rating".to_string(), Kind::Int32)].into(),
        }
    }

    #[test]
    fn extended_attributes_have_the_kind_of_their_index() {
        let value = |name: &str, bytes: &[u8]| reader().value_of(name, bytes.to_vec());
        assert_eq!(value("rating", b"5"), Some(5_i32.into()));
        assert_eq!(value("rating", b"five"), Some("five".into()));
        assert_eq!(value("other", b"5"), Some("5".into()));
        assert_eq!(value("other", b"a\0"), Some(b"a\0".to_vec().into()));
        assert_eq!(value("other", b"\xff"), Some(vec![255].into()));
        assert_eq!(value("other", &[b'a'; 255]), Some("a".repeat(255).into()));
        assert_eq!(value("other", &[b'a'; 256]), None);
        assert_eq!(value("other", &[255; 256]), None);
    }

    #[test]
    fn a_list_of_names_is_cut_between_names() {
        assert_eq!(whole_names(b"a\0b"), 3);
        let mut long = vec![b'a'; 240];
        long.extend_from_slice(b"\0bcdefgh");
        assert_eq!(whole_names(&long), 240);
        assert_eq!(whole_names(&[b'a'; 300]), 0);
    }

    #[test]
    fn numbers_and_their_digits_are_the_same() {
        assert!(is_same(&5_i32.into(), &"5".into()));
        assert!(!is_same(&5_i32.into(), &6_i32.into()));
        assert!(!is_same(&vec![1].into(), &vec![2].into()));
    }
}
