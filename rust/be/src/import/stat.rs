//! What the file system reports about a file, and what identifies a file.

use std::fmt::{self, Write as _};
use std::fs::Metadata;
use std::os::unix::fs::{FileTypeExt, MetadataExt};
use std::time::{SystemTime, UNIX_EPOCH};

/// The type of a file.
#[derive(Clone, Copy, Debug, PartialEq, Eq)]
pub enum Form {
    File,
    Folder,
    Link,
    Fifo,
    Socket,
    CharacterDevice,
    BlockDevice,
}

impl Form {
    fn of(about: &Metadata) -> Self {
        let form = about.file_type();
        match () {
            () if form.is_dir() => Form::Folder,
            () if form.is_symlink() => Form::Link,
            () if form.is_fifo() => Form::Fifo,
            () if form.is_socket() => Form::Socket,
            () if form.is_char_device() => Form::CharacterDevice,
            () if form.is_block_device() => Form::BlockDevice,
            () => Form::File,
        }
    }

    /// Returns the MIME type that the Shared MIME-info specification assigns to a file that isn't regular.
    pub fn mime(self) -> Option<&'static str> {
        match self {
            Form::File => None,
            Form::Folder => Some("inode/directory"),
            Form::Link => Some("inode/symlink"),
            Form::Fifo => Some("inode/fifo"),
            Form::Socket => Some("inode/socket"),
            Form::CharacterDevice => Some("inode/chardevice"),
            Form::BlockDevice => Some("inode/blockdevice"),
        }
    }
}

/// Identifies a file regardless of its name, by the device, the inode, and the inode's creation time if the file system records it. When an
/// inode number is reused, the creation time is different.
#[derive(Clone, Copy, Debug, PartialEq, Eq, Hash)]
pub struct Identity {
    device: u64,
    inode: u64,
    /// The creation time, in nanoseconds since 1970.
    birth: Option<i64>,
}

impl Identity {
    /// Parses the identity in a text made by [`Stat::text`].
    pub fn read(text: &str) -> Option<Self> {
        let mut parts = text.split(':');
        let device = u64::from_str_radix(parts.next()?, 16).ok()?;
        let inode = u64::from_str_radix(parts.next()?, 16).ok()?;
        let birth = match parts.next()? {
            "-" => None,
            number => Some(number.parse().ok()?),
        };
        Some(Self { device, inode, birth })
    }

    /// Returns whether the two files are on the same file system.
    pub fn is_beside(&self, other: &Self) -> bool {
        self.device == other.device
    }
}

impl fmt::Display for Identity {
    fn fmt(&self, f: &mut fmt::Formatter<'_>) -> fmt::Result {
        write!(f, "{:x}:{:x}:", self.device, self.inode)?;
        match self.birth {
            Some(birth) => write!(f, "{birth}"),
            None => f.write_char('-'),
        }
    }
}

/// What lstat(2) reports about a file.
#[derive(Clone, Copy, Debug, PartialEq, Eq)]
pub struct Stat {
    pub identity: Identity,
    pub form: Form,
    /// The size of a regular file in bytes; 0 for other files.
    pub size: i64,
    /// The modification time, in seconds since 1970.
    pub modified: i64,
    /// The creation time, in seconds since 1970, if the file system records it.
    pub created: Option<i64>,
    /// When the content, an attribute or the name last changed, in seconds and nanoseconds.
    change: (i64, i64),
}

impl From<&Metadata> for Stat {
    fn from(about: &Metadata) -> Self {
        let form = Form::of(about);
        let birth = about.created().ok().map(nanoseconds);
        let size = match form {
            Form::File => about.size(),
            _ => 0,
        };
        Self {
            identity: Identity {
                device: about.dev(),
                inode: about.ino(),
                birth,
            },
            form,
            size: i64::try_from(size).unwrap_or(i64::MAX),
            modified: about.mtime(),
            created: birth.map(|birth| birth.div_euclid(1_000_000_000)),
            change: (about.ctime(), about.ctime_nsec()),
        }
    }
}

impl Stat {
    /// Returns the value for `FILE:stat`: the identity, and the time of the last change. Whenever the file changes, so does this text.
    pub fn text(&self) -> String {
        let (seconds, nanoseconds) = self.change;
        format!("{}:{seconds}.{nanoseconds:09}", self.identity)
    }

    /// Returns whether two files were at a path when these reports about it were made. On some file systems, a file's inode number can
    /// change, so more has to differ.
    pub fn is_of_another(&self, other: &Self) -> bool {
        let others = |stat: &Self| (stat.form, stat.size, stat.modified, stat.change);
        self.identity != other.identity && others(self) != others(other)
    }
}

fn nanoseconds(time: SystemTime) -> i64 {
    let number = |duration: std::time::Duration| i64::try_from(duration.as_nanos()).unwrap_or(i64::MAX);
    match time.duration_since(UNIX_EPOCH) {
        Ok(after) => number(after),
        Err(before) => -number(before.duration()),
    }
}

#[cfg(test)]
mod tests {
    use super::*;

    #[test]
    fn an_identity_is_read_from_its_text() {
        for birth in [None, Some(0), Some(-5), Some(i64::MAX)] {
            let identity = Identity {
                device: 0xfe01,
                inode: u64::MAX,
                birth,
            };
            assert_eq!(Identity::read(&identity.to_string()), Some(identity));
            assert_eq!(Identity::read(&format!("{identity}:17.000000001")), Some(identity));
        }
        for text in ["", "a", "1:2", "1:2:x", "1::-", "g:1:-"] {
            assert_eq!(Identity::read(text), None, "{text}");
        }
    }

    #[test]
    fn the_text_of_a_file_is_the_same_until_it_is_changed() {
        let path = std::env::temp_dir().join(format!("be-stat-{}", std::process::id()));
        let stat = |path: &std::path::Path| Stat::from(&std::fs::symlink_metadata(path).unwrap());
        std::fs::write(&path, "a").unwrap();
        let before = stat(&path);
        assert_eq!(before.text(), stat(&path).text());
        std::thread::sleep(std::time::Duration::from_millis(20));
        std::fs::write(&path, "ab").unwrap();
        let after = stat(&path);
        std::fs::remove_file(&path).unwrap();
        assert_eq!((before.identity, after.size), (after.identity, 2));
        assert_ne!(before.text(), after.text());
    }
}
