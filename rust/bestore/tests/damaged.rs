//! Tests of kept files with changed or missing parts: each file is either refused or has every acknowledged write.
#![cfg(feature = "saved")]

mod common;

use bestore::saved::{self, Error as SavedError, Options, Place, Saved};
use bestore::{Kind, Limits};
use common::earlier::convert_back;
use common::Folder;
use rusqlite::Connection;
use std::collections::BTreeMap;
use std::fs;
use std::path::PathBuf;

/// The number of entries after a file's state.
const ENTRIES: u64 = 150;

/// How many bytes to change, each in its own copy of the file. `BESTORE_CHANGES` overrides this.
const CHANGES: u64 = 300;

impl Folder {
    /// A file that goes with the store's file.
    fn beside(&self, ending: &str) -> PathBuf {
        self.0.join(format!("test.bestore{ending}"))
    }

    /// The contents of the files, by suffix.
    fn image(&self) -> Image {
        let endings = ["", "-wal", "-last"].into_iter();
        let read = |ending: &'static str| Some((ending, fs::read(self.beside(ending)).ok()?));
        Image(endings.filter_map(read).collect())
    }

    fn sql(&self, text: &str) {
        Connection::open(self.file()).unwrap().execute_batch(text).unwrap();
    }

    fn open(&self) -> saved::Result<Saved> {
        options().open(self.file())
    }

    #[track_caller]
    fn refusal(&self) -> SavedError {
        self.open().map(drop).unwrap_err()
    }
}

/// A store's files at one moment.
#[derive(Clone, PartialEq, Eq)]
struct Image(BTreeMap<&'static str, Vec<u8>>);

impl Image {
    fn put_into(&self, folder: &Folder) {
        for ending in ["", "-wal", "-shm", "-last"] {
            let path = folder.beside(ending);
            match self.0.get(ending) {
                Some(bytes) => fs::write(path, bytes).unwrap(),
                None => drop(fs::remove_file(path)),
            }
        }
    }
}

fn options() -> Options {
    let limits = Limits {
        pages: 128,
        passes: 2,
        ..Limits::default()
    };
    let mut options = Options::new();
    options.limits(limits);
    options
}

/// Writes entries that each create a node or change the last one.
fn write(saved: &Saved, count: u64) {
    let pass = saved.pass().unwrap();
    for number in 0..count {
        match number % 4 {
            0 => drop(pass.new_node().unwrap()),
            odd => pass.set(number / 4 + 1, "size", odd as i64).unwrap(),
        }
    }
}

/// Files with this many entries, as `kill -9` would leave them.
fn killed(name: &str, entries: u64) -> (Folder, Image) {
    let folder = Folder::in_memory(&format!("damaged-{name}"));
    let saved = folder.open().unwrap();
    saved.pass().unwrap().make_index("size", Kind::Int64).unwrap();
    write(&saved, entries - 1);
    let image = folder.image();
    drop(saved);
    (folder, image)
}

/// The store's entire contents.
fn shown(saved: &Saved) -> Vec<u8> {
    let mut pass = saved.pass().unwrap();
    let snapshot = pass.pin().unwrap();
    snapshot.listing().flat_map(Result::unwrap).collect()
}

/// Reads a file that has no state up to an entry. Returns how many entries the store then has.
fn read_until(folder: &Folder, entry: u64) -> saved::Result<u64> {
    let store = options().until(entry).load(folder.file())?;
    Ok(store.pass()?.status()?.entries)
}

fn next_random(state: &mut u64, below: u64) -> u64 {
    *state = state
        .wrapping_mul(6_364_136_223_846_793_005)
        .wrapping_add(1_442_695_040_888_963_407);
    (*state >> 33) % below
}

/// Checks a file in which one byte has been changed. Returns the error if the file is refused.
fn check(folder: &Folder, whole: &[u8], what: &str) -> Option<&'static str> {
    let refused = match folder.open() {
        Ok(saved) => {
            assert!(shown(&saved) == whole, "{what}: something is lost");
            return None;
        }
        Err(refused) => refused,
    };
    match refused {
        SavedError::Damaged { until: Some(until), .. } => {
            if let Err(refused) = read_until(folder, until) {
                panic!("{what}: until {until}: {refused}");
            }
            Some("damaged")
        }
        SavedError::Damaged { until: None, .. } => Some("not readable"),
        SavedError::CutOff { last, had, .. } => {
            assert!(last < had, "{what}");
            read_until(folder, last).unwrap();
            Some("cut off")
        }
        SavedError::Foreign { .. } | SavedError::Newer { .. } => Some("header"),
        other => panic!("{what}: {other}"),
    }
}

/// The files of a closed store, and those of the same store after it has been reopened and killed.
fn images() -> (Folder, [Image; 2]) {
    let (folder, _) = killed("changed", ENTRIES);
    let closed = folder.image();
    let saved = folder.open().unwrap();
    write(&saved, ENTRIES);
    let killed = folder.image();
    (folder, [closed, killed])
}

#[test]
fn a_changed_byte_is_found_or_changes_nothing() {
    let (folder, images) = images();
    let whole: Vec<_> = images
        .iter()
        .map(|image| {
            image.put_into(&folder);
            shown(&folder.open().unwrap())
        })
        .collect();
    let mut random = 1;
    let mut outcomes = BTreeMap::<_, u32>::new();
    let changes = std::env::var("BESTORE_CHANGES").map_or(CHANGES, |number| number.parse().unwrap());
    for change in 0..changes {
        let (image, ending) = [(0, ""), (1, "-wal"), (1, ""), (1, "-wal"), (1, "-last")][(change % 5) as usize];
        let mut changed = images[image].clone();
        let bytes = changed.0.get_mut(ending).unwrap();
        let at = next_random(&mut random, bytes.len() as u64) as usize;
        bytes[at] ^= 1 + next_random(&mut random, 255) as u8;
        changed.put_into(&folder);
        let what = format!("byte {at} of the file \"{ending}\" of image {image}");
        *outcomes
            .entry((image, ending, check(&folder, &whole[image], &what)))
            .or_default() += 1;
    }
    println!("{outcomes:?}");
    for outcome in [(0, "", Some("damaged")), (1, "-wal", Some("cut off"))] {
        assert!(outcomes.get(&outcome).copied() > Some(0), "{outcomes:?}");
    }
}

#[test]
fn a_damaged_entry_is_named_and_the_part_before_it_can_be_read() {
    let (folder, image) = killed("named", 9);
    image.put_into(&folder);
    folder.sql(
        "UPDATE entry SET batch = CAST(substr(batch, 1, 5) || x'77' || substr(batch, 7) AS BLOB) WHERE number = 6",
    );
    let refused = folder.refusal();
    assert!(
        refused.to_string().ends_with(
            "test.bestore: entry 6 is damaged: its checksum doesn't match; be restore --until 5 restores what comes before it"
        ),
        "{refused}"
    );
    for entry in 0..=5 {
        assert_eq!(read_until(&folder, entry).unwrap(), entry);
    }
    let refused = read_until(&folder, 6).unwrap_err();
    assert!(
        matches!(
            refused,
            SavedError::Damaged {
                place: Place::Entry(6),
                until: Some(5),
                ..
            }
        ),
        "{refused}"
    );
    // These reads have changed nothing in the file.
    assert!(matches!(
        folder.refusal(),
        SavedError::Damaged {
            place: Place::Entry(6),
            ..
        }
    ));
}

#[test]
fn each_part_of_a_row_is_checked() {
    let (folder, image) = killed("parts", 9);
    let saved = {
        image.put_into(&folder);
        folder.open().unwrap()
    };
    let mut batch = bestore::Batch::new();
    saved.pass().unwrap().apply(batch.new_node().set_token("once")).unwrap();
    drop(saved);
    let image = folder.image();
    for (change, place) in [
        ("UPDATE entry SET pass = pass + 1 WHERE number = 10", Place::Entry(10)),
        ("UPDATE entry SET checksum = NULL WHERE number = 10", Place::Entry(10)),
        ("UPDATE entry SET batch = 'text' WHERE number = 10", Place::Entry(10)),
        ("UPDATE state SET batch = x'00' WHERE place = 0", Place::State(0)),
        ("UPDATE token SET token = 'twice'", Place::Token(10)),
        ("UPDATE token SET nodes = x'0000000000000000'", Place::Token(10)),
        ("UPDATE about SET number = 1 WHERE what = 'next'", Place::About),
        ("UPDATE about SET number = -1 WHERE what = 'entries'", Place::About),
        ("DELETE FROM about WHERE what = 'file'", Place::About),
        ("DROP TABLE entry", Place::Entry(10)),
    ] {
        image.put_into(&folder);
        folder.sql(change);
        match folder.refusal() {
            SavedError::Damaged { place: found, .. } => assert_eq!(found, place, "{change}"),
            other => panic!("{change}: {other}"),
        }
    }
}

/// Checks that the file can't be read up to this entry. `possible` is the range of entries up to which the error says it can be read;
/// `said` is the end of the error's message.
fn check_not_within(folder: &Folder, entry: u64, possible: (u64, u64), said: &str) {
    let refused = read_until(folder, entry).unwrap_err();
    match &refused {
        SavedError::NotWithin { until, first, last, .. } => assert_eq!((*until, (*first, *last)), (entry, possible)),
        other => panic!("{other}"),
    }
    assert!(refused.to_string().ends_with(said), "{refused}");
}

#[test]
fn only_entries_that_are_there_can_be_the_last_one() {
    let (folder, image) = killed("within", 9);
    image.put_into(&folder);
    let said = "entry 10 can't be the last one: the file ends with entry 9";
    check_not_within(&folder, 10, (0, 9), said);
    drop(folder.open().unwrap());
    let said = "entry 8 can't be the last one: the file has the state after entry 9, so the lowest is 9";
    check_not_within(&folder, 8, (9, 9), said);
    assert_eq!(read_until(&folder, 9).unwrap(), 0);
}

#[test]
fn a_file_without_its_wal_is_refused_and_stays() {
    let (folder, mut image) = killed("no wal", 9);
    image.put_into(&folder);
    drop(folder.open().unwrap());
    assert!(!folder.beside("-last").exists() && !folder.beside("-wal").exists());

    let wal = image.0.get_mut("-wal").unwrap();
    let middle = wal.len() / 2;
    wal[middle] ^= 1;
    image.put_into(&folder);
    let last = match folder.refusal() {
        SavedError::CutOff { last, had: 9, .. } => last,
        other => panic!("{other}"),
    };
    assert!((1..9).contains(&last));
    assert!(folder.image() == image);
    assert_eq!(read_until(&folder, last).unwrap(), last);

    // Remove the other copy of the number.
    fs::remove_file(folder.beside("-last")).unwrap();
    let saved = folder.open().unwrap();
    assert_eq!(saved.pass().unwrap().status().unwrap().entries, last);
}

#[test]
fn another_file_in_the_place_of_one_that_was_killed_is_opened() {
    let (folder, image) = killed("one", 9);
    let (other, _) = killed("other", 3);
    image.put_into(&folder);
    fs::remove_file(folder.beside("-wal")).unwrap();
    fs::copy(other.file(), folder.file()).unwrap();
    let saved = folder.open().unwrap();
    assert_eq!(saved.number_in_file(saved.pass().unwrap().status().unwrap().entries), 3);
}

#[test]
fn a_file_of_the_first_format_gets_checksums() {
    let (folder, _) = killed("first format", 9);
    convert_back(&folder.file(), 1);
    assert_eq!(read_until(&folder, 7).unwrap(), 7);
    let saved = folder.open().unwrap();
    let whole = shown(&saved);
    write(&saved, 1);
    drop(saved);
    let number = |sql: &str| -> i64 {
        let file = Connection::open(folder.file()).unwrap();
        file.query_row(sql, [], |row| row.get(0)).unwrap()
    };
    assert_eq!(number("PRAGMA user_version"), 3);
    for table in ["about", "state", "entry", "token"] {
        assert_eq!(
            number(&format!("SELECT count(*) FROM {table} WHERE checksum IS NULL")),
            0,
            "{table}"
        );
    }
    assert_eq!(number("SELECT count(*) FROM entry"), 1);
    assert!(shown(&folder.open().unwrap()).len() > whole.len());
}
