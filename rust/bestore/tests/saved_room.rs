//! Tests of files that are opened with fewer pages than their store had.
#![cfg(feature = "saved")]

mod common;

use bestore::saved::{Error as SavedError, Options, Saved};
use bestore::{Error, Kind, Limits};
use common::Folder;

/// The number of pages of the store that writes the file.
const PAGES: u64 = 512;

fn options(pages: u64) -> Options {
    let limits = Limits {
        pages,
        ..Limits::default()
    };
    let mut options = Options::new();
    options.limits(limits);
    options
}

fn open(folder: &Folder, pages: u64) -> Result<Saved, SavedError> {
    options(pages).open(folder.file())
}

/// Fills a file's store until few pages are free.
fn fill(folder: &Folder) {
    let saved = folder.open_lazily(PAGES);
    let mut pass = saved.pass().unwrap();
    pass.make_index("number", Kind::Int64).unwrap();
    let mut number = 1_i64;
    while pass.status().unwrap().free > PAGES / 25 {
        number = number * 48_271 % 0x7fff_ffff;
        pass.change(|change| {
            let node = change.new_node();
            change.set(node, "number", number)?;
            change.set(node, "text", "a".repeat(number as usize % 100).as_str())?;
            Ok(())
        })
        .unwrap();
    }
    saved.compact().unwrap();
    saved.close().unwrap();
}

#[test]
fn a_file_that_needs_more_pages_says_how_many() {
    let folder = Folder::in_memory("room");
    fill(&folder);
    let error = open(&folder, PAGES / 2).map(drop).unwrap_err();
    let said = error.to_string();
    let pages = match error {
        SavedError::TooLarge {
            error: Error::Full { .. },
            pages: Some(pages),
            ..
        } => pages,
        error => panic!("{error}"),
    };
    let end = format!("it can be opened with {pages} pages (--pages {pages}, or Limits::pages)");
    assert!(said.ends_with(&end), "{said}");
    assert!(pages <= PAGES);
    let read = options(PAGES / 2).load(folder.file()).map(drop);
    assert_eq!(read.unwrap_err().to_string(), said);
    // The number without what is added for the first writes is the lowest.
    let used = (pages - 16) * 16 / 17;
    assert!(open(&folder, used - 1).is_err());
    for pages in [pages, used + 1, PAGES] {
        let saved = open(&folder, pages).unwrap();
        let pass = saved.pass().unwrap();
        let status = pass.status().unwrap();
        assert!(
            (used..used + 2).contains(&(status.pages - status.free)),
            "{status:?}, {used}"
        );
        drop(pass);
        saved.close().unwrap();
    }
}
