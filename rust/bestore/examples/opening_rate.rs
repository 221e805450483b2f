//! Measures how long it takes to open kept files: one with many files of five attributes, three of them indexed, and one whose store has
//! created and removed many nodes. `opening_rate FOLDER [FILES [REMOVED]]` uses 100,000 files and 10,000,000 nodes.
use bestore::saved::{self, Backup, Options};
use bestore::{Batch, Kind, Limits, Store};
use std::path::Path;
use std::time::{Duration, Instant};

/// The processor time that this process has used.
fn used() -> Duration {
    let mut time = libc::timespec { tv_sec: 0, tv_nsec: 0 };
    // SAFETY: the call writes to the structure, which outlives it.
    unsafe { libc::clock_gettime(libc::CLOCK_PROCESS_CPUTIME_ID, &mut time) };
    Duration::new(time.tv_sec as u64, time.tv_nsec as u32)
}

fn limits(pages: u64) -> Limits {
    Limits {
        pages,
        ..Limits::default()
    }
}

/// Creates the files in the store.
fn fill(store: &Store, files: u64) -> bestore::Result<()> {
    let pass = store.pass()?;
    for (name, kind) in [("name", Kind::Text), ("size", Kind::Int64), ("changed", Kind::Int64)] {
        pass.make_index(name, kind)?;
    }
    for first in (1..=files).step_by(10) {
        let mut batch = Batch::new();
        for file in first..(first + 10).min(files + 1) {
            let mixed = file.wrapping_mul(0x9e37_79b9_7f4a_7c15) >> 40;
            batch.new_node().set(file, "name", format!("photo {mixed}.jpeg"));
            batch
                .set(file, "size", mixed as i64)
                .set(file, "changed", 1_700_000_000 + mixed as i64);
            batch.set(file, "type", "image/jpeg").set(file, "owner", "ann");
        }
        pass.apply(&batch)?;
    }
    Ok(())
}

/// Writes the store's state to a file.
fn keep(store: &Store, path: &Path) -> saved::Result<()> {
    let copy = store.copy_state()?;
    let mut backup = Backup::create(path)?;
    copy.batches.iter().try_for_each(|batch| backup.add(batch))?;
    backup.finish(saved::About {
        entries: copy.number,
        next: copy.next,
    })
}

/// Opens the file, and prints what that takes.
fn open(path: &Path, pages: u64, files: u64) -> saved::Result<()> {
    let (begin, used_before) = (Instant::now(), used());
    let saved = Options::new().limits(limits(pages)).open(path)?;
    let (time, processor) = (begin.elapsed(), used() - used_before);
    let status = saved.pass()?.status()?;
    println!(
        "{}: {} bytes, {time:?}, {processor:?} of a processor ({:.2} us a file), {} pages in use",
        path.display(),
        path.metadata().map_or(0, |found| found.len()),
        processor.as_secs_f64() * 1e6 / files.max(1) as f64,
        status.pages - status.free
    );
    saved.close()
}

fn main() -> Result<(), Box<dyn std::error::Error>> {
    let arguments: Vec<String> = std::env::args().collect();
    let folder = Path::new(arguments.get(1).ok_or("opening_rate FOLDER [FILES [REMOVED]]")?);
    let number = |at: usize, default| arguments.get(at).map_or(Ok(default), |text| text.parse::<u64>());
    let (files, removed) = (number(2, 100_000)?, number(3, 10_000_000)?);
    let (of_files, of_removed) = (folder.join("files.bestore"), folder.join("removed.bestore"));
    if !of_files.exists() {
        let store = Store::open(limits(files + 4_096))?;
        fill(&store, files)?;
        keep(&store, &of_files)?;
    }
    if !of_removed.exists() {
        let store = Store::open(limits(64))?;
        store.begin_with::<Vec<u8>>([], removed + 1)?;
        keep(&store, &of_removed)?;
    }
    // Opening a store without nodes takes what its pages take.
    open(&of_removed, 64, removed)?;
    open(&of_files, files + 4_096, files)?;
    Ok(())
}
