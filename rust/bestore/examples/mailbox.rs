//! Two threads that share a store: one files letters, and the other follows the unread ones with a live query.

use bestore::{Kind, Limits, Live, Pass, Result, Store};
use std::sync::atomic::{AtomicBool, Ordering};
use std::thread;
use std::time::Duration;

const SENDERS: [&str; 3] = ["ada", "bob", "carla"];

/// Files letters and counts them by sender. Each letter and its sender's count are written in one transaction.
fn file(pass: &mut Pass, letters: usize) -> Result<()> {
    for (number, sender) in (0..letters).zip(SENDERS.iter().cycle()) {
        pass.change(|change| {
            let known = change.snapshot().query(&format!("name=={sender}"))?;
            let person = match known.first() {
                Some(person) => *person,
                None => change.new_node(),
            };
            let count = change.snapshot().get(person, "letters")?;
            let count = count.and_then(|count| count.as_i64()).unwrap_or(0);
            change.set(person, "name", *sender)?;
            change.set(person, "letters", count + 1)?;
            let letter = change.new_node();
            change.set(letter, "MAIL:from", *sender)?;
            change.set(letter, "MAIL:number", number as i64)?;
            change.set(letter, "MAIL:status", "New")?;
            Ok(())
        })?;
    }
    Ok(())
}

/// Marks each new letter as read until all letters are filed and none is new. Returns how many letters it has seen.
fn follow(pass: &mut Pass, is_filed: &AtomicBool) -> Result<usize> {
    let mut unread = Live::new("MAIL:status==New")?;
    let mut seen = 0;
    loop {
        let was_filed = is_filed.load(Ordering::Acquire);
        let came = unread.refresh(&pass.pin()?)?.created;
        if came.is_empty() && was_filed {
            return Ok(seen);
        }
        for letter in came {
            pass.set(letter, "MAIL:status", "Read")?;
            seen += 1;
        }
        thread::sleep(Duration::from_millis(1));
    }
}

fn main() -> Result<()> {
    let store = Store::open(Limits::default())?;
    let (mut writer, mut reader) = (store.pass()?, store.pass()?);
    writer.make_index("name", Kind::Text)?;
    writer.make_index("MAIL:status", Kind::Text)?;

    let is_filed = AtomicBool::new(false);
    let seen = thread::scope(|scope| {
        let follower = scope.spawn(|| follow(&mut reader, &is_filed));
        let filed = file(&mut writer, 300);
        is_filed.store(true, Ordering::Release);
        filed.and(follower.join().expect("the follower panicked"))
    })?;

    println!("{seen} letters were seen");
    let snapshot = writer.pin()?;
    for person in snapshot.query("name==*")? {
        let attributes = snapshot.attributes(person)?;
        let shown: Vec<_> = attributes
            .iter()
            .map(|(name, value)| format!("{name} {value}"))
            .collect();
        println!("{}", shown.join(", "));
    }
    Ok(())
}
