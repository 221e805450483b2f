//! Prints the newest 20 letters in a mailbox, and then the next 20. A letter that arrives in between doesn't move any other letter to
//! another page.

use bestore::{Cursor, Kind, Limits, Order, Page, Pass, Prepared, Store};

/// Files letters to ann and bob alternately, one per minute.
fn file_letters(pass: &mut Pass, minutes: std::ops::Range<i64>) -> bestore::Result<()> {
    for minute in minutes {
        pass.change(|change| {
            let letter = change.new_node();
            change.set(letter, "MAIL:to", if minute % 2 == 0 { "ann" } else { "bob" })?;
            change.set(letter, "MAIL:when", 1_700_000_000 + 60 * minute)?;
            change.set(letter, "MAIL:subject", format!("Letter {minute}"))?;
            Ok(())
        })?;
    }
    Ok(())
}

/// Prints a page, and returns the position at which the next one begins.
fn show_page(pass: &mut Pass, letters: &Prepared, after: Option<&Cursor>) -> bestore::Result<Cursor> {
    let newest_first = Order::by("MAIL:when").descending();
    let snapshot = pass.pin()?;
    let Page { nodes, more, cursor } = snapshot.page(letters, &newest_first, after, 20)?;
    let subjects = snapshot.column(&nodes, "MAIL:subject")?;
    if let (Some(Some(first)), Some(Some(last))) = (subjects.first(), subjects.last()) {
        let more = if more { ", and more" } else { "" };
        println!("{} letters, {first} to {last}{more}", nodes.len());
    }
    Ok(cursor)
}

fn main() -> bestore::Result<()> {
    let mut pass = Store::open(Limits::default())?.pass()?;
    pass.make_index("MAIL:to", Kind::Text)?;
    pass.make_index("MAIL:when", Kind::Int64)?;
    file_letters(&mut pass, 0..100)?;

    let letters = Prepared::new("MAIL:to==ann")?;
    let cursor = show_page(&mut pass, &letters, None)?;
    file_letters(&mut pass, 100..101)?;
    show_page(&mut pass, &letters, Some(&cursor))?;
    show_page(&mut pass, &letters, None)?;
    Ok(())
}
