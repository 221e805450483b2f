//! A first program: files a letter, queries the letters by sender, and prints the
//! nodes that it finds.

use bestore::{Kind, Limits, Store};

fn main() -> bestore::Result<()> {
    let store = Store::open(Limits::default())?;
    let mut pass = store.pass()?;
    pass.make_index("MAIL:from", Kind::Text)?;
    pass.change(|change| {
        let letter = change.new_node();
        change.set(letter, "MAIL:from", "ann")?;
        Ok(())
    })?;

    let snapshot = pass.pin()?;
    for node in snapshot.query("MAIL:from==ann")? {
        println!("node {node}");
    }
    Ok(())
}
