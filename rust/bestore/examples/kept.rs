//! A kept store that counts how many times the program has been run. Needs the feature `saved`.

use bestore::{attribute, saved, Kind};
use std::error::Error;

fn main() -> Result<(), Box<dyn Error>> {
    let path = std::env::args_os().nth(1).ok_or("usage: kept FILE")?;
    let saved = saved::open(path)?;
    let mut pass = saved.pass()?;
    let counter = attribute("name").eq("counter").prepare()?;

    let runs = pass.change(|change| {
        let snapshot = change.snapshot();
        let found = if snapshot.indices()?.iter().any(|(name, _)| name == "name") {
            snapshot.query_prepared(&counter)?
        } else {
            change.make_index("name", Kind::Text)?;
            Vec::new()
        };
        let node = found.first().copied().unwrap_or_else(|| change.new_node());
        let runs = snapshot.get(node, "runs")?.and_then(|runs| runs.as_u64()).unwrap_or(0) + 1;
        change.set(node, "name", "counter")?.set(node, "runs", runs)?;
        Ok(runs)
    })?;
    println!("run {runs}");
    saved.close()?;
    Ok(())
}
