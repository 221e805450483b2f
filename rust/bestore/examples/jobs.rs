//! A queue: workers use changes to claim one job at a time until none are left. No two workers claim
//! the same job.

use bestore::{Batch, Kind, Limits, Order, Pass, Prepared, Result, Store};
use std::collections::BTreeSet;
use std::thread;

const JOBS: i64 = 200;
const WORKERS: usize = 4;

/// Claims the most urgent waiting job, or nothing if there is none. A claimed job loses its
/// urgency, so that later claims don't have to step over it to reach a waiting one.
fn claim(pass: &mut Pass, waiting: &Prepared, urgent_first: &Order) -> Result<Option<u64>> {
    pass.change(|change| {
        let page = change.snapshot().page(waiting, urgent_first, None, 1)?;
        let job = page.nodes.first().copied();
        if let Some(job) = job {
            change.set(job, "job:state", "claimed")?;
            change.unset(job, "job:urgency");
        }
        Ok(job)
    })
}

/// Claims jobs until none are left.
fn work(store: &Store) -> Result<Vec<u64>> {
    let mut pass = store.pass()?;
    let waiting = Prepared::new("job:state==waiting")?;
    let urgent_first = Order::by("job:urgency").descending();
    let mut claimed = Vec::new();
    while let Some(job) = claim(&mut pass, &waiting, &urgent_first)? {
        claimed.push(job);
    }
    Ok(claimed)
}

fn main() -> Result<()> {
    let store = Store::open(Limits::default())?;
    let pass = store.pass()?;
    pass.make_index("job:state", Kind::Text)?;
    pass.make_index("job:urgency", Kind::Int64)?;
    for number in 0..JOBS {
        let job = pass.new_node()?;
        let mut batch = Batch::new();
        batch
            .set(job, "job:state", "waiting")
            .set(job, "job:urgency", number % 10);
        pass.apply(&batch)?;
    }

    let claimed: Result<Vec<Vec<u64>>> = thread::scope(|scope| {
        let workers: Vec<_> = (0..WORKERS).map(|_| scope.spawn(|| work(&store))).collect();
        workers
            .into_iter()
            .map(|worker| worker.join().expect("a worker"))
            .collect()
    });
    let claimed = claimed?.concat();
    let different: BTreeSet<_> = claimed.iter().collect();
    println!(
        "{} jobs were claimed, {} of them different",
        claimed.len(),
        different.len()
    );
    Ok(())
}
