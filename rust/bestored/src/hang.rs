//! Notices a disk that hangs. Then nobody waits for it who needn't: the server says so, lets its service manager restart it, and
//! ends at a signal.

use crate::os;
use bestore::saved::Progress;
use bestore_client::wire::Latency;
use std::fs::File;
use std::os::unix::io::AsRawFd;
use std::path::PathBuf;
use std::process;
use std::sync::atomic::{AtomicBool, Ordering};
use std::sync::Arc;
use std::thread;
use std::time::{Duration, Instant};

/// After how many times the bound the service manager's watchdog is no longer notified.
const WATCHDOG: u32 = 6;

/// How long an ending server goes on in any case, so that it can load its store or reply to clients. Then, how often it looks at the
/// disk.
const GOES_ON: Duration = Duration::from_secs(5);
const LOOK: Duration = Duration::from_millis(20);

/// How the saving in the file is going.
#[derive(Clone, Debug)]
pub struct Hang(Arc<Saving>);

#[derive(Debug)]
struct Saving {
    path: PathBuf,
    progress: Progress,
    /// A disk that is overdue for longer than this counts as one that hangs.
    bound: Duration,
}

impl Hang {
    pub fn new(path: PathBuf, progress: Progress, bound: Duration) -> Self {
        Self(Arc::new(Saving { path, progress, bound }))
    }

    /// Returns what is wrong if the disk has been hanging for this many times the bound.
    fn after(&self, bounds: u32) -> Option<String> {
        let overdue = self.0.progress.overdue()?;
        (overdue >= self.0.bound.saturating_mul(bounds)).then(|| {
            format!(
                "the disk of {} hangs: it hasn't completed what was written to it {} s ago",
                self.0.path.display(),
                overdue.as_secs()
            )
        })
    }

    /// Returns why writes wait for the disk, if it hangs.
    pub fn trouble(&self) -> Option<String> {
        self.after(1)
    }

    /// Returns why the service manager should restart the server, if the disk has been hanging for a long time.
    pub fn long_trouble(&self) -> Option<String> {
        self.after(WATCHDOG)
    }

    /// Returns how old the oldest write is that isn't in the file yet, in milliseconds.
    pub fn unsaved(&self) -> Option<u64> {
        let oldest = self.0.progress.unsaved()?;
        Some(u64::try_from(oldest.as_millis()).unwrap_or(u64::MAX))
    }

    /// Returns how long the latest commits took.
    pub fn commits(&self) -> Option<Latency> {
        let mut times = self.0.progress.commits();
        times.sort_unstable();
        let last = times.len().checked_sub(1)?;
        let of = |hundredths: usize| times[last * hundredths / 100].as_micros() as u64;
        Some(Latency {
            p50: of(50),
            p99: of(99),
            most: of(100),
        })
    }

    /// Ends the program if the disk hangs, once clients had time to get their replies. Call this when the server begins to end.
    pub fn end_program_if_hung(&self) {
        let hang = self.clone();
        let look = move || {
            thread::sleep(GOES_ON);
            let begin = Instant::now();
            loop {
                if let Some(trouble) = hang.trouble() {
                    report!("bestored: {trouble}; the server ends without waiting for it");
                    process::exit(1);
                }
                thread::sleep(LOOK.max(begin.elapsed() / 100));
            }
        };
        // Without the thread, the server waits for the disk.
        let _ = thread::Builder::new().name("hang".into()).spawn(look);
    }
}

/// Loads the store. If a signal arrives meanwhile, ends the program after a short time. Nobody waits for a reply yet, and the file has
/// all writes that were ever confirmed.
pub fn while_loading<T>(signals: &File, load: impl FnOnce() -> T) -> T {
    let is_loading = Arc::new(AtomicBool::new(true));
    let (is_still_loading, signals) = (is_loading.clone(), signals.as_raw_fd());
    let wait = move || {
        while let Ok([false]) = os::wait_readable([signals], None) {}
        thread::sleep(GOES_ON);
        if is_still_loading.load(Ordering::Relaxed) {
            report!("bestored: a signal ended the server before it had loaded its store");
            process::exit(0);
        }
    };
    // Without the thread, the signal waits for the store.
    let _ = thread::Builder::new().name("loading".into()).spawn(wait);
    let loaded = load();
    is_loading.store(false, Ordering::Relaxed);
    loaded
}
