//! Counts writes and measures how long they take.

use bestore_client::wire::Latency;
use std::sync::atomic::{AtomicU64, Ordering};
use std::sync::{Mutex, PoisonError};
use std::time::{Duration, Instant};

/// The number of recent seconds that are counted.
const SECONDS: u64 = 10;

/// The number of ranges into which write times fall: four for each power of two in µs, up to an hour.
const SIZES: usize = 128;

/// The writes in one second, grouped by how long they took.
#[derive(Clone, Debug)]
struct Second {
    number: u64,
    sizes: [u32; SIZES],
    most: u64,
}

impl Second {
    fn new(number: u64) -> Self {
        Self {
            number,
            sizes: [0; SIZES],
            most: 0,
        }
    }
}

/// Counts writes and measures their times.
#[derive(Debug)]
pub struct Meter {
    begin: Instant,
    writes: AtomicU64,
    writing: AtomicU64,
    seconds: Mutex<Vec<Second>>,
}

/// The rate of writes in the last seconds, and how long they took.
#[derive(Clone, Debug, Default, PartialEq, Eq)]
pub struct Rate {
    pub per_second: u64,
    pub latency: Option<Latency>,
}

/// A write in progress.
#[derive(Debug)]
pub struct Measured<'a> {
    meter: &'a Meter,
    begin: Instant,
}

impl Drop for Measured<'_> {
    fn drop(&mut self) {
        self.meter.writing.fetch_sub(1, Ordering::Relaxed);
    }
}

impl Measured<'_> {
    /// Counts the write. Call this once the write has been made and kept.
    pub fn finish(self) {
        let meter = self.meter;
        meter.count(meter.now(), self.begin.elapsed());
    }
}

/// Returns the range that contains a time of this many µs.
fn size_of(time: u64) -> usize {
    if time < 4 {
        return time as usize;
    }
    let power = 63 - time.leading_zeros();
    let size = 4 * (power as usize - 1) + (time >> (power - 2) & 3) as usize;
    size.min(SIZES - 1)
}

/// Returns the longest time in a range.
fn longest_of(size: usize) -> u64 {
    match size {
        0..=3 => size as u64,
        _ => ((5 + size as u64 % 4) << (size / 4 - 1)) - 1,
    }
}

/// Returns the time within which this percentage of the writes finished. There must be at least one
/// write.
fn percentile(sizes: &[u64; SIZES], hundredths: u64) -> u64 {
    let wanted = (sizes.iter().sum::<u64>() * hundredths + 99) / 100;
    let mut seen = 0;
    let size = sizes.iter().position(|count| {
        seen += count;
        seen >= wanted
    });
    longest_of(size.unwrap_or(SIZES - 1))
}

impl Meter {
    pub fn new() -> Self {
        Self {
            begin: Instant::now(),
            writes: AtomicU64::new(0),
            writing: AtomicU64::new(0),
            seconds: Mutex::new(vec![Second::new(0); SECONDS as usize]),
        }
    }

    /// Returns how many seconds the server has been running.
    pub fn now(&self) -> u64 {
        self.begin.elapsed().as_secs()
    }

    /// Starts measuring a write.
    pub fn begin(&self) -> Measured<'_> {
        self.writing.fetch_add(1, Ordering::Relaxed);
        Measured {
            meter: self,
            begin: Instant::now(),
        }
    }

    /// Returns how many writes have been made.
    pub fn writes(&self) -> u64 {
        self.writes.load(Ordering::Relaxed)
    }

    /// Returns how many writes are in progress.
    pub fn writing(&self) -> u64 {
        self.writing.load(Ordering::Relaxed)
    }

    fn count(&self, now: u64, took: Duration) {
        self.writes.fetch_add(1, Ordering::Relaxed);
        let took = u64::try_from(took.as_micros()).unwrap_or(u64::MAX);
        let mut seconds = self.seconds.lock().unwrap_or_else(PoisonError::into_inner);
        let second = &mut seconds[(now % SECONDS) as usize];
        if second.number != now {
            *second = Second::new(now);
        }
        second.sizes[size_of(took)] += 1;
        second.most = second.most.max(took);
    }

    /// Returns the rate over the last 10 seconds, including the current one.
    pub fn rate(&self) -> Rate {
        self.rate_at(self.now())
    }

    fn rate_at(&self, now: u64) -> Rate {
        let seconds = self.seconds.lock().unwrap_or_else(PoisonError::into_inner);
        let mut sizes = [0_u64; SIZES];
        let mut most = 0;
        for second in seconds.iter().filter(|second| second.number + SECONDS > now) {
            sizes
                .iter_mut()
                .zip(second.sizes)
                .for_each(|(sum, count)| *sum += u64::from(count));
            most = most.max(second.most);
        }
        let count: u64 = sizes.iter().sum();
        Rate {
            per_second: count / (now + 1).min(SECONDS),
            latency: (count > 0).then(|| Latency {
                p50: percentile(&sizes, 50).min(most),
                p99: percentile(&sizes, 99).min(most),
                most,
            }),
        }
    }
}

#[cfg(test)]
mod tests {
    use super::*;

    #[test]
    fn sizes_are_within_a_quarter_of_their_times() {
        let mut before = 0;
        for time in (0..5_000).chain((5..42).map(|power| 1_u64 << power)) {
            let size = size_of(time);
            assert!(size >= before || time < 5_000, "{time}");
            if size < SIZES - 1 {
                let longest = longest_of(size);
                assert!(time <= longest && longest <= time + time / 4, "{time}: {longest}");
                assert_eq!(size_of(longest), size);
                assert_eq!(size_of(longest + 1), size + 1);
            }
            before = size;
        }
        assert_eq!(size_of(u64::MAX), SIZES - 1);
    }

    #[test]
    fn ten_seconds_are_looked_back_on() {
        let meter = Meter::new();
        assert_eq!(meter.rate_at(0), Rate::default());
        for time in 1..=100 {
            meter.count(0, Duration::from_millis(time));
        }
        let of_all = meter.rate_at(0);
        let latency = of_all.latency.clone().unwrap();
        assert_eq!((of_all.per_second, latency.most), (100, 100_000));
        assert!((50_000..=62_500).contains(&latency.p50) && (99_000..=100_000).contains(&latency.p99));
        assert_eq!(meter.rate_at(3).per_second, 25);
        assert_eq!(meter.rate_at(9).per_second, 10);
        assert_eq!(meter.rate_at(10), Rate::default());
        meter.count(10, Duration::from_micros(3));
        assert_eq!(meter.rate_at(19).latency.unwrap().p99, 3);
        assert_eq!(meter.writes(), 101);
    }

    #[test]
    fn what_is_refused_is_not_counted() {
        let meter = Meter::new();
        let (refused, made) = (meter.begin(), meter.begin());
        assert_eq!(meter.writing(), 2);
        drop(refused);
        made.finish();
        assert_eq!((meter.writing(), meter.writes()), (0, 1));
    }
}
