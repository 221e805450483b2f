//! The server's tests. They form a single program, so that there is only one to link, and so that tests that mostly wait run in
//! parallel.

/// Unwraps something that a test needs, or returns from the test. What is missing has already been printed.
macro_rules! present {
    ($needed:expr) => {
        match $needed {
            Some(needed) => needed,
            None => return,
        }
    };
}

mod activity;
mod alike;
mod background;
mod carrying;
mod changes;
mod common;
mod crowd;
#[cfg(feature = "log")]
mod cuts;
mod filled;
mod folders;
mod full;
mod growth;
#[cfg(feature = "log")]
mod hanging;
mod hung;
mod killed;
mod limits;
mod live;
#[cfg(feature = "log")]
mod log;
#[cfg(feature = "log")]
mod log_state;
mod manual;
mod memory;
mod moved;
mod notify;
mod ordered;
mod pages;
#[cfg(feature = "log")]
mod passwords;
mod protocol;
mod repeats;
mod slow;
mod socket;
#[cfg(feature = "log")]
mod successors;
