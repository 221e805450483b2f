//! Waits for several file descriptors at once.

use std::os::unix::io::RawFd;
use std::time::Duration;

/// Waits until something happens at one of these descriptors, or until the time is up. For each descriptor, takes the events to wait for,
/// and returns those that have happened; the system adds `POLLERR` and `POLLHUP`. A signal may end the wait early.
pub fn poll<const N: usize>(awaited: [(RawFd, libc::c_short); N], within: Option<Duration>) -> [libc::c_short; N] {
    let mut polled = awaited.map(|(fd, events)| libc::pollfd { fd, events, revents: 0 });
    let most = within.map_or(-1, |within| i32::try_from(within.as_millis()).unwrap_or(i32::MAX));
    // SAFETY: poll accesses only these entries.
    let count = unsafe { libc::poll(polled.as_mut_ptr(), N as libc::nfds_t, most) };
    polled.map(|entry| if count > 0 { entry.revents } else { 0 })
}
