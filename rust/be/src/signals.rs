//! The signals that end the program.

use std::mem::MaybeUninit;
use std::{process, ptr};

/// These signals end the program, unless it ignores them, as it ignores SIGHUP under `nohup`.
const ENDING: [libc::c_int; 3] = [libc::SIGHUP, libc::SIGINT, libc::SIGTERM];

/// The signals that end the program. They are held back, so that a thread can do something first.
pub struct Signals(libc::sigset_t);

impl Signals {
    /// Holds the signals back in this thread and in those that it creates. A signal still reaches any other thread.
    pub fn hold() -> Self {
        let mut signals = MaybeUninit::uninit();
        // SAFETY: `sigemptyset` initialises the set before anything else uses it.
        unsafe {
            libc::sigemptyset(signals.as_mut_ptr());
            for signal in ENDING.into_iter().filter(|signal| !is_ignored(*signal)) {
                libc::sigaddset(signals.as_mut_ptr(), signal);
            }
            libc::pthread_sigmask(libc::SIG_BLOCK, signals.as_ptr(), ptr::null_mut());
            Self(signals.assume_init())
        }
    }

    /// Waits until one of the signals arrives, and returns it.
    pub fn wait(&self) -> libc::c_int {
        let mut signal = 0;
        // SAFETY: the set is initialised, and the call writes an int.
        unsafe { libc::sigwait(&self.0, &mut signal) };
        signal
    }

    /// Ends the program as the signal would have ended it.
    pub fn end(&self, signal: libc::c_int) -> ! {
        // SAFETY: the set is initialised, and the other arguments are numbers or null.
        unsafe {
            libc::pthread_sigmask(libc::SIG_UNBLOCK, &self.0, ptr::null_mut());
            libc::raise(signal);
        }
        // A debugger may have suppressed the signal.
        process::exit(128 + signal)
    }
}

/// Returns whether the program ignores this signal.
fn is_ignored(signal: libc::c_int) -> bool {
    let mut action = MaybeUninit::<libc::sigaction>::uninit();
    // SAFETY: the call writes a `sigaction`, which is read only if the call succeeded.
    unsafe {
        libc::sigaction(signal, ptr::null(), action.as_mut_ptr()) == 0
            && action.assume_init().sa_sigaction == libc::SIG_IGN
    }
}
