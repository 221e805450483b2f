//! Handles that close themselves and are dead in a forked child.

use super::{Answer, Refused, FORKED};
use bestore_sys::{self as sys, bes_builder, bes_draft, bes_pass, bes_prepared, bes_witness};
use std::marker::PhantomData;
use std::ptr::NonNull;
use std::sync::atomic::{AtomicU64, Ordering};
use std::sync::Once;

/// The number of forks between the first process and this one.
static FORKS: AtomicU64 = AtomicU64::new(0);

extern "C" fn count_fork() {
    FORKS.fetch_add(1, Ordering::Relaxed);
}

/// The process in which an object was created.
#[derive(Clone, Copy, Debug)]
pub(crate) struct Birthplace(u64);

impl Birthplace {
    pub(crate) fn here() -> Self {
        static WATCH: Once = Once::new();
        WATCH.call_once(|| {
            // SAFETY: the handler is a function that takes no arguments and performs one atomic operation.
            unsafe { libc::pthread_atfork(None, None, Some(count_fork)) };
        });
        Self(FORKS.load(Ordering::Relaxed))
    }

    /// Returns `true` in the same process, and `false` in a forked child of it.
    pub(crate) fn is_here(self) -> bool {
        FORKS.load(Ordering::Relaxed) == self.0
    }

    pub(crate) fn check(self) -> Answer<()> {
        if self.is_here() {
            Ok(())
        } else {
            Err(Refused {
                code: FORKED,
                carried: 0,
            })
        }
    }
}

/// A C handle, with its initial value and the call that closes it.
pub(super) trait CloseHandle: Sized {
    const CLOSED: Self;

    /// # Safety
    /// `at` points to a handle that no other call uses.
    unsafe fn close(at: *mut Self);
}

macro_rules! close_by {
    ($($handle:ident by $call:ident),*) => {$(
        impl CloseHandle for $handle {
            const CLOSED: Self = Self::INIT;

            unsafe fn close(at: *mut Self) {
                // SAFETY: as the trait requires.
                unsafe { sys::$call(at) };
            }
        }
    )*};
}

close_by!(
    bes_pass by bes_close, bes_prepared by bes_release, bes_witness by bes_dismiss,
    bes_builder by bes_build_close
);

impl CloseHandle for bes_draft {
    const CLOSED: Self = Self::INIT;

    unsafe fn close(at: *mut Self) {
        // With a closed pass, this call closes only the draft, whatever state the draft's own pass is in.
        let mut none = bes_pass::INIT;
        // SAFETY: as the trait requires; the pass is used only by this call.
        unsafe { sys::bes_abandon_change(&mut none, at) };
    }
}

/// A handle at a fixed address, closed on drop. In a forked child it is dead, and dropping it leaves it unchanged.
#[derive(Debug)]
pub(super) struct Handle<T: CloseHandle> {
    at: NonNull<T>,
    birthplace: Birthplace,
    owns: PhantomData<T>,
}

// SAFETY: the header allows a handle to be moved to another thread whose calls come later. It isn't `Sync`.
unsafe impl<T: CloseHandle> Send for Handle<T> {}

impl<T: CloseHandle> Handle<T> {
    pub(super) fn new() -> Self {
        Self {
            at: NonNull::from(Box::leak(Box::new(T::CLOSED))),
            birthplace: Birthplace::here(),
            owns: PhantomData,
        }
    }

    pub(super) fn get(&self) -> Answer<*mut T> {
        self.birthplace.check().map(|()| self.at.as_ptr())
    }
}

impl<T: CloseHandle> Drop for Handle<T> {
    fn drop(&mut self) {
        if self.birthplace.is_here() {
            // SAFETY: `at` comes from a box that `new` leaked, and it is no longer used by anything.
            unsafe {
                T::close(self.at.as_ptr());
                drop(Box::from_raw(self.at.as_ptr()));
            }
        }
    }
}
