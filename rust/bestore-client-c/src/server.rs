//! What a server is, and what it does with its store as a whole.

use crate::faults::{without_zeros, Fault};
use crate::memory::put;
use crate::numbers::BEC_LOST;
use crate::session::{bec_client, call, State};
use crate::values::bes_usage;
use bestore_client::wire::{Command, Hello, Nothing};
use std::os::raw::c_char;

/// What a server says about itself. The texts end with a zero byte, and are valid until the next call on the client.
#[repr(C)]
#[derive(Clone, Copy, Debug)]
pub struct bec_server {
    /// the version of bestored
    pub version: *const c_char,
    /// the version of the server's library
    pub library: *const c_char,
    /// a text that is different each time the server starts. Commit numbers then start over
    pub run: *const c_char,
    /// when writes are saved in the server's file: "each" for at each write, "every" for at intervals, and "no" if there is no file
    pub kept: *const c_char,
    /// the number of pages
    pub pages: u64,
    /// how many clients may be connected at the same time
    pub passes: u64,
    /// how many transactions the journal can have
    pub commits: u64,
    /// how many live queries a client may have
    pub watches: u64,
}

/// Writes what the server has said about itself when the client was connected.
/// [out] server   the server's versions and limits
/// Cost: constant. Nothing is asked of the server.
#[no_mangle]
pub unsafe extern "C" fn bec_hello(client: *mut bec_client, server: *mut bec_server) -> u32 {
    // SAFETY: the header says what the pointers are.
    unsafe {
        call(client, |state| {
            let said = said(state)?;
            let texts = [said.server, said.library, said.run, said.kept].map(without_zeros);
            let [version, library, run, kept] = [0, 1, 2, 3].map(|at: usize| texts[at].as_ptr());
            put(
                server,
                bec_server {
                    version,
                    library,
                    run,
                    kept,
                    pages: said.limits.pages,
                    passes: said.limits.passes,
                    commits: said.limits.commits,
                    watches: said.limits.watches,
                },
            );
            state.texts = texts.into();
            Ok(())
        })
    }
}

fn said(state: &mut State) -> Result<Hello, Fault> {
    let said = state.client()?.server();
    said.cloned().ok_or_else(|| Fault::of(BEC_LOST))
}

/// Writes the number of the client's pass, by which the journal and bec_status refer to it.
/// [out] number   the number
/// Cost: constant. Nothing is asked of the server.
#[no_mangle]
pub unsafe extern "C" fn bec_number(client: *mut bec_client, number: *mut u64) -> u32 {
    // SAFETY: the header says what the pointers are.
    unsafe {
        call(client, |state| {
            put(number, 0);
            put(number, said(state)?.pass);
            Ok(())
        })
    }
}

/// Writes how full the store is and which pass holds its oldest version. It has the passes of all clients, and the server's own.
/// [out] usage    the figures
/// [out] number   0
/// Cost: one round trip; the server checks each pass and each page.
#[no_mangle]
pub unsafe extern "C" fn bec_status(client: *mut bec_client, usage: *mut bes_usage, number: *mut u64) -> u32 {
    // SAFETY: the header says what the pointers are.
    unsafe {
        call(client, |state| {
            put(number, 0);
            let status = state.ask(|client| client.status())?;
            let oldest = status.oldest.as_ref();
            put(
                usage,
                bes_usage {
                    pages: status.pages,
                    free: status.free,
                    retired: status.retired,
                    entries: status.entries,
                    commits: status.commits,
                    is_held: oldest.is_some(),
                    oldest: oldest.map_or(0, |oldest| oldest.snapshot),
                    holder: oldest.map_or(0, |oldest| oldest.pass),
                },
            );
            Ok(())
        })
    }
}

/// Returns once everything written before the call is in the server's file or log.
/// BEC_NOT_KEPT, BEC_NOT_SAVED, BEC_STOPPED.
/// Cost: one round trip, and a commit to the disk.
#[no_mangle]
pub unsafe extern "C" fn bec_flush(client: *mut bec_client) -> u32 {
    // SAFETY: the header says what the pointer is.
    unsafe {
        call(client, |state| {
            state.ask(|client| client.call::<Nothing>(Command::Flush(Nothing {})).map(drop))
        })
    }
}

/// Writes the current snapshot into the server's file, which replaces the file's state and entries; or into the log.
/// BEC_NOT_KEPT, BEC_NOT_SAVED, BEC_STOPPED.
/// Cost: one round trip, in which the server writes the whole store.
#[no_mangle]
pub unsafe extern "C" fn bec_compact(client: *mut bec_client) -> u32 {
    // SAFETY: the header says what the pointer is.
    unsafe {
        call(client, |state| {
            state.ask(|client| client.call::<Nothing>(Command::Compact(Nothing {})).map(drop))
        })
    }
}
