//! Why a call failed: its error number, and what is reported with it.

use crate::meanings::{class_number, class_of, number_of, text_of};
use crate::numbers::*;
use crate::session::{bec_client, call};
use bestore_client::wire::Refusal;
use bestore_client::{Client, Error, ErrorName};
use bestore_types::sys;
use std::ffi::{CStr, CString};
use std::os::raw::c_char;
use std::ptr;

/// What is reported with an error, as bec_last_fault returns it.
#[repr(C)]
#[derive(Clone, Copy, Debug, Default)]
pub struct bec_fault {
    /// the number of the error that the client's last failed call returned; BES_OK if none has failed
    pub error: u32,
    /// what a program can do about it: BES_CLASS_RETRY .. BES_CLASS_GONE. A server may know more about it than bec_class
    pub error_class: u32,
    /// the number reported with the error, as described at the call; otherwise 0
    pub number: u64,
    /// for BES_WRONG_KIND, the type code of the index's kind; otherwise 0
    pub kind: u32,
    /// 1 if the call was a write that may have taken effect all the same, otherwise 0
    pub may_be_made: u32,
}

/// Why a call failed.
#[derive(Debug, Default)]
pub(crate) struct Fault {
    pub fault: bec_fault,
    /// What the error says, if it is more than the text of its number.
    text: Option<CString>,
    /// What the server has sent, and the detail of it that bec_detail has returned last.
    refusal: Option<Box<Refusal>>,
    detail: CString,
}

impl Fault {
    pub fn of(error: u32) -> Self {
        Self::with(error, 0)
    }

    pub fn with(error: u32, number: u64) -> Self {
        let fault = bec_fault {
            error,
            error_class: class_of(error),
            number,
            ..bec_fault::default()
        };
        Self {
            fault,
            ..Self::default()
        }
    }

    /// Returns why a write or a change has failed.
    pub fn of_write(error: Error, client: &Client) -> Self {
        let may_be_made = client.may_be_made(&error).into();
        let mut fault = Self::from(error);
        fault.fault.may_be_made = may_be_made;
        fault
    }

    pub fn saying(self, text: impl Into<Vec<u8>>) -> Self {
        Self {
            text: Some(without_zeros(text)),
            ..self
        }
    }

    /// Returns what the error says.
    pub fn message(&self) -> &CStr {
        self.text.as_deref().unwrap_or_else(|| text_of(self.fault.error))
    }

    /// Returns a detail that the server has sent with the error.
    fn detail(&mut self, name: &str) -> Option<&CStr> {
        let refusal = self.refusal.as_ref()?;
        let detail = match name {
            "name" => refusal.name.to_string(),
            "message" => refusal.message.clone(),
            name => refusal.text_of(name)?,
        };
        self.detail = without_zeros(detail);
        Some(&self.detail)
    }

    /// Returns whether the connection can't be used any more.
    pub fn ends_connection(&self) -> bool {
        let ending = [
            BEC_LOST,
            BEC_TIMED_OUT,
            BEC_BAD_LINE,
            BEC_PANICKED,
            BEC_LINE_TOO_LONG,
            BEC_REQUEST_LATE,
            BEC_NOT_ALLOWED,
        ];
        ending.contains(&self.fault.error) || self.fault.error == sys::BES_NO_PASS
    }

    fn of_refusal(refusal: Refusal) -> Self {
        let error = refusal.number.unwrap_or_else(|| number_of(&refusal.name));
        let number = detail_of(&refusal.name).and_then(|detail| refusal.number_of(detail));
        let mut fault = Self::with(error, number.unwrap_or_default());
        fault.fault.error_class = class_number(refusal.class());
        let text = refusal.to_string();
        let name = format!("{}: ", refusal.name);
        fault.refusal = Some(Box::new(refusal));
        fault.saying(text.strip_prefix(&name).unwrap_or(&text))
    }
}

/// Returns which of a refusal's details is the number that the library reports with the same error, or that helps most with another one.
fn detail_of(name: &ErrorName) -> Option<&'static str> {
    Some(match name {
        ErrorName::Busy => "pass",
        ErrorName::Full => "oldest",
        ErrorName::Syntax | ErrorName::BadPattern | ErrorName::NotCovered => "offset",
        ErrorName::NameLength | ErrorName::DataLength | ErrorName::HasNul => "operation",
        ErrorName::Conflict | ErrorName::NotReached => "found",
        ErrorName::NoPass => "clients",
        _ => return None,
    })
}

impl From<Error> for Fault {
    fn from(error: Error) -> Self {
        let text = error.to_string();
        let code = match error {
            Error::Refused(refusal) => return Self::of_refusal(refusal),
            Error::KindMismatch { index, .. } => {
                let mut fault = Self::of(sys::BES_WRONG_KIND);
                fault.fault.kind = index.code();
                return fault.saying(text);
            }
            Error::Interrupted => BEC_INTERRUPTED,
            Error::OtherUser { server, .. } => return Self::with(BEC_OTHER_USER, server.into()).saying(text),
            Error::TimedOut(_) => BEC_TIMED_OUT,
            Error::BadLine(_) => BEC_BAD_LINE,
            _ => BEC_LOST,
        };
        Self::of(code).saying(text)
    }
}

/// Returns a text without its zero bytes.
pub(crate) fn without_zeros(text: impl Into<Vec<u8>>) -> CString {
    let mut text = text.into();
    text.retain(|byte| *byte != 0);
    CString::new(text).unwrap_or_default()
}

/// Writes what was reported with the error of the client's last call that failed.
/// [out] fault    the error's number, class and place
/// BES_CLOSED, BEC_IN_CALL.
/// Cost: constant. Nothing is asked of the server.
#[no_mangle]
pub unsafe extern "C" fn bec_last_fault(client: *mut bec_client, fault: *mut bec_fault) -> u32 {
    // SAFETY: the header says what the pointers are.
    unsafe {
        call(client, |state| {
            crate::memory::put(fault, state.fault.fault);
            Ok(())
        })
    }
}

/// Returns what the error of the client's last call that failed says, with its place and details: for an error in a query, also the
/// query with a caret under the place. The text ends with a zero byte, and is valid until the next call on the client. Without an error,
/// and without a client, the result is the text of BES_OK or BES_CLOSED.
#[no_mangle]
pub unsafe extern "C" fn bec_message(client: *mut bec_client) -> *const c_char {
    let mut text = text_of(sys::BES_CLOSED).as_ptr();
    // SAFETY: the header says what the pointer is.
    let error = unsafe {
        call(client, |state| {
            text = state.fault.message().as_ptr();
            Ok(())
        })
    };
    match error {
        sys::BES_OK => text,
        error => text_of(error).as_ptr(),
    }
}

/// Returns a detail that the server has sent with the error of the client's last call that failed, as text. Its numbers are decimal.
/// [in] name      what to return: "name" and "message" are the error's in the protocol, and bestore's SERVER.md lists the other details
///                of each error, such as "missing" of NotCovered, the name that needs an index
/// Returns NULL if the server has sent no such detail. The text ends with a zero byte, and is valid until the next call on the client.
#[no_mangle]
pub unsafe extern "C" fn bec_detail(client: *mut bec_client, name: *const c_char) -> *const c_char {
    let mut text = ptr::null();
    // SAFETY: the header says what the pointers are.
    unsafe {
        call(client, |state| {
            let name = match name.is_null() {
                true => "",
                false => CStr::from_ptr(name).to_str().unwrap_or_default(),
            };
            text = state.fault.detail(name).map_or(ptr::null(), CStr::as_ptr);
            Ok(())
        });
    }
    text
}
