//! The library's calls that build a store from a volume, which is given in order.

use super::handle::Handle;
use super::{check, Answer, RawPass};
use bestore_sys::{self as sys, bes_builder};
use bestore_types::ValueRef;

/// A store that is being built. No call allocates memory in this crate.
#[derive(Debug)]
pub(crate) struct RawBuilder(Handle<bes_builder>);

impl RawBuilder {
    pub(crate) fn new(pages: u64, passes: u64, commits: u64) -> Answer<Self> {
        let builder = Self(Handle::new());
        // SAFETY: see the top of the module `raw`.
        let code = unsafe { sys::bes_build(pages, passes, commits, builder.0.get()?) };
        check(code, 0).map(|()| builder)
    }

    pub(crate) fn index(&self, name: &str, code: u32) -> Answer<()> {
        // SAFETY: see the top of the module `raw`.
        check(
            unsafe { sys::bes_build_index(self.0.get()?, name.as_ptr(), name.len(), code) },
            0,
        )
    }

    pub(crate) fn node(&self, node: u64) -> Answer<()> {
        // SAFETY: see the top of the module `raw`.
        check(unsafe { sys::bes_build_node(self.0.get()?, node) }, 0)
    }

    pub(crate) fn attribute(&self, name: &str, value: ValueRef<'_>, is_held: bool) -> Answer<()> {
        let (bytes, code, number) = (value.bytes(), value.kind().code(), value.number());
        let (text, length) = (name.as_ptr(), name.len());
        // SAFETY: see the top of the module `raw`; these are two separate slices, and they outlive the call.
        let code = unsafe {
            sys::bes_build_attribute(
                self.0.get()?,
                text,
                length,
                code,
                number,
                bytes.as_ptr(),
                bytes.len(),
                is_held.into(),
            )
        };
        check(code, 0)
    }

    /// Opens the store, and returns its first pass.
    pub(crate) fn finish(self, next: u64) -> Answer<RawPass> {
        let pass = RawPass::of_new_store();
        // SAFETY: see the top of the module `raw`; these are two different handles.
        let code = unsafe { sys::bes_build_finish(self.0.get()?, next, pass.handle.get()?) };
        check(code, 0).map(|()| pass)
    }
}
