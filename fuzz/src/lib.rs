//! The code that the fuzz targets share: the function that libFuzzer calls, and a reader that takes inputs apart.

use std::os::raw::c_int;

/// Defines the function that libFuzzer calls with each input. If the body panics, the run ends, and libFuzzer saves the input.
#[macro_export]
macro_rules! target {
    (|$input:ident| $body:block) => {
        /// The function that libFuzzer calls.
        ///
        /// # Safety
        /// `bytes` must point to `length` readable bytes.
        #[no_mangle]
        pub unsafe extern "C" fn LLVMFuzzerTestOneInput(bytes: *const u8, length: usize) -> std::os::raw::c_int {
            fn run($input: &[u8]) $body
            let input = match length {
                0 => &[][..],
                // SAFETY: libFuzzer passes a pointer to this many bytes.
                _ => unsafe { std::slice::from_raw_parts(bytes, length) },
            };
            $crate::call(run, input)
        }
    };
}

/// Runs a target on an input, and returns the value that libFuzzer expects.
pub fn call(run: fn(&[u8]), input: &[u8]) -> c_int {
    run(input);
    0
}

/// Takes an input apart. Once the input is used up, everything taken from it is 0 or empty.
#[derive(Debug)]
pub struct Input<'a> {
    rest: &'a [u8],
}

impl<'a> Input<'a> {
    pub fn new(bytes: &'a [u8]) -> Self {
        Self { rest: bytes }
    }

    pub fn is_empty(&self) -> bool {
        self.rest.is_empty()
    }

    /// Takes up to this many bytes.
    pub fn bytes(&mut self, count: usize) -> &'a [u8] {
        let (taken, rest) = self.rest.split_at(count.min(self.rest.len()));
        self.rest = rest;
        taken
    }

    pub fn byte(&mut self) -> u8 {
        self.bytes(1).first().copied().unwrap_or_default()
    }

    pub fn number(&mut self) -> u64 {
        let taken = self.bytes(8);
        let mut all = [0; 8];
        all[..taken.len()].copy_from_slice(taken);
        u64::from_le_bytes(all)
    }

    /// Takes a part, whose length is in the two bytes before it.
    pub fn part(&mut self) -> &'a [u8] {
        let length = u16::from_le_bytes([self.byte(), self.byte()]);
        self.bytes(length.into())
    }
}
