//! The encoding of names and values, which batches and listings share. All numbers are little-endian.
//!
//! - A name: its length, one byte, and its bytes.
//! - A kind: the type code, 4 bytes.
//! - A value: a number in 8 bytes, or its length, one byte, and its bytes.

use crate::{Error, Kind, Result, ValueRef};
use std::ops::RangeInclusive;

/// The number of bytes that a name can have.
const LENGTHS_OF_A_NAME: RangeInclusive<u8> = 1..=63;

/// Adds a name. An error names the operation with this index.
pub(crate) fn write_name(name: &str, operation: Option<u64>, to: &mut Vec<u8>) -> Result<()> {
    let length = u8::try_from(name.len())
        .ok()
        .filter(|length| LENGTHS_OF_A_NAME.contains(length));
    to.push(length.ok_or(Error::NameLength { operation })?);
    write_text(name.as_bytes(), operation, to)
}

/// Adds a value without its kind. An error names the operation with this index.
pub(crate) fn write_value(value: ValueRef<'_>, operation: Option<u64>, to: &mut Vec<u8>) -> Result<()> {
    if value.kind().is_number() {
        to.extend_from_slice(&value.number().to_le_bytes());
        return Ok(());
    }
    let bytes = value.bytes();
    to.push(u8::try_from(bytes.len()).map_err(|_| Error::DataLength { operation })?);
    match value.kind() {
        Kind::Raw => to.extend_from_slice(bytes),
        _ => write_text(bytes, operation, to)?,
    }
    Ok(())
}

/// Adds the bytes of a name or a text, unless one of them is zero.
fn write_text(text: &[u8], operation: Option<u64>, to: &mut Vec<u8>) -> Result<()> {
    if text.contains(&0) {
        return Err(Error::HasNul { operation });
    }
    to.extend_from_slice(text);
    Ok(())
}

/// Reads the parts of a batch, in order. If a part isn't valid or is cut off, the error has its offset.
#[derive(Clone, Debug)]
pub(crate) struct Reader<'a> {
    bytes: &'a [u8],
    at: usize,
}

impl<'a> Reader<'a> {
    pub(crate) fn new(bytes: &'a [u8]) -> Self {
        Self { bytes, at: 0 }
    }

    pub(crate) fn is_at_end(&self) -> bool {
        self.at == self.bytes.len()
    }

    /// Returns the error for the byte `back` bytes before the next one to be read.
    pub(crate) fn bad<T>(&self, back: usize, why: &'static str) -> Result<T> {
        Err(Error::BadBatch {
            offset: self.at - back,
            why,
        })
    }

    fn take(&mut self, length: usize) -> Result<&'a [u8]> {
        match self.bytes.get(self.at..self.at + length) {
            Some(part) => {
                self.at += length;
                Ok(part)
            }
            None => self.bad(0, "the batch is cut off"),
        }
    }

    /// Reads a length in one byte, and that many bytes. If they are cut off, the error is at the length.
    fn counted(&mut self) -> Result<&'a [u8]> {
        let length = self.byte()?;
        if self.bytes.len() - self.at < length.into() {
            return self.bad(1, "the batch is cut off");
        }
        self.take(length.into())
    }

    fn array<const N: usize>(&mut self) -> Result<[u8; N]> {
        let mut array = [0; N];
        array.copy_from_slice(self.take(N)?);
        Ok(array)
    }

    pub(crate) fn byte(&mut self) -> Result<u8> {
        self.array::<1>().map(|[byte]| byte)
    }

    /// Reads 8 bytes.
    pub(crate) fn number(&mut self) -> Result<u64> {
        self.array().map(u64::from_le_bytes)
    }

    /// Reads the beginning, whose last byte is the version. `why` says what is wrong if the bytes before it are others.
    pub(crate) fn beginning(&mut self, beginning: [u8; 4], why: &'static str) -> Result<()> {
        for (at, expected) in (1..).zip(beginning) {
            if self.byte()? != expected {
                let other_version = "the batch's format has another version; only version 1 can be read";
                return self.bad(1, if at == beginning.len() { other_version } else { why });
            }
        }
        Ok(())
    }

    /// Returns the name or text that these bytes, which have just been read, encode.
    fn text(&self, bytes: &'a [u8]) -> Result<&'a str> {
        let text = std::str::from_utf8(bytes);
        let valid = text.map_or_else(|error| error.valid_up_to(), str::len);
        if let Some(zero) = bytes[..valid].iter().position(|byte| *byte == 0) {
            return self.bad(bytes.len() - zero, "a name or a text has a zero byte");
        }
        text.or_else(|_| self.bad(bytes.len() - valid, "a name or a text isn't valid UTF-8"))
    }

    pub(crate) fn name(&mut self) -> Result<&'a str> {
        let name = self.counted()?;
        match u8::try_from(name.len()) {
            Ok(length) if LENGTHS_OF_A_NAME.contains(&length) => self.text(name),
            _ => self.bad(name.len() + 1, "a name has 1 to 63 bytes"),
        }
    }

    pub(crate) fn kind(&mut self) -> Result<Kind> {
        match Kind::from_code(self.array().map(u32::from_le_bytes)?) {
            Some(kind) => Ok(kind),
            None => self.bad(4, "no kind has this type code"),
        }
    }

    /// Reads a value of this kind.
    pub(crate) fn value(&mut self, kind: Kind) -> Result<ValueRef<'a>> {
        if kind.is_number() {
            let number = self.number()?;
            let fits = match kind {
                Kind::Int32 => i32::try_from(number as i64).is_ok(),
                Kind::Uint32 => u32::try_from(number).is_ok(),
                _ => true,
            };
            return if fits {
                Ok(ValueRef::of_parts(kind, number, &[]))
            } else {
                self.bad(8, "the number doesn't fit its kind")
            };
        }
        let value = self.counted()?;
        if kind != Kind::Raw {
            self.text(value)?;
        }
        Ok(ValueRef::of_parts(kind, 0, value))
    }
}
