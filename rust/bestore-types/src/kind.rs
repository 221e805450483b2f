//! The kinds of values.

use crate::sys;
use std::fmt;

macro_rules! kinds {
    ($($(#[$about:meta])* $kind:ident = $code:ident, $name:literal, $shown:literal, $indexable:literal, $number:literal;)*) => {
        /// The kind of a value. An index holds values of only one kind.
        #[derive(Clone, Copy, Debug, PartialEq, Eq, Hash, PartialOrd, Ord)]
        pub enum Kind {
            $($(#[$about])* $kind),*
        }

        impl Kind {
            /// Every kind.
            pub const ALL: [Kind; [$($name),*].len()] = [$(Kind::$kind),*];

            /// Returns the type code that BeOS uses.
            #[must_use]
            pub const fn code(self) -> u32 {
                match self {
                    $(Kind::$kind => sys::$code),*
                }
            }

            /// Returns the four letters of the type code, as used in scripts and in the journal's text.
            #[must_use]
            pub const fn name(self) -> &'static str {
                match self {
                    $(Kind::$kind => $name),*
                }
            }

            /// Returns `true` if an index can have this kind.
            #[must_use]
            pub const fn is_indexable(self) -> bool {
                match self {
                    $(Kind::$kind => $indexable),*
                }
            }

            /// Returns `true` if values of this kind are integers.
            #[must_use]
            pub const fn is_number(self) -> bool {
                match self {
                    $(Kind::$kind => $number),*
                }
            }
        }

        /// Formats the kind as its Rust type, or as `text`, `MIME type` or `raw bytes`.
        impl fmt::Display for Kind {
            fn fmt(&self, f: &mut fmt::Formatter<'_>) -> fmt::Result {
                f.write_str(match self {
                    $(Kind::$kind => $shown),*
                })
            }
        }
    };
}

kinds! {
    // surface.toml: kinds
    /// A string of up to 255 bytes, BeOS's `B_STRING_TYPE`.
    Text = BES_STRING_TYPE, "CSTR", "text", true, false;
    /// `B_INT32_TYPE`.
    Int32 = BES_INT32_TYPE, "LONG", "i32", true, true;
    /// `B_INT64_TYPE`.
    Int64 = BES_INT64_TYPE, "LLNG", "i64", true, true;
    /// A MIME type: a string that can't be indexed.
    Mime = BES_MIME_STRING_TYPE, "MIMS", "MIME type", false, false;
    /// Up to 255 bytes, which can't be indexed.
    Raw = BES_RAW_TYPE, "RAWT", "raw bytes", false, false;
    /// `B_UINT32_TYPE`.
    Uint32 = BES_UINT32_TYPE, "ULNG", "u32", true, true;
    /// `B_UINT64_TYPE`.
    Uint64 = BES_UINT64_TYPE, "ULLG", "u64", true, true;
    // surface.toml: end
}

impl Kind {
    /// Returns the lowest value in an index of this kind, or `None` if its values aren't integers.
    #[must_use]
    pub fn least(self) -> Option<i64> {
        match self {
            // surface.toml: least values
            Kind::Int32 => Some(i32::MIN.into()),
            Kind::Int64 => Some(i64::MIN),
            Kind::Uint32 => Some(0),
            Kind::Uint64 => Some(0),
            Kind::Text | Kind::Mime | Kind::Raw => None,
            // surface.toml: end
        }
    }

    /// Returns the size in bytes of an integer of this kind, or `None` if its values aren't integers.
    #[must_use]
    pub const fn width(self) -> Option<usize> {
        match self {
            // surface.toml: widths
            Kind::Int32 => Some(4),
            Kind::Int64 => Some(8),
            Kind::Uint32 => Some(4),
            Kind::Uint64 => Some(8),
            Kind::Text | Kind::Mime | Kind::Raw => None,
            // surface.toml: end
        }
    }

    /// Returns the kind with this type code.
    #[must_use]
    pub fn from_code(code: u32) -> Option<Kind> {
        Kind::ALL.into_iter().find(|kind| kind.code() == code)
    }
}

#[cfg(test)]
mod tests {
    use super::*;

    #[test]
    fn codes_lead_back_to_kinds() {
        for kind in Kind::ALL {
            assert_eq!(Kind::from_code(kind.code()), Some(kind));
            assert_eq!(kind.code().to_be_bytes(), kind.name().as_bytes());
        }
        assert_eq!(Kind::from_code(0), None);
    }
}
