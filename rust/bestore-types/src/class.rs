//! The library's errors: what each one means, and what a program can do about it.

use crate::sys;
use std::fmt;

macro_rules! classes {
    ($($(#[$about:meta])* $class:ident = $name:literal;)*) => {
        /// What a program can do about an error.
        #[derive(Clone, Copy, Debug, PartialEq, Eq, Hash)]
        pub enum Class {
            $($(#[$about])* $class),*
        }

        impl Class {
            /// Every class.
            pub const ALL: &'static [Class] = &[$(Class::$class),*];

            /// Returns the class's name in the server's protocol.
            #[must_use]
            pub const fn name(self) -> &'static str {
                match self {
                    $(Class::$class => $name),*
                }
            }
        }
    };
}

classes! {
    // surface.toml: classes
    /// Another pass, client or write interfered: call again, and after a conflict read again first.
    Retry = "retry";
    /// The call isn't valid here: it will keep failing until the program or its input changes.
    Mine = "mine";
    /// There is no space left: free some, or open a larger store.
    Full = "full";
    /// The handle, snapshot, connection or file that the call used is lost: open it again.
    Gone = "gone";
    // surface.toml: end
}

impl Class {
    /// Returns the class with this name.
    #[must_use]
    pub fn named(name: &str) -> Option<Class> {
        Class::ALL.iter().copied().find(|class| class.name() == name)
    }
}

impl fmt::Display for Class {
    fn fmt(&self, f: &mut fmt::Formatter<'_>) -> fmt::Result {
        f.write_str(self.name())
    }
}

/// An error from the library, with its details.
#[derive(Debug)]
pub struct Meaning {
    /// The error's number in `bestore.h`.
    pub code: u32,
    /// What a program can do about the error.
    pub class: Class,
    /// What was wrong.
    pub what: &'static str,
    /// A hint on how to fix it, or an empty string.
    pub advice: &'static str,
}

/// The meaning of an error added by a later version of the library. It assumes that repeating the call won't help.
const UNKNOWN: Meaning = Meaning {
    code: sys::BES_OK,
    class: Class::Mine,
    what: "the library has an error that this crate doesn't know",
    advice: "",
};

impl Meaning {
    /// Appends the hint to the description of the error.
    pub(crate) fn show_advice(&self, f: &mut fmt::Formatter<'_>) -> fmt::Result {
        match self.advice {
            "" => Ok(()),
            advice => write!(f, "; {advice}"),
        }
    }

    /// Returns the meaning of the error with this number.
    #[must_use]
    pub fn of(code: u32) -> &'static Meaning {
        MEANINGS.iter().find(|meaning| meaning.code == code).unwrap_or(&UNKNOWN)
    }
}

/// All of the library's errors.
pub const MEANINGS: &[Meaning] = &[
    // surface.toml: errors
    Meaning {
        code: sys::BES_BUSY,
        class: Class::Retry,
        what: "another pass is writing",
        advice: "call again once it has finished",
    },
    Meaning {
        code: sys::BES_NO_NODE,
        class: Class::Mine,
        what: "there is no such node",
        advice: "",
    },
    Meaning {
        code: sys::BES_NO_ATTRIBUTE,
        class: Class::Mine,
        what: "the node has no attribute of this name",
        advice: "",
    },
    Meaning {
        code: sys::BES_TOO_MANY_ATTRS,
        class: Class::Full,
        what: "the node has 64 attributes, the most it can have",
        advice: "remove one first",
    },
    Meaning {
        code: sys::BES_INDEX_EXISTS,
        class: Class::Mine,
        what: "there is already an index of this name",
        advice: "",
    },
    Meaning {
        code: sys::BES_NO_INDEX,
        class: Class::Mine,
        what: "there is no index of this name",
        advice: "",
    },
    Meaning {
        code: sys::BES_TOO_MANY_INDICES,
        class: Class::Full,
        what: "the store has 32 indices, the most it can have",
        advice: "remove one first",
    },
    Meaning {
        code: sys::BES_NOT_INDEXABLE,
        class: Class::Mine,
        what: "an index can't have this kind",
        advice: "indices hold text or integers, but not MIME types or raw bytes",
    },
    Meaning {
        code: sys::BES_COMMITS_SPENT,
        class: Class::Full,
        what: "the journal has reached the limit that the store was opened with",
        advice: "copy the state into a new store",
    },
    Meaning {
        code: sys::BES_NO_MEMORY,
        class: Class::Full,
        what: "out of memory",
        advice: "free some and call again",
    },
    Meaning {
        code: sys::BES_FULL,
        class: Class::Full,
        what: "no page is free",
        advice: "unpin old snapshots, remove nodes, or open a store with more pages",
    },
    Meaning {
        code: sys::BES_SYNTAX,
        class: Class::Mine,
        what: "this query isn't valid here",
        advice: "it needs comparisons such as size>=5, joined by && or ||",
    },
    Meaning {
        code: sys::BES_BAD_PATTERN,
        class: Class::Mine,
        what: "this pattern isn't valid here",
        advice: "a set such as [a-d] must be closed by ], must not be empty, and its ranges must ascend",
    },
    Meaning {
        code: sys::BES_TOO_LONG,
        class: Class::Mine,
        what: "the query has more than 4,096 bytes",
        advice: "",
    },
    Meaning {
        code: sys::BES_TOO_DEEP,
        class: Class::Mine,
        what: "the query nests parentheses and ! more than 64 levels deep",
        advice: "",
    },
    Meaning {
        code: sys::BES_TOO_MANY,
        class: Class::Mine,
        what: "the query has more than 256 comparisons",
        advice: "",
    },
    Meaning {
        code: sys::BES_NOT_COVERED,
        class: Class::Mine,
        what: "no index can answer the query",
        advice: "compare a name that has an index, on both sides of each ||",
    },
    Meaning {
        code: sys::BES_NAME_LENGTH,
        class: Class::Mine,
        what: "a name is empty or has more than 63 bytes",
        advice: "",
    },
    Meaning {
        code: sys::BES_DATA_LENGTH,
        class: Class::Mine,
        what: "a value has more than 255 bytes",
        advice: "",
    },
    Meaning {
        code: sys::BES_HAS_NUL,
        class: Class::Mine,
        what: "a name or a text has a zero byte",
        advice: "only a raw value may have one",
    },
    Meaning {
        code: sys::BES_BAD_LIMITS,
        class: Class::Mine,
        what: "a limit of the store is out of range",
        advice: "a store has 8 to 16,777,216 pages, 1 to 64 passes and 1 to 4,294,967,295 commits",
    },
    Meaning {
        code: sys::BES_BAD_RPN,
        class: Class::Mine,
        what: "the items don't form a query",
        advice: "each operator takes the items before it, and exactly one query must remain at the end",
    },
    Meaning {
        code: sys::BES_CLOSED,
        class: Class::Gone,
        what: "the handle is closed",
        advice: "use an open one",
    },
    Meaning {
        code: sys::BES_OPEN,
        class: Class::Mine,
        what: "the handle is already open",
        advice: "close it first, or use another one",
    },
    Meaning {
        code: sys::BES_NOT_PINNED,
        class: Class::Mine,
        what: "no snapshot is pinned",
        advice: "pin one before you read",
    },
    Meaning {
        code: sys::BES_PINNED,
        class: Class::Mine,
        what: "a snapshot is already pinned",
        advice: "unpin it first",
    },
    Meaning {
        code: sys::BES_NO_PASS,
        class: Class::Full,
        what: "every pass of the store is in use",
        advice: "close one, or open the store with more",
    },
    Meaning {
        code: sys::BES_BAD_COUNT,
        class: Class::Mine,
        what: "a batch has 1 to 64 operations, and a call reads up to 4,294,967,296 values",
        advice: "",
    },
    Meaning {
        code: sys::BES_NOT_UTF8,
        class: Class::Mine,
        what: "the text isn't valid UTF-8",
        advice: "",
    },
    Meaning {
        code: sys::BES_NO_OPERATION,
        class: Class::Mine,
        what: "there is no operation with this number",
        advice: "operations are numbered 0 to 5",
    },
    Meaning {
        code: sys::BES_NO_KIND,
        class: Class::Mine,
        what: "no kind has this type code",
        advice: "",
    },
    Meaning {
        code: sys::BES_NO_VALUE,
        class: Class::Mine,
        what: "the number doesn't fit its kind",
        advice: "use a kind that holds it",
    },
    Meaning {
        code: sys::BES_BAD_PART,
        class: Class::Mine,
        what: "a name or value lies outside the bytes that were passed with the list",
        advice: "",
    },
    Meaning {
        code: sys::BES_NO_ITEM,
        class: Class::Mine,
        what: "there is no item with this number",
        advice: "items are numbered 0 to 15",
    },
    Meaning {
        code: sys::BES_CONFLICT,
        class: Class::Retry,
        what: "the journal's length isn't what the write expects",
        advice: "read again, and base the write on that",
    },
    Meaning {
        code: sys::BES_IN_USE,
        class: Class::Retry,
        what: "another handle of the store is open",
        advice: "close it first",
    },
    Meaning {
        code: sys::BES_BAD_CURSOR,
        class: Class::Mine,
        what: "the cursor doesn't belong to this index",
        advice: "start without a cursor, or use one from a page in this index's order",
    },
    Meaning {
        code: sys::BES_NO_ROOM,
        class: Class::Mine,
        what: "a page has at least one node",
        advice: "ask for one or more",
    },
    Meaning {
        code: sys::BES_WRONG_KIND,
        class: Class::Mine,
        what: "the index of this name takes values of another kind",
        advice: "set a value of the index's kind",
    },
    Meaning {
        code: sys::BES_NESTED,
        class: Class::Mine,
        what: "a change's function wrote through the change's own pass, or unpinned it",
        advice: "add the operation to the change, or use another pass",
    },
    // surface.toml: end
];

#[cfg(test)]
mod tests {
    use super::*;

    #[test]
    fn each_class_has_a_name_of_its_own() {
        for class in Class::ALL {
            assert_eq!(Class::named(class.name()), Some(*class));
        }
        assert_eq!(Class::named("Retry"), None);
    }

    #[test]
    fn an_unknown_error_is_not_tried_again() {
        assert_eq!(Meaning::of(sys::BES_BUSY).class, Class::Retry);
        assert_eq!(Meaning::of(99).class, Class::Mine);
    }

    #[test]
    fn each_error_has_a_text_and_the_class_of_the_header() {
        let code = |class: Class| {
            let named = format!("BES_CLASS_{}", class.name().to_uppercase());
            sys::CONSTANTS
                .iter()
                .find(|(name, _)| *name == named)
                .map(|(_, code)| *code)
        };
        for meaning in MEANINGS {
            assert!(!meaning.what.is_empty() && code(meaning.class).is_some(), "{meaning:?}");
        }
    }
}
