//! Conversion of the library's errors to errors with details.

use crate::raw::{comparisons, Refused, FORKED};
use crate::{CursorFault, Error, Kind, QueryError, QueryFault};
use bestore_sys as sys;

/// Returns the error for ordering by a name that has no index. `indices` are the existing indices.
pub(crate) fn no_order(name: &str, indices: Vec<(String, Kind)>) -> Error {
    Error::NoOrder {
        name: name.into(),
        indices: indices.into_iter().map(|(name, _)| name).collect(),
    }
}

/// Converts the library's refusal of a query with this text.
pub(crate) fn of_query(refused: Refused, text: impl FnOnce() -> String) -> Error {
    match QueryFault::from_code(refused.code) {
        Some(fault) => {
            let offset = fault.has_offset().then_some(refused.carried);
            let offset = offset.and_then(|offset| usize::try_from(offset).ok());
            Error::Query(QueryError::new(text(), fault, offset))
        }
        None => refused.into(),
    }
}

/// Removes the offset from an error whose number isn't a byte offset in the text.
pub(crate) fn without_offset(error: Error) -> Error {
    match error {
        Error::Query(error) => Error::Query(QueryError::new(error.text(), error.fault(), None)),
        other => other,
    }
}

/// Adds the first missing index to the error of a query that needs one.
pub(crate) fn with_missing(error: Error, has_index: impl Fn(&str) -> bool) -> Error {
    match error {
        Error::Query(error) if error.fault() == QueryFault::NotCovered => {
            let missing = first_missing(error.text(), has_index);
            Error::Query(match missing {
                Some((name, offset)) => error.with_missing(name, offset),
                None => error,
            })
        }
        other => other,
    }
}

/// Returns the first name in a query that has no index, and its offset.
fn first_missing(query: &str, has_index: impl Fn(&str) -> bool) -> Option<(String, usize)> {
    let found = comparisons(query).ok()?;
    let mut names = found.list.iter().map(|one| (found.name(one), one.at as usize));
    names.find(|(name, _)| !has_index(name))
}

/// Converts the library's refusal of a write of `count` operations, which expected this length of the journal, if any.
pub(crate) fn of_write(refused: Refused, count: usize, expected: Option<u64>) -> Error {
    let operation = Some(refused.carried);
    match (refused.code, expected) {
        (sys::BES_NAME_LENGTH, _) => Error::NameLength { operation },
        (sys::BES_DATA_LENGTH, _) => Error::DataLength { operation },
        (sys::BES_HAS_NUL, _) => Error::HasNul { operation },
        (sys::BES_BAD_COUNT, _) => Error::BadCount { count },
        (sys::BES_CONFLICT, Some(expected)) => Error::Conflict {
            expected,
            found: refused.carried,
        },
        _ => refused.into(),
    }
}

impl From<Refused> for Error {
    fn from(refused: Refused) -> Self {
        let operation = None;
        match refused.code {
            // surface.toml: errors
            sys::BES_NO_NODE => Error::NoNode,
            sys::BES_NO_ATTRIBUTE => Error::NoAttribute,
            sys::BES_TOO_MANY_ATTRS => Error::TooManyAttributes,
            sys::BES_INDEX_EXISTS => Error::IndexExists,
            sys::BES_NO_INDEX => Error::NoIndex,
            sys::BES_TOO_MANY_INDICES => Error::TooManyIndices,
            sys::BES_NOT_INDEXABLE => Error::NotIndexable,
            sys::BES_COMMITS_SPENT => Error::CommitsSpent,
            sys::BES_NO_MEMORY => Error::OutOfMemory,
            sys::BES_BAD_LIMITS => Error::BadLimits,
            sys::BES_NO_PASS => Error::NoPass,
            sys::BES_IN_USE => Error::InUse,
            sys::BES_NO_ROOM => Error::NoRoom,
            sys::BES_NESTED => Error::Nested,
            // surface.toml: end
            sys::BES_BUSY => Error::Busy { pass: refused.carried },
            sys::BES_FULL => Error::Full {
                oldest: refused.carried,
            },
            sys::BES_NAME_LENGTH => Error::NameLength { operation },
            sys::BES_DATA_LENGTH => Error::DataLength { operation },
            sys::BES_HAS_NUL => Error::HasNul { operation },
            sys::BES_BAD_CURSOR => Error::BadCursor(CursorFault::Text),
            FORKED => Error::Forked,
            code => Error::Unexpected {
                code,
                carried: refused.carried,
            },
        }
    }
}

#[cfg(test)]
mod tests {
    use super::*;
    use crate::Class;
    use bestore_types::raw::{Meaning, MEANINGS};

    fn refused(code: u32, carried: u64) -> Refused {
        Refused { code, carried }
    }

    #[test]
    fn each_code_leads_to_its_error_and_back() {
        for Meaning { code, class, what, .. } in MEANINGS {
            let error = match of_query(refused(*code, 7), String::new) {
                Error::Query(error) => Error::Query(error),
                _ => of_write(refused(*code, 7), 65, Some(6)),
            };
            assert_eq!((error.code(), error.class()), (Some(*code), *class), "{what}");
            // A cursor error says why the page can't continue from the cursor, and BadCount is only about batches.
            assert!(
                matches!(*code, sys::BES_BAD_CURSOR | sys::BES_BAD_COUNT) || error.to_string().starts_with(what),
                "{error}"
            );
        }
    }

    #[test]
    fn an_error_that_is_not_known_keeps_its_number() {
        let unexpected = Error::from(refused(99, 0));
        assert_eq!((unexpected.class(), unexpected.code()), (Class::Mine, Some(99)));
    }

    #[test]
    fn what_is_known_is_shown() {
        let conflict = of_write(refused(sys::BES_CONFLICT, 9), 1, Some(8));
        assert_eq!(
            conflict.to_string(),
            "the journal's length isn't what the write expects (9, not 8); read again, and base the write on that"
        );
        let name = of_write(refused(sys::BES_NAME_LENGTH, 3), 4, None);
        assert_eq!(
            name.to_string(),
            "a name is empty or has more than 63 bytes (operation 3, counted from 0)"
        );
        let count = of_write(refused(sys::BES_BAD_COUNT, 0), 65, None);
        assert_eq!(count.to_string(), "a batch has 1 to 64 operations, and this one has 65");
    }
}
