//! Answers `text` requests with the comparisons in a query's text. This doesn't read a store.

use crate::failure::Failure;
use bestore::{compared, Compared, Form};
use bestore_client::wire::{self, Comparison, Comparisons};

/// Returns the comparisons in a query's text.
pub fn comparisons(query: &str) -> Result<Comparisons, Failure> {
    let found = compared(query)?;
    Ok(Comparisons {
        comparisons: found.into_iter().map(shown).collect(),
    })
}

fn shown(one: Compared) -> Comparison {
    Comparison {
        operator: one.operator.into(),
        form: match one.form {
            Form::Number => wire::Form::Number,
            Form::Text => wire::Form::Text,
            Form::Pattern => wire::Form::Pattern,
        },
        offset: one.offset as u64,
        length: one.length as u64,
        negated: one.is_negated,
        never: Comparison::names_of(&one.never),
        name: one.name,
        value: one.value,
    }
}
