//! Warnings about comparisons that can't be true for any node: the name has an integer index, but the value isn't an integer or is out of
//! range.

use crate::dates::{span_of, Clock};
use crate::kind::kind_name;
use bestore_client::wire::{Comparison, Form};
use bestore_types::Kind;
use std::collections::BTreeMap;

/// A comparison that can't be true.
#[derive(Debug, PartialEq, Eq)]
pub struct Hint {
    /// Why it can't be true, and what would be right.
    pub message: String,
    /// The byte offset in the text at which the comparison begins.
    pub offset: usize,
}

/// Returns the comparisons in this text that can't be true for any node, given indices of these kinds.
pub fn hints(text: &str, compared: &[Comparison], indices: &BTreeMap<String, Kind>) -> Vec<Hint> {
    let hint = |one: &Comparison| {
        let kind = *indices.get(&one.name).filter(|kind| one.is_never(**kind))?;
        hint(text, one, kind)
    };
    compared.iter().filter_map(hint).collect()
}

fn hint(text: &str, comparison: &Comparison, kind: Kind) -> Option<Hint> {
    let Comparison { name, value, .. } = comparison;
    let offset = usize::try_from(comparison.offset).ok()?;
    let asked = text.get(offset..)?.get(..usize::try_from(comparison.length).ok()?)?;
    let why = match (comparison.form, kind) {
        (Form::Number, Kind::Int32) => format!("from {} to {}", i32::MIN, i32::MAX),
        (Form::Number, Kind::Int64) => format!("from {} to {}", i64::MIN, i64::MAX),
        (Form::Number, Kind::Uint32) => format!("from 0 to {}", u32::MAX),
        (Form::Number, _) => format!("from 0 to {}", u64::MAX),
        _ => format!("and {value} isn't a whole number"),
    };
    let help = match span_of(value, &Clock::of_machine()) {
        Ok(_) if comparison.form != Form::Number => format!("; write a date as %{value}%"),
        _ => String::new(),
    };
    let never = if comparison.negated {
        "finds nothing"
    } else {
        "is never true"
    };
    let kind = kind_name(kind);
    Some(Hint {
        message: format!("{asked} {never}: {name} is {kind}, {why}{help}"),
        offset,
    })
}

#[cfg(test)]
mod tests {
    use super::*;
    use std::slice::from_ref;

    /// Returns a comparison that takes up the text from the byte `offset` on.
    fn compared(text: &str, offset: usize, value: &str, form: Form) -> Comparison {
        Comparison {
            name: "t".into(),
            operator: ">".into(),
            value: value.into(),
            form,
            offset: offset as u64,
            length: (text.trim_end_matches(')').len() - offset) as u64,
            negated: text.starts_with('!'),
            never: vec!["int64".into(), "uint32".into()],
        }
    }

    #[test]
    fn a_hint_says_why_and_what_would_be_right() {
        for (text, offset, value, form, kind, message) in [
            ("t>1.5", 0, "1.5", Form::Text, Kind::Int64, "t>1.5 is never true: t is int64, and 1.5 isn't a whole number"),
            (
                "t >= 2026-11-01",
                0,
                "2026-11-01",
                Form::Text,
                Kind::Int64,
                "t >= 2026-11-01 is never true: t is int64, and 2026-11-01 isn't a whole number; write a date as %2026-11-01%",
            ),
            ("!(t>=0)", 2, "0", Form::Number, Kind::Uint32, "t>=0 finds nothing: t is uint32, from 0 to 4294967295"),
        ] {
            let indices = [("t".to_string(), kind)].into();
            let found = hints(text, &[compared(text, offset, value, form)], &indices);
            assert_eq!((&*found[0].message, found[0].offset), (message, offset));
        }
    }

    #[test]
    fn what_may_be_true_has_no_hint() {
        let one = compared("t>1.5", 0, "1.5", Form::Text);
        let hints = |name: &str, kind| hints("t>1.5", from_ref(&one), &[(name.to_string(), kind)].into());
        assert_eq!(hints("t", Kind::Int64).len(), 1);
        assert!(hints("t", Kind::Text).is_empty() && hints("u", Kind::Int64).is_empty());
        // If the server sends an offset past the end of the text, there is no hint.
        let beyond = Comparison {
            offset: 9,
            ..one.clone()
        };
        assert!(super::hints("t>1.5", &[beyond], &[("t".to_string(), Kind::Int64)].into()).is_empty());
    }
}
