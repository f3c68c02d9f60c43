//! A text of QDIMACS with its variables numbered from 1, for numbers above a
//! sheet's limits.

use super::text::{Text, Word};
use crate::names::Names;
use std::collections::BTreeMap;

/// The text with the variables that occur numbered from 1 in their order, line by line, and by
/// their new numbers what they were; nothing if the text says no count, or has variables above it.
pub fn renumbered(bytes: &[u8]) -> Option<(Vec<u8>, Names)> {
    let text = Text::of(bytes);
    let (most, clauses) = text.counts()?;
    let variables = text.below.iter().filter(|word| word.is_number() && !word.is_zero());
    let mut numbers: BTreeMap<usize, usize> = variables.map(|word| (word.variable(), 0)).collect();
    if numbers.last_key_value().is_some_and(|(&highest, _)| highest > most) {
        return None;
    }
    numbers.values_mut().zip(1..).for_each(|(number, at)| *number = at);
    let line = text.header.first()?.line;
    let mut new = "\n".repeat(line - 1) + &format!("p cnf {} {clauses}", numbers.len());
    let mut last = line;
    for word in &text.below {
        new += if word.line > last { "\n" } else { " " };
        new += &"\n".repeat((word.line - last).saturating_sub(1));
        new += &written(word, &numbers);
        last = word.line;
    }
    let names = numbers.iter().map(|(was, number)| (*number, was.to_string()));
    Some(((new + "\n").into_bytes(), Names::new(names)))
}

/// A word under the new numbers; one that is no number stays as it is.
fn written(word: &Word, numbers: &BTreeMap<usize, usize>) -> String {
    match numbers.get(&word.variable()).filter(|_| word.is_number() && !word.is_zero()) {
        Some(number) if word.is_negative() => format!("-{number}"),
        Some(number) => number.to_string(),
        None => word.shown(),
    }
}
