//! Counts in words.

/// A number with its noun, in the plural unless it is one.
pub fn count(number: usize, noun: &str) -> String {
    let ending = if number == 1 { "" } else { "s" };
    format!("{number} {noun}{ending}")
}
