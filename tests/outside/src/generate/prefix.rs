//! Prefixes.

use super::Rng;
use crate::reference::{Binding, Format, Quantifier, Variable};

/// How quantifiers follow one another.
#[derive(Clone, Copy)]
pub(super) enum Style {
    All(Quantifier),
    Alternating,
    Blocks,
    Mixed,
}

/// A prefix of `count` variables in any style.
pub(super) fn prefix(rng: &mut Rng, format: Format, count: usize) -> Vec<Binding> {
    let style = rng.pick(&[
        Style::All(Quantifier::Exists),
        Style::All(Quantifier::ForAll),
        Style::Alternating,
        Style::Alternating,
        Style::Blocks,
        Style::Blocks,
        Style::Mixed,
    ]);
    prefix_of(rng, format, style, count)
}

pub(super) fn prefix_of(rng: &mut Rng, format: Format, style: Style, count: usize) -> Vec<Binding> {
    let mut quantifier = any_quantifier(rng);
    let mut rows = Vec::new();
    for var in variable_numbers(rng, format, count) {
        quantifier = next_quantifier(rng, style, quantifier);
        rows.push((quantifier, var));
    }
    rows
}

fn any_quantifier(rng: &mut Rng) -> Quantifier {
    rng.pick(&[Quantifier::Exists, Quantifier::ForAll])
}

fn next_quantifier(rng: &mut Rng, style: Style, last: Quantifier) -> Quantifier {
    match style {
        Style::All(only) => only,
        Style::Alternating => last.other(),
        Style::Blocks if rng.one_in(4) => last.other(),
        Style::Blocks => last,
        Style::Mixed => any_quantifier(rng),
    }
}

/// Numbers without repetition: 1 to `count`, in order or not, or any that the
/// format has.
pub(super) fn variable_numbers(rng: &mut Rng, format: Format, count: usize) -> Vec<Variable> {
    let highest = if rng.one_in(3) { format.most_variables.max(count) } else { count };
    let mut numbers: Vec<Variable> = (1..=highest).collect();
    if highest > count || rng.one_in(2) {
        rng.shuffle(&mut numbers);
    }
    numbers.truncate(count);
    numbers
}
