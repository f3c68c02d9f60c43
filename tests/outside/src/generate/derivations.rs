//! Damage to a derivation, and words of any contents that say one.

use super::Rng;
use crate::reference::{Inference, Literal, Reason, Variable};

/// One mistake in a derivation that has a step: in a constraint, in a pivot, in
/// an antecedent, or in the list of steps.
pub fn damage_steps(rng: &mut Rng, variables: &[Variable], steps: &mut Vec<Inference>) {
    let (at, count) = (rng.below(steps.len()), steps.len());
    let Inference { reason, constraint } = &mut steps[at];
    let place = rng.below(constraint.len().max(1));
    match (rng.below(12), reason) {
        (0..=2, _) if !constraint.is_empty() => _ = constraint.remove(place),
        (3, _) if !constraint.is_empty() => constraint[place] = constraint[place].complement(),
        (4, _) if !constraint.is_empty() => constraint[place] = literal(rng, variables),
        (5, _) => constraint.push(literal(rng, variables)),
        (6, Reason::Derived { antecedents, .. }) => antecedents.swap(0, 1),
        (7, Reason::Derived { antecedents, .. }) => {
            antecedents[rng.below(2)] = rng.below(count + 2)
        }
        (8, Reason::Derived { pivot, .. }) => *pivot = pivot.complement(),
        (9, Reason::Derived { pivot, .. }) => *pivot = literal(rng, variables),
        (10, reason) => {
            *reason = match reason {
                Reason::Initial => Reason::Derived {
                    pivot: literal(rng, variables),
                    antecedents: [rng.below(count), rng.below(count)],
                },
                Reason::Derived { .. } => Reason::Initial,
            }
        }
        _ => _ = steps.remove(at),
    }
}

/// A literal of one of the variables; of variable 0 if there is none.
fn literal(rng: &mut Rng, variables: &[Variable]) -> Literal {
    let variable = if variables.is_empty() { 0 } else { rng.pick(variables) };
    Literal { positive: rng.one_in(2), variable }
}

/// Heads and codes: small numbers for the most part, so that some steps are
/// valid, and any word besides.
pub fn any_words(rng: &mut Rng, variables: &[Variable]) -> (Vec<u32>, Vec<u32>) {
    let code = |rng: &mut Rng| match rng.below(12) {
        0 => rng.word() as u32,
        1 => rng.below(8) as u32,
        _ if variables.is_empty() => 0,
        _ => (2 * rng.pick(variables) + rng.below(2)) as u32,
    };
    let steps = rng.between(1, 8);
    let codes: Vec<u32> = (0..rng.below(4 * steps)).map(|_| code(rng)).collect();
    let (mut heads, mut end) = (Vec::new(), 0);
    for step in 0..steps {
        let pivot = if rng.one_in(2) { 0 } else { code(rng).saturating_add(1) };
        heads.extend([pivot, rng.below(step + 1) as u32, rng.below(step + 1) as u32]);
        end = match rng.below(10) {
            0 => rng.word() as u32,
            1 => rng.below(codes.len() + 4) as u32,
            _ => end.saturating_add(rng.below(5) as u32),
        };
        heads.push(end);
    }
    heads.truncate(heads.len() - rng.below(4) * usize::from(rng.one_in(4)));
    (heads, codes)
}
