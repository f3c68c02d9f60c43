//! Truth by the two splitting rules, over every assignment. It shares no code
//! with Trial, so that either can judge the other.

use crate::reference::{Binding, Formula, Kind, Node, Pair, Quantifier, Variable};
use std::collections::HashMap;

/// Truth of a formula. Time doubles with each variable.
pub fn is_true(formula: &Formula) -> bool {
    split(&formula.prefix, &formula.matrix, &mut zeros(formula))
}

/// A value for each number up to the highest one bound.
fn zeros(formula: &Formula) -> Vec<bool> {
    vec![false; formula.highest_variable() + 1]
}

/// For exists, true with z=0 or with z=1; for all, with both.
fn split(prefix: &[Binding], matrix: &Node, assignment: &mut [bool]) -> bool {
    let Some((&(quantifier, z), rest)) = prefix.split_first() else {
        return holds(matrix, assignment);
    };
    assignment[z] = false;
    let with_zero = split(rest, matrix, assignment);
    assignment[z] = true;
    let with_one = split(rest, matrix, assignment);
    match quantifier {
        Quantifier::Exists => with_zero | with_one,
        Quantifier::ForAll => with_zero & with_one,
    }
}

/// The usual meaning of AND and OR.
pub fn holds(node: &Node, assignment: &[bool]) -> bool {
    match node {
        Node::Lit { positive, var } => assignment[*var] == *positive,
        Node::Op { kind, children } => {
            let unit = *kind == Kind::And;
            children.iter().fold(unit, |so_far, child| match kind {
                Kind::And => so_far & holds(child, assignment),
                Kind::Or => so_far | holds(child, assignment),
            })
        }
    }
}

/// Whether a side wins if its pairs are played, the last one first, over every
/// assignment: no variable of the other side changes, the matrix has the value
/// that the side wants, and each of its variables is a function of the other
/// side's variables in front of it. Time doubles with each variable.
pub fn wins(side: Quantifier, formula: &Formula, pairs: &[Pair]) -> bool {
    let mut values = HashMap::new();
    let mut given = zeros(formula);
    let assignments = 0..1_usize << formula.prefix.len();
    assignments.into_iter().all(|bits| {
        for (at, row) in formula.prefix.iter().enumerate() {
            given[row.1] = bits >> at & 1 == 1;
        }
        let played = play(pairs, &given);
        holds(&formula.matrix, &played) == (side == Quantifier::Exists)
            && is_function(side, &formula.prefix, &given, &played, &mut values)
    })
}

/// The assignment with each pair's value for its variable.
pub fn play(pairs: &[Pair], given: &[bool]) -> Vec<bool> {
    let mut played = given.to_vec();
    for pair in pairs.iter().rev() {
        played[pair.variable] = holds(&pair.function, &played);
    }
    played
}

/// Whether a play keeps the other side's values, and gives the side's variables
/// the values that it gave them before on the same values in front.
fn is_function(
    side: Quantifier,
    prefix: &[Binding],
    given: &[bool],
    played: &[bool],
    values: &mut HashMap<(Variable, Vec<bool>), bool>,
) -> bool {
    let mut in_front = Vec::new();
    prefix.iter().all(|&(quantifier, x)| {
        if quantifier == side {
            *values.entry((x, in_front.clone())).or_insert(played[x]) == played[x]
        } else {
            in_front.push(given[x]);
            played[x] == given[x]
        }
    })
}

/// The matrix's value under every assignment of the prefix, the first row
/// counting slowest.
pub fn table(formula: &Formula) -> Vec<bool> {
    let mut values = Vec::new();
    fill_table(&formula.prefix, &formula.matrix, &mut zeros(formula), &mut values);
    values
}

fn fill_table(prefix: &[Binding], matrix: &Node, assignment: &mut [bool], values: &mut Vec<bool>) {
    let Some((&(_, z), rest)) = prefix.split_first() else {
        values.push(holds(matrix, assignment));
        return;
    };
    for value in [false, true] {
        assignment[z] = value;
        fill_table(rest, matrix, assignment, values);
    }
}
