//! Damage to the sheet of a strategy: to a function, to the pairs and their
//! order, to their form, to the prefix.

use super::trees::{any_kind, literal};
use super::Rng;
use crate::reference::{negated, strategy_formula, Binding, Formula, Kind, Node, Pair, Variable};

/// The strategy's formula with one mistake; the prefix binds all that is read.
pub fn damage_strategy(rng: &mut Rng, prefix: &[Binding], pairs: &[Pair]) -> Formula {
    let bound: Vec<Variable> = prefix.iter().map(|row| row.1).collect();
    let mut pairs = pairs.to_vec();
    let at = rng.below(pairs.len().max(1));
    match rng.below(12) {
        0 | 1 if !pairs.is_empty() => {
            let function = &mut pairs[at].function;
            let leaf = rng.below(leaves(function));
            change_leaf(function, leaf, &mut |leaf| *leaf = negated(leaf));
        }
        // Any variable at all: one in front, one behind, one of either side.
        2..=4 if !pairs.is_empty() => {
            let function = &mut pairs[at].function;
            let leaf = rng.below(leaves(function));
            change_leaf(function, leaf, &mut |leaf| *leaf = literal(rng, &bound));
        }
        5 if !pairs.is_empty() => {
            let other = rng.below(pairs.len());
            let function = pairs[at].function.clone();
            pairs[at].function = std::mem::replace(&mut pairs[other].function, function);
        }
        6 if !pairs.is_empty() => _ = pairs.remove(at),
        7 if !pairs.is_empty() => {
            let other = rng.below(pairs.len());
            pairs.swap(at, other);
        }
        8 => rng.shuffle(&mut pairs),
        9 => pairs
            .insert(at, Pair { variable: variable(rng, &bound), function: literal(rng, &bound) }),
        10 => return deformed(rng, strategy_formula(prefix, &pairs)),
        _ => return with_other_prefix(rng, strategy_formula(prefix, &pairs)),
    }
    strategy_formula(prefix, &pairs)
}

fn variable(rng: &mut Rng, bound: &[Variable]) -> Variable {
    if bound.is_empty() {
        1
    } else {
        rng.pick(bound)
    }
}

/// Literals and childless operators.
fn leaves(node: &Node) -> usize {
    match node.children() {
        [] => 1,
        children => children.iter().map(leaves).sum(),
    }
}

/// Applies `change` to the leaf that has this number from the left.
fn change_leaf(node: &mut Node, number: usize, change: &mut dyn FnMut(&mut Node)) {
    let mut left = number;
    match node {
        Node::Op { children, .. } if !children.is_empty() => {
            for child in children {
                let below = leaves(child);
                if left < below {
                    return change_leaf(child, left, change);
                }
                left -= below;
            }
        }
        leaf => change(leaf),
    }
}

/// A matrix that says no pairs, for the most part.
fn deformed(rng: &mut Rng, strategy: Formula) -> Formula {
    let Formula { prefix, mut matrix } = strategy;
    let Node::Op { kind, children } = &mut matrix else {
        unreachable!("the matrix of a strategy is an OR");
    };
    let at = rng.below(children.len().max(1));
    match (rng.below(6), children.get_mut(at)) {
        (0, _) => *kind = Kind::And,
        (1, Some(Node::Op { kind, .. })) => *kind = Kind::Or,
        (2, Some(Node::Op { children, .. })) => children.swap(0, 1),
        (3, Some(Node::Op { children, .. })) => children[0] = negated(&children[0]),
        (4, Some(Node::Op { children, .. })) => children.truncate(rng.between(0, 1)),
        (5, Some(Node::Op { children, .. })) => children.push(Node::empty(any_kind(rng))),
        _ => children.push(Node::empty(any_kind(rng))),
    }
    Formula { prefix, matrix }
}

/// A row of another kind, or two rows exchanged.
fn with_other_prefix(rng: &mut Rng, strategy: Formula) -> Formula {
    let Formula { mut prefix, matrix } = strategy;
    if !prefix.is_empty() {
        let (at, other) = (rng.below(prefix.len()), rng.below(prefix.len()));
        if at == other {
            prefix[at].0 = prefix[at].0.other();
        } else {
            prefix.swap(at, other);
        }
    }
    Formula { prefix, matrix }
}
