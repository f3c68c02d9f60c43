//! Document 01's formulas tried by hand, and short ways to write others.

use crate::reference::{Binding, Format, Formula, Node, Quantifier};
use Quantifier::{Exists, ForAll};

pub fn lit(signed: i32) -> Node {
    Node::literal(signed)
}

pub fn and(children: Vec<Node>) -> Node {
    Node::and(children)
}

pub fn or(children: Vec<Node>) -> Node {
    Node::or(children)
}

/// AND of literals.
pub fn cube(literals: &[i32]) -> Node {
    and(literals.iter().map(|&signed| lit(signed)).collect())
}

/// OR of literals.
pub fn clause(literals: &[i32]) -> Node {
    or(literals.iter().map(|&signed| lit(signed)).collect())
}

pub fn formula(prefix: &[Binding], matrix: Node) -> Formula {
    Formula { prefix: prefix.to_vec(), matrix }
}

pub fn all(quantifier: Quantifier, count: usize) -> Vec<Binding> {
    (1..=count).map(|var| (quantifier, var)).collect()
}

pub fn sheet(format: Format, prefix: &[Binding], matrix: Node) -> Vec<u8> {
    format.encode(&formula(prefix, matrix))
}

/// For all others, exists 1: AND of so many clauses, four or more, of 1 and one other variable. All
/// variables have both signs, and no two clauses are equal.
pub fn valve_clauses(count: usize) -> Formula {
    let others = count / 4;
    let of = |at: usize| {
        let (pair, round) = (at / 2 % others, at / 2 / others);
        let sign = |negative: usize| if negative.is_multiple_of(2) { 1 } else { -1 };
        let (one, other) = (sign(round), sign(at) * (2 + pair as i32));
        clause(&if round < 2 { [one, other] } else { [other, one] })
    };
    let mut prefix: Vec<Binding> = (2..others + 2).map(|var| (ForAll, var)).collect();
    prefix.push((Exists, 1));
    formula(&prefix, and((0..count).map(of).collect()))
}

/// The tautology over 1 and 2 with thirteen rows.
pub fn four_cubes() -> Node {
    or(vec![cube(&[1, 2]), cube(&[1, -2]), cube(&[-1, 2]), cube(&[-1, -2])])
}

/// Document 001, figure 1.
pub fn semantic_tree_figure() -> Formula {
    formula(
        &[(Exists, 1), (ForAll, 2), (Exists, 3), (Exists, 4)],
        and(vec![clause(&[-1, 2, -3]), clause(&[3, -4]), clause(&[3, 4]), clause(&[1, -2, -3])]),
    )
}

/// Document 000, figure 1.
pub fn nnf_tree_figure() -> Node {
    or(vec![lit(-1), cube(&[2, 3, -4]), cube(&[1, -3])])
}

pub fn equal_pair() -> Node {
    or(vec![cube(&[1, 2]), cube(&[-1, -2])])
}

/// The formulas of document 01's list, in its order, with its line for each.
pub fn tried_by_hand() -> Vec<(Formula, &'static str)> {
    vec![
        (formula(&[], and(vec![])), "true 0 0 0"),
        (formula(&[], or(vec![])), "false 0 0 0"),
        (formula(&all(ForAll, 1), clause(&[1, -1])), "true 0 0 0"),
        (formula(&all(ForAll, 2), four_cubes()), "true 0 1 0"),
        (semantic_tree_figure(), "false 1 2 0"),
        (formula(&all(Exists, 4), nnf_tree_figure()), "true 1 0 0"),
        (formula(&all(ForAll, 4), nnf_tree_figure()), "false 3 0 0"),
        (formula(&[(ForAll, 2), (Exists, 1)], equal_pair()), "true 0 1 0"),
        (formula(&[(Exists, 1), (ForAll, 2)], equal_pair()), "false 0 1 0"),
    ]
}
