//! Clause sets and parities, within a budget and over a pool as in `trees`.

use super::trees::{literal, tidy};
use super::Rng;
use crate::reference::{Kind, Node, Variable};

/// Literals of different variables.
pub(super) fn clause(rng: &mut Rng, pool: &[Variable], width: usize) -> Vec<Node> {
    let mut chosen: Vec<Variable> = Vec::new();
    while chosen.len() < width.min(pool.len()) {
        let var = rng.pick(pool);
        if !chosen.contains(&var) {
            chosen.push(var);
        }
    }
    chosen.into_iter().map(|var| Node::Lit { positive: rng.one_in(2), var }).collect()
}

pub(super) fn clauses(rng: &mut Rng, pool: &[Variable], kind: Kind, budget: usize) -> Node {
    if pool.len() < 2 || budget < 7 {
        return tidy(rng, pool, kind, budget);
    }
    let widest = rng.between(2, 4);
    let mut rows = 1;
    let mut children = Vec::new();
    loop {
        let width = rng.between(2, widest).min(pool.len());
        if rows + 1 + width > budget {
            break;
        }
        rows += 1 + width;
        children.push(Node::Op { kind: kind.other(), children: clause(rng, pool, width) });
    }
    if children.len() < 2 {
        return tidy(rng, pool, kind, budget);
    }
    Node::Op { kind, children }
}

pub(super) fn loose_clauses(rng: &mut Rng, pool: &[Variable], kind: Kind, budget: usize) -> Node {
    let shortest = rng.pick(&[0, 1, 2, 3]);
    let mut rows = 1;
    let mut children = Vec::new();
    loop {
        let width = rng.between(shortest, 5);
        if rows + 1 + width > budget {
            return Node::Op { kind, children };
        }
        rows += 1 + width;
        let literals = (0..width).map(|_| literal(rng, pool)).collect();
        children.push(Node::Op { kind: kind.other(), children: literals });
    }
}

/// Several parities under one operator, or one of them alone.
pub(super) fn parities(rng: &mut Rng, pool: &[Variable], kind: Kind, budget: usize) -> Node {
    let most = rng.pick(&[3, 12, 100]);
    let mut rows = 1;
    let mut children = Vec::new();
    while pool.len() >= 2 && children.len() < most {
        let width = rng.between(2, 5).min(pool.len());
        if rows + parity_rows(width) > budget {
            break;
        }
        rows += parity_rows(width);
        let variables: Vec<Variable> = clause(rng, pool, width).iter().map(variable_of).collect();
        children.push(parity(&variables, rng.one_in(2), kind.other()));
    }
    match children.len() {
        0 => tidy(rng, pool, kind, budget),
        1 => children.remove(0),
        _ => Node::Op { kind, children },
    }
}

fn variable_of(literal: &Node) -> Variable {
    match literal {
        Node::Lit { var, .. } => *var,
        Node::Op { .. } => unreachable!("a clause holds literals"),
    }
}

fn parity_rows(width: usize) -> usize {
    if width == 1 {
        1
    } else {
        5 + 2 * parity_rows(width - 1)
    }
}

/// True when an odd number (or an even one) of the variables is 1.
fn parity(variables: &[Variable], odd: bool, outer: Kind) -> Node {
    let (&var, rest) = variables.split_first().expect("a parity has a variable");
    if rest.is_empty() {
        return Node::Lit { positive: odd, var };
    }
    let half = |positive: bool| {
        // OR of two cases of var, or AND of two implications from it.
        let flipped = (outer == Kind::Or) == positive;
        let below = parity(rest, odd != flipped, outer);
        Node::Op { kind: outer.other(), children: vec![Node::Lit { positive, var }, below] }
    };
    Node::Op { kind: outer, children: vec![half(true), half(false)] }
}

#[cfg(test)]
mod tests {
    use super::*;
    use crate::formulas::{all, formula};
    use crate::reference::Quantifier;
    use crate::truth;

    #[test]
    fn parity_is_parity() {
        for outer in [Kind::And, Kind::Or] {
            for odd in [false, true] {
                let matrix = parity(&[1, 2, 3, 4], odd, outer);
                assert_eq!(matrix.rows(), parity_rows(4));
                let values = truth::table(&formula(&all(Quantifier::Exists, 4), matrix));
                for (row, value) in values.into_iter().enumerate() {
                    assert_eq!(value, (row.count_ones() % 2 == 1) == odd);
                }
            }
        }
    }
}
