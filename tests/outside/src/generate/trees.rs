//! Nested trees. A matrix has at most `budget` rows, at least 1, and literals
//! of the variables of `pool`.

use super::clauses::clause;
use super::Rng;
use crate::reference::{Kind, Node, Variable};

pub(super) fn any_kind(rng: &mut Rng) -> Kind {
    rng.pick(&[Kind::And, Kind::Or])
}

/// A literal of the pool, or an empty operator if the pool is empty.
pub(super) fn literal(rng: &mut Rng, pool: &[Variable]) -> Node {
    if pool.is_empty() {
        return Node::empty(any_kind(rng));
    }
    Node::Lit { positive: rng.one_in(2), var: rng.pick(pool) }
}

/// `total` in `parts` parts of at least 1.
fn shares(rng: &mut Rng, total: usize, parts: usize) -> Vec<usize> {
    let mut left = total;
    let mut shares = Vec::new();
    for still in (0..parts).rev() {
        let share = if still == 0 { left } else { rng.between(1, left - still) };
        shares.push(share);
        left -= share;
    }
    rng.shuffle(&mut shares);
    shares
}

/// Empty operators are frequent, rare or absent: one of them may decide a tree.
pub(super) fn untidy_matrix(rng: &mut Rng, pool: &[Variable], budget: usize) -> Node {
    let empty_one_in = rng.pick(&[5, 30, usize::MAX]);
    untidy(rng, pool, budget, empty_one_in)
}

fn untidy(rng: &mut Rng, pool: &[Variable], budget: usize, empty_one_in: usize) -> Node {
    if budget == 1 || rng.one_in(4 + budget) {
        let empty = rng.one_in(empty_one_in);
        return if empty { Node::empty(any_kind(rng)) } else { literal(rng, pool) };
    }
    let most = if rng.one_in(10) { 40 } else { 4 };
    let count = rng.between(1, most.min(budget - 1));
    let shares = shares(rng, budget - 1, count);
    let children = shares.into_iter().map(|share| untidy(rng, pool, share, empty_one_in)).collect();
    Node::Op { kind: any_kind(rng), children }
}

pub(super) fn tidy(rng: &mut Rng, pool: &[Variable], kind: Kind, budget: usize) -> Node {
    if pool.len() < 2 || budget < 3 {
        return literal(rng, pool);
    }
    let units = rng.one_in(3);
    tidy_operator(rng, pool, kind, budget, units)
}

/// At least two children, no two literals of one variable among them. Without
/// `units` only small shares become literals, so that fewer can be settled.
fn tidy_operator(rng: &mut Rng, pool: &[Variable], kind: Kind, budget: usize, units: bool) -> Node {
    let count = rng.between(2, (budget - 1).min(5));
    let shares = shares(rng, budget - 1, count);
    let mut free = pool.to_vec();
    rng.shuffle(&mut free);
    let mut children = Vec::new();
    for share in shares {
        if share >= 3 && !(units && rng.one_in(3 + share)) {
            children.push(tidy_operator(rng, pool, kind.other(), share, true));
        } else if let Some(var) = free.pop() {
            children.push(Node::Lit { positive: rng.one_in(2), var });
        }
    }
    // A pool of two is never used up before the second child.
    Node::Op { kind, children }
}

pub(super) fn chain(rng: &mut Rng, pool: &[Variable], budget: usize) -> Node {
    let inside = rng.between(1, budget.min(12));
    let mut node = untidy_matrix(rng, pool, inside);
    for _ in node.rows()..budget {
        node = Node::Op { kind: any_kind(rng), children: vec![node] };
    }
    node
}

/// One ladder, whose first literal can be settled, or two under one operator.
pub(super) fn ladders(rng: &mut Rng, pool: &[Variable], kind: Kind, budget: usize) -> Node {
    if budget < 7 || pool.len() < 2 || rng.one_in(2) {
        return ladder(rng, pool, kind, budget);
    }
    let first = rng.between(3, budget - 4);
    let children = [first, budget - 1 - first]
        .into_iter()
        .map(|share| ladder(rng, pool, kind.other(), share))
        .collect();
    Node::Op { kind, children }
}

fn ladder(rng: &mut Rng, pool: &[Variable], kind: Kind, budget: usize) -> Node {
    if pool.len() < 2 || budget < 3 {
        return literal(rng, pool);
    }
    let rungs = (budget - 3) / 2;
    let mut kind = if rungs.is_multiple_of(2) { kind } else { kind.other() };
    let mut node = Node::Op { kind, children: clause(rng, pool, 2) };
    for _ in 0..rungs {
        kind = kind.other();
        let mut children = vec![literal(rng, pool), node];
        rng.shuffle(&mut children);
        node = Node::Op { kind, children };
    }
    node
}

/// With one sign a variable no opposite literals decide the matrix at once.
pub(super) fn wide(rng: &mut Rng, pool: &[Variable], kind: Kind, budget: usize) -> Node {
    let empty_one_in = rng.pick(&[50, usize::MAX]);
    let one_sign = !rng.one_in(3);
    let mut children = Vec::new();
    for _ in 1..budget {
        children.push(match literal(rng, pool) {
            _ if rng.one_in(empty_one_in) => Node::empty(any_kind(rng)),
            Node::Lit { var, .. } if one_sign => Node::Lit { positive: var % 2 == 0, var },
            child => child,
        });
    }
    Node::Op { kind, children }
}
