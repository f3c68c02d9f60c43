//! Tidy formulas of clauses of two literals, which link their variables one by
//! one, under a prefix that ends with a universal and an existential block.

use super::prefix::variable_numbers;
use super::{clauses, Limits, Rng};
use crate::reference::{Binding, Formula, Node, Quantifier, Variable};

/// A prefix of any rows and then universal ones, existential ones, with spare
/// rows of either kind between and behind them.
pub fn paired_formula(rng: &mut Rng, limits: Limits) -> Formula {
    let count = rng.between(2, limits.variables);
    let numbers = variable_numbers(rng, limits.format, count);
    let universal = rng.between(1, count.div_ceil(2));
    let outside = if rng.one_in(3) { rng.below(count - universal) } else { 0 };
    let any = |rng: &mut Rng| rng.pick(&[Quantifier::Exists, Quantifier::ForAll]);
    let mut prefix: Vec<Binding> = Vec::new();
    let mut pool: Vec<Variable> = Vec::new();
    for (at, var) in numbers.into_iter().enumerate() {
        let spare = rng.one_in(8);
        let quantifier = match at {
            _ if spare || at < outside => any(rng),
            _ if at < outside + universal => Quantifier::ForAll,
            _ => Quantifier::Exists,
        };
        prefix.push((quantifier, var));
        if !spare {
            pool.push(var);
        }
    }
    let budget = rng.between(1, limits.nodes);
    Formula { prefix, matrix: matrix(rng, &pool, budget) }
}

fn matrix(rng: &mut Rng, pool: &[Variable], budget: usize) -> Node {
    let (mut rows, mut parts) = (1, Vec::new());
    while pool.len() >= 2 {
        let part = part(rng, pool);
        rows += part.rows();
        if rows > budget {
            break;
        }
        if !parts.contains(&part) {
            parts.push(part);
        }
    }
    match parts.len() {
        0 => Node::constant(rng.one_in(2)),
        1 => parts.remove(0),
        _ => Node::and(parts),
    }
}

/// OR of two literals, at times of a literal and two such ORs.
fn part(rng: &mut Rng, pool: &[Variable]) -> Node {
    let pair = |rng: &mut Rng| Node::or(clauses::clause(rng, pool, 2));
    if !rng.one_in(6) {
        return pair(rng);
    }
    let (first, second) = (pair(rng), pair(rng));
    if first == second {
        return first;
    }
    let mut literals = clauses::clause(rng, pool, 1);
    literals.push(Node::and(vec![first, second]));
    Node::or(literals)
}

#[cfg(test)]
mod tests {
    use super::*;
    use crate::generate::cases;
    use crate::reference::{block_behind, Format, Rules};

    #[test]
    fn paired_formulas_are_tidy_and_mostly_have_a_variable_one_block_out() {
        let mut some = 0;
        for format in [Format::NARROW, Format::WIDE] {
            cases(500, |rng| {
                let limits = Limits::small(format);
                let formula = paired_formula(rng, limits);
                assert!(Rules::CURRENT.is_tidy(&formula.matrix), "{formula:?}");
                assert!(formula.matrix.rows() <= limits.nodes);
                let outer = |var: &Variable| block_behind(&formula, *var).is_some();
                some += usize::from(formula.variables().iter().any(outer));
            });
        }
        assert!(some > 500, "{some}");
    }
}
