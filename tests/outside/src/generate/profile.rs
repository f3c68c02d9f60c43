//! Tidy clause sets of the profile that Reduce takes, and trees next to it.

use super::prefix::prefix;
use super::{clauses, Limits, Rng};
use crate::reference::{Formula, Kind, Node, Variable};

/// AND of clauses and literals, or a root that is a clause or empty: tidy, and
/// of the profile.
pub fn clause_formula(rng: &mut Rng, limits: Limits) -> Formula {
    let count = rng.between(0, limits.variables);
    let prefix = prefix(rng, limits.format, count);
    let pool: Vec<Variable> = prefix.iter().map(|row| row.1).collect();
    let budget = rng.between(1, limits.nodes);
    Formula { prefix, matrix: matrix(rng, &pool, budget) }
}

fn matrix(rng: &mut Rng, pool: &[Variable], budget: usize) -> Node {
    if pool.is_empty() || rng.one_in(20) {
        return Node::constant(rng.one_in(2));
    }
    if rng.one_in(12) {
        return clause(rng, pool, budget.saturating_sub(1));
    }
    let widest = rng.pick(&[2, 3, 5, 40]);
    let units = rng.below(4);
    let mut units = clauses::clause(rng, pool, units);
    let (mut rows, mut children) = (1, Vec::new());
    loop {
        let child = match units.pop() {
            Some(unit) => unit,
            None => clause(rng, pool, widest),
        };
        rows += child.rows();
        if rows > budget || pool.len() == 1 && children.len() == 1 {
            break;
        }
        // A clause of one literal is a unit, and no two of them share a variable; no clause
        // stands there twice.
        if children.iter().any(|other| same_variable(other, &child) || *other == child) {
            continue;
        }
        children.push(child);
    }
    rng.shuffle(&mut children);
    match children.len() {
        0 => Node::constant(rng.one_in(2)),
        1 => children.remove(0),
        _ => Node::and(children),
    }
}

/// OR of two literals or more, or a literal alone.
fn clause(rng: &mut Rng, pool: &[Variable], widest: usize) -> Node {
    let width = rng.between(1, widest.max(1)).min(pool.len());
    let mut literals = clauses::clause(rng, pool, width);
    if literals.len() == 1 {
        literals.remove(0)
    } else {
        Node::or(literals)
    }
}

fn same_variable(one: &Node, other: &Node) -> bool {
    matches!((one, other), (Node::Lit { var, .. }, Node::Lit { var: second, .. }) if var == second)
}

/// The formula with an AND of two literals for one literal of an OR, if there is
/// one: tidy still, and not of the profile.
pub fn near_miss(rng: &mut Rng, formula: &Formula) -> Option<Formula> {
    let pool: Vec<Variable> = formula.prefix.iter().map(|row| row.1).collect();
    let mut near = formula.clone();
    let clause = match &mut near.matrix {
        Node::Op { kind: Kind::And, children } => {
            let ors: Vec<usize> =
                (0..children.len()).filter(|&at| !children[at].children().is_empty()).collect();
            if ors.is_empty() {
                return None;
            }
            &mut children[rng.pick(&ors)]
        }
        root => root,
    };
    let Node::Op { children, .. } = clause else {
        return None;
    };
    if children.is_empty() || pool.len() < 2 {
        return None;
    }
    let at = rng.below(children.len());
    children[at] = Node::and(clauses::clause(rng, &pool, 2));
    Some(near)
}

#[cfg(test)]
mod tests {
    use super::*;
    use crate::generate::cases;
    use crate::reference::{Format, Rules};

    #[test]
    fn clause_formulas_are_of_the_profile_and_near_misses_are_not() {
        let rules = Rules::CURRENT;
        let mut near_misses = 0;
        for format in [Format::NARROW, Format::WIDE] {
            for limits in [Limits::small(format), Limits::medium(format), Limits::full(format)] {
                cases(60, |rng| {
                    let formula = clause_formula(rng, limits);
                    assert!(rules.is_tidy(&formula.matrix), "{formula:?}");
                    assert!(rules.is_of_the_clause_profile(&formula.matrix), "{formula:?}");
                    assert!(formula.matrix.rows() <= limits.nodes);
                    if let Some(near) = near_miss(rng, &formula) {
                        assert!(rules.is_tidy(&near.matrix), "{near:?}");
                        assert!(!rules.is_of_the_clause_profile(&near.matrix), "{near:?}");
                        near_misses += 1;
                    }
                });
            }
        }
        assert!(near_misses > 150, "{near_misses}");
    }
}
