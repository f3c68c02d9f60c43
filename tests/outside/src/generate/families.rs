//! Whole formulas and sheets, by the family of their matrix and within limits.

use super::prefix::{prefix, prefix_of, Style};
use super::{clauses, pasted, trees, Rng};
use crate::reference::{Format, Formula, Node, Rules, Variable};

/// The most variables and nodes of a generated formula; variable numbers are
/// any that the format has.
#[derive(Clone, Copy, Debug)]
pub struct Limits {
    pub format: Format,
    pub variables: usize,
    pub nodes: usize,
}

impl Limits {
    /// Small enough for truth by brute force.
    pub const fn small(format: Format) -> Limits {
        Limits { format, variables: 8, nodes: 40 }
    }

    pub const fn medium(format: Format) -> Limits {
        Limits { format, variables: 16, nodes: 300 }
    }

    pub const fn full(format: Format) -> Limits {
        Limits { format, variables: format.most_variables, nodes: format.most_nodes }
    }
}

#[derive(Clone, Copy, Debug, PartialEq, Eq)]
pub enum Family {
    /// Anything: empty operators, one child, own kind below, literals at will.
    Untidy,
    /// Tidy by construction.
    Tidy,
    /// AND of ORs of literals, or OR of ANDs, tidy.
    Clauses,
    /// The same with repeated and opposite literals, short and empty clauses.
    LooseClauses,
    /// One-child operators nested around something small.
    Chain,
    /// Nested alternating operators with one literal each: deep and tidy.
    Ladder,
    /// One operator with many children, repeated and opposite ones among them.
    Wide,
    /// Guards with copies of them, and with what is nearly a copy.
    Pasted,
    /// Operators only.
    Constants,
    /// Both signs of every variable: nothing can be settled at first, tidy.
    Parity,
}

const FAMILIES: [Family; 10] = [
    Family::Untidy,
    Family::Tidy,
    Family::Clauses,
    Family::LooseClauses,
    Family::Chain,
    Family::Ladder,
    Family::Wide,
    Family::Pasted,
    Family::Constants,
    Family::Parity,
];

/// The families whose matrices are tidy.
const TIDY_FAMILIES: [Family; 4] = [Family::Tidy, Family::Clauses, Family::Ladder, Family::Parity];

/// A formula of any family, weighted towards those with something to solve.
pub fn formula(rng: &mut Rng, limits: Limits) -> Formula {
    let family = if rng.one_in(2) { rng.pick(&TIDY_FAMILIES) } else { rng.pick(&FAMILIES) };
    formula_of(rng, family, limits)
}

/// A formula whose matrix is tidy by construction.
pub fn tidy_formula(rng: &mut Rng, limits: Limits) -> Formula {
    let family = rng.pick(&TIDY_FAMILIES);
    formula_of(rng, family, limits)
}

/// A sheet that Check accepts.
pub fn sheet(rng: &mut Rng, limits: Limits) -> Vec<u8> {
    limits.format.encode(&formula(rng, limits))
}

pub fn formula_of(rng: &mut Rng, family: Family, limits: Limits) -> Formula {
    let count = if rng.one_in(8) {
        rng.pick(&[0, 1, limits.variables]).min(limits.variables)
    } else {
        rng.between(limits.variables.min(2), limits.variables)
    };
    let prefix = prefix(rng, limits.format, count);
    let variables = prefix.iter().map(|row| row.1).collect();
    let pool = pool(rng, variables);
    let budget = if rng.one_in(4) { limits.nodes } else { rng.between(1, limits.nodes) };
    let matrix = matrix(rng, family, &pool, budget);
    Formula { prefix, matrix }
}

/// A formula for solvers: the quantifiers alternate one by one or in blocks,
/// and literals are drawn from all variables, which are as many as may be.
pub fn alternating_formula(rng: &mut Rng, family: Family, limits: Limits) -> Formula {
    let style = rng.pick(&[Style::Alternating, Style::Blocks]);
    let prefix = prefix_of(rng, limits.format, style, limits.variables);
    let pool: Vec<Variable> = prefix.iter().map(|row| row.1).collect();
    let matrix = matrix(rng, family, &pool, limits.nodes);
    Formula { prefix, matrix }
}

/// A tidy formula of which at most three variables occur: all other rows of its
/// prefix, of either kind and anywhere, are spare.
pub fn spare_formula(rng: &mut Rng, limits: Limits) -> Formula {
    let style = rng.pick(&[Style::Alternating, Style::Blocks, Style::Mixed]);
    let count = rng.between(2, limits.variables);
    let prefix = prefix_of(rng, limits.format, style, count);
    let mut pool: Vec<Variable> = prefix.iter().map(|row| row.1).collect();
    rng.shuffle(&mut pool);
    pool.truncate(rng.between(1, 3));
    let (family, budget) = (rng.pick(&TIDY_FAMILIES), rng.between(1, limits.nodes));
    let matrix = matrix(rng, family, &pool, budget);
    Formula { prefix, matrix }
}

/// Clause sets, nested trees and parities over 5 to 80 variables, of which a
/// solver decides most.
pub fn solver_formula(rng: &mut Rng, format: Format) -> Formula {
    let family = rng.pick(&[
        Family::Clauses,
        Family::LooseClauses,
        Family::Tidy,
        Family::Ladder,
        Family::Parity,
        Family::Parity,
        Family::Untidy,
    ]);
    let variables = rng.between(5, 80);
    let nodes = variables * rng.between(3, 10);
    alternating_formula(rng, family, Limits { format, variables, nodes })
}

/// The variables that literals are drawn from; the others stay unused. With
/// few of them both signs of each occur, and only expansion helps.
fn pool(rng: &mut Rng, mut variables: Vec<Variable>) -> Vec<Variable> {
    if variables.is_empty() {
        return variables;
    }
    let size = match rng.below(4) {
        0 | 1 => rng.between(2, 4),
        2 => rng.between(1, variables.len()),
        _ => variables.len(),
    };
    rng.shuffle(&mut variables);
    variables.truncate(size);
    variables
}

fn matrix(rng: &mut Rng, family: Family, pool: &[Variable], budget: usize) -> Node {
    let matrix = any_matrix(rng, family, pool, budget);
    // All but equal siblings is tidy by construction.
    if TIDY_FAMILIES.contains(&family) {
        Rules::CURRENT.tidy_node(matrix)
    } else {
        matrix
    }
}

fn any_matrix(rng: &mut Rng, family: Family, pool: &[Variable], budget: usize) -> Node {
    let kind = trees::any_kind(rng);
    match family {
        Family::Untidy => trees::untidy_matrix(rng, pool, budget),
        Family::Tidy => trees::tidy(rng, pool, kind, budget),
        Family::Clauses => clauses::clauses(rng, pool, kind, budget),
        Family::LooseClauses => clauses::loose_clauses(rng, pool, kind, budget),
        Family::Chain => trees::chain(rng, pool, budget),
        Family::Ladder => trees::ladders(rng, pool, kind, budget),
        Family::Wide => trees::wide(rng, pool, kind, budget),
        Family::Pasted => pasted::pasted(rng, pool, kind, budget),
        Family::Constants => trees::untidy_matrix(rng, &[], budget),
        Family::Parity => clauses::parities(rng, pool, kind, budget),
    }
}

#[cfg(test)]
mod tests {
    use super::*;
    use crate::generate::cases;
    use crate::with_deep_stack;

    #[test]
    fn same_seed_same_sheets() {
        let limits = Limits::small(Format::NARROW);
        let sheets = |seed| -> Vec<Vec<u8>> {
            let mut rng = Rng::new(seed);
            (0..50).map(|_| sheet(&mut rng, limits)).collect()
        };
        assert_eq!(sheets(7), sheets(7));
        assert_ne!(sheets(7), sheets(8));
    }

    fn every_family_keeps_within(limits: Limits) {
        let (count, rules) = (if limits.nodes > 1000 { 40 } else { 400 }, Rules::CURRENT);
        cases(count, |rng| {
            for family in FAMILIES {
                let formula = formula_of(rng, family, limits);
                let sheet = limits.format.encode(&formula);
                let (v, n) = limits.format.check(&sheet).expect("a good sheet");
                assert!(v <= limits.variables && n <= limits.nodes, "{family:?}");
                if TIDY_FAMILIES.contains(&family) {
                    assert!(rules.is_tidy(&formula.matrix), "{family:?}");
                }
            }
        });
    }

    #[test]
    fn every_family_keeps_within_its_limits() {
        with_deep_stack(|| {
            for format in [Format::NARROW, Format::WIDE] {
                every_family_keeps_within(Limits::small(format));
                every_family_keeps_within(Limits::medium(format));
                every_family_keeps_within(Limits::full(format));
            }
        });
    }
}
