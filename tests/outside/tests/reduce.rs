//! Universal reduction as the independent reading has it: by hand, against truth
//! by brute force, and against a solver from outside.

use outside::depqbf;
use outside::formulas::{and, clause, formula, lit, or};
use outside::generate::{self, Limits};
use outside::reference::*;
use outside::truth;
use Quantifier::{Exists, ForAll};

const RULES: Rules = Rules::CURRENT;

/// For all 1, exists 2, for all 3, exists 4, for all 5 and 6.
fn over_six(matrix: Node) -> Formula {
    let prefix = [(ForAll, 1), (Exists, 2), (ForAll, 3), (Exists, 4), (ForAll, 5), (ForAll, 6)];
    formula(&prefix, matrix)
}

#[test]
fn by_hand() {
    for (matrix, reduced) in [
        (
            and(vec![clause(&[1, 2, 3]), clause(&[3, -4])]),
            and(vec![clause(&[1, 2]), clause(&[3, -4])]),
        ),
        (and(vec![clause(&[5, 4, -6]), clause(&[2, 4])]), and(vec![lit(4), clause(&[2, 4])])),
        // By position: 3 is before 4 and behind 2, though 4 stands in the other clause.
        (and(vec![clause(&[2, 3]), clause(&[3, 4])]), and(vec![lit(2), clause(&[3, 4])])),
        (and(vec![clause(&[1, -3]), clause(&[2, 4])]), or(vec![])),
        (and(vec![lit(2), lit(5)]), or(vec![])),
        (and(vec![lit(2), lit(-4)]), and(vec![lit(2), lit(-4)])),
        // Two clauses that become one literal, equal or opposite.
        (and(vec![clause(&[2, 3]), clause(&[2, 5])]), lit(2)),
        (and(vec![clause(&[2, 3]), clause(&[-2, 5])]), or(vec![])),
        (clause(&[1, 2, 3]), clause(&[1, 2])),
        (clause(&[1, 3]), or(vec![])),
        (lit(4), lit(4)),
        (lit(-5), or(vec![])),
        (and(vec![]), and(vec![])),
        (or(vec![]), or(vec![])),
    ] {
        let reached = RULES.reduce_formula(&over_six(matrix.clone()));
        assert_eq!(reached, Some(over_six(reduced)), "{matrix:?}");
    }
    let near = and(vec![lit(1), or(vec![lit(2), and(vec![lit(3), lit(4)])])]);
    assert_eq!(RULES.reduce_formula(&over_six(near)), None);
}

#[test]
fn truth_is_kept_and_the_result_is_a_fixed_point() {
    let (mut shorter, mut verdicts) = (0, [0; 2]);
    generate::cases(4_000, |rng| {
        let formula = generate::clause_formula(rng, Limits::small(Format::NARROW));
        let reduced = RULES.reduce_formula(&formula).expect("clauses");
        assert_eq!(truth::is_true(&reduced), truth::is_true(&formula), "{formula:?}");
        verdicts[usize::from(truth::is_true(&formula))] += 1;
        assert_eq!(reduced.prefix, formula.prefix);
        assert!(RULES.is_tidy(&reduced.matrix), "{formula:?}");
        assert!(reduced.matrix.rows() <= formula.matrix.rows(), "{formula:?}");
        shorter += usize::from(reduced.matrix.rows() < formula.matrix.rows());
        assert_eq!(RULES.reduce_formula(&reduced), Some(reduced.clone()), "{formula:?}");
    });
    assert!(shorter > 1_000, "{shorter} shorter");
    assert!(verdicts.iter().all(|&count| count > 300), "{verdicts:?}");
}

#[test]
fn a_solver_from_outside_says_the_same_before_and_after() {
    let mut compared = 0;
    generate::cases(250, |rng| {
        let limits = Limits { format: Format::NARROW, variables: 24, nodes: 160 };
        let formula = generate::clause_formula(rng, limits);
        let reduced = RULES.reduce_formula(&formula).expect("clauses");
        if let (Some(before), Some(after)) = (depqbf::verdict(&formula), depqbf::verdict(&reduced))
        {
            assert_eq!(before, after, "{formula:?}");
            compared += 1;
        }
    });
    assert!(compared > 150, "{compared} compared");
}
