//! Equal siblings (N4) as the independent reading has them: by hand, and what
//! tidying keeps to on sheets with pasted guards.

use outside::formulas::{all, and, clause, cube, formula, lit, or};
use outside::generate::{self, cases, Family, Limits};
use outside::reference::*;
use outside::truth;
use Quantifier::{Exists, ForAll};

const RULES: Rules = Rules::CURRENT;

#[test]
fn by_hand() {
    let guard = || clause(&[1, 2]);
    for (matrix, tidied) in [
        // The first of equals stays, wherever the others stand; literals in between stay.
        (
            and(vec![guard(), lit(3), guard(), clause(&[1, 4]), guard()]),
            and(vec![guard(), lit(3), clause(&[1, 4])]),
        ),
        // A lone child is lifted, and spliced where it is of the grandparent's kind.
        (and(vec![guard(), guard()]), guard()),
        (or(vec![lit(3), and(vec![guard(), guard()])]), clause(&[3, 1, 2])),
        (or(vec![lit(3), and(vec![guard(), guard()]), lit(1)]), clause(&[3, 1, 2])),
        // The comparison is after splicing and after the children are tidied.
        (and(vec![guard(), and(vec![guard(), lit(3)])]), and(vec![guard(), lit(3)])),
        (
            and(vec![guard(), or(vec![lit(1), lit(2), lit(1), or(vec![])]), lit(4)]),
            and(vec![guard(), lit(4)]),
        ),
        (
            and(vec![or(vec![lit(1), and(vec![lit(2)])]), guard(), lit(4)]),
            and(vec![guard(), lit(4)]),
        ),
        // Copies that hold equal siblings themselves.
        (
            and(vec![
                or(vec![lit(3), cube(&[1, 2]), cube(&[1, 2])]),
                or(vec![lit(3), cube(&[1, 2])]),
                lit(4),
            ]),
            and(vec![or(vec![lit(3), cube(&[1, 2])]), lit(4)]),
        ),
        // What goes up makes others equal there.
        (
            and(vec![or(vec![and(vec![guard(), guard()]), lit(3)]), clause(&[1, 2, 3]), lit(4)]),
            and(vec![clause(&[1, 2, 3]), lit(4)]),
        ),
    ] {
        let reached = RULES.tidy_node(matrix.clone());
        assert_eq!(reached, tidied, "{matrix:?}");
        assert!(RULES.is_tidy(&tidied), "{tidied:?}");
    }
    for stays in [
        // In another order, with another sign, nested otherwise, and a beginning of the other.
        and(vec![clause(&[1, 2]), clause(&[2, 1])]),
        and(vec![clause(&[1, 2]), clause(&[1, -2])]),
        and(vec![or(vec![lit(1), cube(&[2, 3]), lit(4)]), or(vec![lit(1), cube(&[2, 3, 4])])]),
        and(vec![clause(&[1, 2]), clause(&[1, 2, 3])]),
        // Equal, but no siblings.
        and(vec![clause(&[1, 2]), or(vec![lit(3), and(vec![clause(&[1, 2]), lit(4)])])]),
    ] {
        assert_eq!(RULES.tidy_node(stays.clone()), stays);
        assert!(RULES.is_tidy(&stays), "{stays:?}");
    }
}

/// 9 has the row of the parent for its place, not that of a child.
#[test]
fn the_place_of_9() {
    let twice = || and(vec![clause(&[1, 2]), clause(&[1, 2])]);
    for (matrix, node) in [
        (twice(), 0),
        (or(vec![lit(3), twice()]), 2),
        (and(vec![clause(&[3, 4]), or(vec![lit(3), twice()])]), 6),
    ] {
        for reading in [Reading::NARROW, Reading::WIDE] {
            let given = formula(&all(Exists, 4), matrix.clone());
            let sheet = reading.format.encode(&given);
            let mut output = vec![0; reading.format.longest_sheet()];
            assert_eq!(reading.settle(&sheet, 3, &mut output), Answer::Refused(9, 4 + node));
            assert_eq!(reading.expand(&sheet, 3, &mut output), Answer::Refused(9, 4 + node));
        }
    }
}

#[test]
fn expansion_that_makes_guards_equal() {
    // Both copies of what is left are the same guard.
    let given = formula(
        &[(Exists, 2), (Exists, 3), (ForAll, 1)],
        or(vec![and(vec![clause(&[1, 2, 3]), clause(&[-1, 2, 3])]), lit(2)]),
    );
    let expanded = RULES.expand_formula(&given, 1);
    assert_eq!(expanded.matrix, clause(&[2, 3]));
}

#[test]
fn tidying_pasted_guards() {
    let (mut fewer, mut untidy) = (0, 0);
    for format in [Format::NARROW, Format::WIDE] {
        cases(3_000, |rng| {
            let limits = Limits { format, variables: 6, nodes: 60 };
            let given = generate::formula_of(rng, Family::Pasted, limits);
            let tidied = RULES.tidy_formula(&given);
            assert_eq!(truth::table(&tidied), truth::table(&given), "{given:?}");
            assert!(RULES.is_tidy(&tidied.matrix), "{given:?}");
            assert_eq!(RULES.tidy_formula(&tidied), tidied);
            assert!(tidied.matrix.rows() <= given.matrix.rows());
            let used = given.matrix.variables();
            assert!(tidied.matrix.variables().is_subset(&used));
            assert_eq!(RULES.is_tidy(&given.matrix), tidied == given, "{given:?}");
            let without = Rules::DOCUMENT_01.tidy_formula(&given);
            fewer += usize::from(tidied.matrix.rows() < without.matrix.rows());
            untidy += usize::from(Rules::DOCUMENT_01.is_tidy(&given.matrix) && tidied != given);
        });
    }
    assert!(fewer > 1_000 && untidy > 20, "{fewer} {untidy}");
}
