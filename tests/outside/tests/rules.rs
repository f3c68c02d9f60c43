//! What each rule is there for: with one left out, or with a wider block, sheets
//! come out wrong, and this package's own properties see it.

use outside::formulas::{and, clause, cube, lit};
use outside::generate::{self, cases, Limits};
use outside::reference::*;
use outside::truth;

const RULES: Rules = Rules::CURRENT;
const SMALL: Limits = Limits::small(Format::NARROW);

/// A list with the item at `left_out` missing.
fn fewer<T: Copy>(items: &[T], left_out: usize) -> &'static [T] {
    [&items[..left_out], &items[left_out + 1..]].concat().leak()
}

#[test]
fn tidying_needs_each_of_its_rules() {
    for left_out in 0..RULES.tidying.len() {
        let rules = Rules { tidying: fewer(RULES.tidying, left_out), ..RULES };
        let mut untidy = 0;
        cases(1_000, |rng| {
            let formula = generate::formula(rng, SMALL);
            let tidied = rules.tidy_formula(&formula);
            assert_eq!(truth::table(&tidied), truth::table(&formula), "the others keep truth");
            untidy += u32::from(!RULES.is_tidy(&tidied.matrix));
        });
        assert!(untidy > 5, "without rule {left_out}: {untidy}");
    }
}

#[test]
fn being_tidy_needs_each_of_its_limits() {
    let broken_alone = [
        and(vec![lit(1)]),
        and(vec![lit(1), cube(&[2, 3])]),
        and(vec![lit(1), clause(&[2, 3]), lit(-1)]),
        and(vec![clause(&[1, 2]), lit(3), clause(&[1, 2])]),
    ];
    assert_eq!(broken_alone.len(), RULES.limits.len());
    for left_out in 0..RULES.limits.len() {
        let rules = Rules { limits: fewer(RULES.limits, left_out), ..RULES };
        for (limit, matrix) in broken_alone.iter().enumerate() {
            assert!(!RULES.is_tidy(matrix));
            assert_eq!(rules.is_tidy(matrix), limit == left_out);
        }
    }
}

/// N5 widens document 01's block, and only where a row has no literal.
#[test]
fn the_innermost_block_reaches_past_spare_rows() {
    let (mut wider, mut same) = (0, 0);
    cases(4_000, |rng| {
        let any = if rng.one_in(2) { generate::spare_formula } else { generate::tidy_formula };
        let formula = any(rng, SMALL);
        let run = Rules::DOCUMENT_01.innermost_block(&formula);
        let block = RULES.innermost_block(&formula);
        assert!(run.iter().all(|x| block.contains(x)), "{formula:?}");
        let used = formula.matrix.variables();
        if formula.variables().iter().all(|x| used.contains(x)) {
            assert_eq!(block, run, "{formula:?}");
            same += 1;
        }
        wider += u32::from(block.len() > run.len());
    });
    assert!(wider > 1_000 && same > 200, "{wider} wider, {same} the same");
}

#[test]
fn expanding_outside_the_innermost_block_loses_truth() {
    let rules = Rules { innermost_block: Formula::variables, ..RULES };
    let reading = Reading { format: Format::NARROW, rules };
    let mut lost = 0;
    cases(2_000, |rng| {
        let formula = generate::tidy_formula(rng, SMALL);
        let sheet = reading.format.encode(&formula);
        for x in formula.variables() {
            let mut output = vec![0; reading.format.longest_sheet()];
            let Answer::Accepted(length) = reading.expand(&sheet, x, &mut output) else {
                panic!("a small raw sheet fits");
            };
            let after = reading.format.parse(&output[..length]).expect("a good sheet");
            lost += u32::from(truth::is_true(&after) != truth::is_true(&formula));
        }
    });
    assert!(lost > 10, "{lost}");
}
