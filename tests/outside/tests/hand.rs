//! Document 01's formulas tried by hand, its refusals with their places, and
//! single steps worked out on paper.

use outside::formulas::*;
use outside::generate::{deep_formula, wide_formula, with_variables};
use outside::reference::*;
use outside::{truth, with_deep_stack};
use Quantifier::{Exists, ForAll};

const READING: Reading = Reading::NARROW;
const NARROW: Format = READING.format;
const RULES: Rules = READING.rules;

fn solve_line(sheet: &[u8], length: usize) -> String {
    let (mut first, mut second) = (vec![0xa5; length], vec![0x5a; length]);
    line_of(&READING.solve(sheet, &mut first, &mut second))
}

#[test]
fn lines_of_the_formulas_tried() {
    for (formula, line) in tried_by_hand() {
        assert_eq!(READING.program_line(&NARROW.encode(&formula)), line);
        assert_eq!(Reading::WIDE.program_line(&Format::WIDE.encode(&formula)), line);
        let verdict = truth::is_true(&formula).to_string();
        assert_eq!(line.split(' ').next(), Some(verdict.as_str()));
    }
}

#[test]
fn bytes_of_the_sheet_in_hexadecimal() {
    let bytes = [
        0x02, 0x00, 0x07, 0x00, // sizes
        0x02, 0x01, 0x06, 0x05, 0x03, 0x03, 0x05, 0x04, 0x04, // kinds
        0x02, 0x00, 0x01, 0x00, 0x02, 0x00, 0x02, 0x00, 0x01, 0x00, // arguments
        0x02, 0x00, 0x02, 0x00, 0x01, 0x00, 0x02, 0x00,
    ];
    assert_eq!(sheet(NARROW, &[(ForAll, 2), (Exists, 1)], equal_pair()), bytes);
    assert_eq!(NARROW.check(&bytes), Ok((2, 7)));
    assert_eq!(READING.program_line(&bytes), "true 0 1 0");
}

#[test]
fn the_raw_size_decides_whether_a_sheet_fits() {
    let sheet = sheet(NARROW, &all(ForAll, 2), four_cubes());
    assert_eq!(sheet.len(), 49);
    assert_eq!(solve_line(&sheet, 88), "true 0 1 0");
    assert_eq!(solve_line(&sheet, 87), "stopped 0 0 1");
    assert_eq!(solve_line(&sheet, 49), "stopped 0 0 1");
    assert_eq!(solve_line(&sheet, 48), "refused 0 0 13");
    let (mut first, mut second) = (vec![1; 88], vec![1; 87]);
    let stopped = SolveAnswer::Stopped { variable: 1, settled: 0, expanded: 0 };
    assert_eq!(READING.solve(&sheet, &mut first, &mut second), stopped);
    assert_eq!(first[..49], sheet);
    assert_eq!(first[49..], [0; 39]);
    assert_eq!(second, [0; 87]);
}

#[test]
fn buffers_after_an_ended_run() {
    let sheet = sheet(NARROW, &all(ForAll, 2), four_cubes());
    let (mut first, mut second) = (vec![1; 90], vec![1; 95]);
    let ended = SolveAnswer::Ended { verdict: true, settled: 0, expanded: 1 };
    assert_eq!(READING.solve(&sheet, &mut first, &mut second), ended);
    let reached = NARROW.encode(&formula(&[(ForAll, 2)], and(vec![])));
    assert_eq!(first[..reached.len()], reached);
    assert!(first[reached.len()..].iter().chain(&second).all(|&byte| byte == 0));
}

#[test]
fn leaves_of_trial() {
    let expected = [
        (true, 1),
        (false, 1),
        (true, 2),
        (true, 4),
        (false, 11),
        (true, 1),
        (false, 11),
        (true, 3),
        (false, 3),
    ];
    assert_eq!(tried_by_hand().len(), expected.len());
    for ((formula, _), expected) in tried_by_hand().into_iter().zip(expected) {
        assert_eq!(NARROW.trial(&NARROW.encode(&formula)), Answer::Accepted(expected));
    }
}

#[test]
fn trial_takes_twenty_variables() {
    let of = |quantifier, count| NARROW.trial(&sheet(NARROW, &all(quantifier, count), and(vec![])));
    assert_eq!(of(Exists, 20), Answer::Accepted((true, 1)));
    assert_eq!(of(ForAll, 20), Answer::Accepted((true, 1 << 20)));
    assert_eq!(of(Exists, 21), Answer::Refused(14, 0));
}

#[test]
fn sizes_at_their_limits() {
    with_deep_stack(|| {
        for (format, v, n, longest) in
            [(NARROW, 256, 4096, 13_060), (Format::WIDE, 1024, 8192, 46_088)]
        {
            let check = |formula: Formula| format.check(&format.encode(&formula));
            assert_eq!(check(with_variables(v)), Ok((v, 1)));
            assert_eq!(check(with_variables(v + 1)), Err((2, 0)));
            assert_eq!(check(wide_formula(n)), Ok((1, n)));
            assert_eq!(check(wide_formula(n + 1)), Err((2, 0)));
            assert_eq!(check(deep_formula(v, n)), Ok((v, n)));
            assert_eq!(format.check(&vec![0; format.header()]), Err((2, 0)));
            assert_eq!(format.encode(&deep_formula(v, n)).len(), longest);
            assert_eq!(format.longest_sheet(), longest);
        }
    });
}

#[test]
fn refusals_of_check() {
    let refused = [
        (vec![], 1, 0),
        (vec![0, 0, 1], 1, 0),
        (vec![1, 1, 1, 0], 2, 0),
        (vec![0, 0, 0, 0], 2, 0),
        (vec![0, 0, 1, 16], 2, 0),
        (vec![0, 0, 1, 0], 3, 0),
        (vec![0, 0, 1, 0, 5, 0], 3, 0),
        (vec![0, 0, 1, 0, 5, 0, 0, 0], 3, 0),
        (NARROW.sheet_of(1, &[(0, 1), (5, 0)]), 4, 0),
        (NARROW.sheet_of(1, &[(3, 1), (5, 0)]), 4, 0),
        (NARROW.sheet_of(1, &[(1, 1), (7, 0)]), 4, 1),
        (NARROW.sheet_of(1, &[(1, 1), (2, 1)]), 4, 1),
        (NARROW.sheet_of(2, &[(1, 1), (2, 0), (5, 0)]), 5, 1),
        (NARROW.sheet_of(2, &[(1, 1), (2, 257), (5, 0)]), 5, 1),
        (NARROW.sheet_of(2, &[(1, 1), (2, 65535), (5, 0)]), 5, 1),
        (NARROW.sheet_of(3, &[(1, 1), (2, 2), (2, 1), (5, 0)]), 6, 2),
        (NARROW.sheet_of(1, &[(1, 1), (6, 2), (3, 1), (4, 2)]), 7, 3),
        (NARROW.sheet_of(1, &[(1, 1), (3, 0)]), 7, 1),
        (NARROW.sheet_of(1, &[(1, 1), (4, 257)]), 7, 1),
        (NARROW.sheet_of(0, &[(5, 0), (5, 0)]), 8, 1),
        (NARROW.sheet_of(1, &[(1, 1), (3, 1), (3, 1), (3, 1)]), 8, 2),
        (NARROW.sheet_of(1, &[(1, 1), (5, 2), (3, 1)]), 8, 3),
        (NARROW.sheet_of(1, &[(1, 1), (5, 65535)]), 8, 2),
    ];
    for (bytes, number, place) in refused {
        assert_eq!(NARROW.check(&bytes), Err((number, place)), "{bytes:?}");
    }
}

#[test]
fn the_first_fault_is_named() {
    // Kind before number, number before a second binding, a row before the next.
    assert_eq!(NARROW.check(&NARROW.sheet_of(1, &[(9, 0), (5, 0)])), Err((4, 0)));
    assert_eq!(NARROW.check(&NARROW.sheet_of(2, &[(1, 0), (1, 0), (5, 0)])), Err((5, 0)));
    assert_eq!(NARROW.check(&NARROW.sheet_of(1, &[(1, 1), (5, 2), (3, 2), (9, 0)])), Err((7, 2)));
    assert_eq!(NARROW.check(&NARROW.sheet_of(1, &[(1, 1), (5, 2), (9, 0), (3, 2)])), Err((4, 2)));
    // A bad row comes before a bad tree, even when the tree ends earlier.
    assert_eq!(NARROW.check(&NARROW.sheet_of(1, &[(1, 1), (5, 0), (3, 2)])), Err((7, 2)));
    // Sizes come before the length.
    assert_eq!(NARROW.check(&[0, 0, 0, 0, 9]), Err((2, 0)));
}

#[test]
fn tidying_by_each_rule() {
    let tidied = [
        (and(vec![lit(1), cube(&[2, 3]), lit(4)]), cube(&[1, 2, 3, 4])),
        (and(vec![lit(1), and(vec![]), lit(2)]), cube(&[1, 2])),
        (and(vec![lit(1), or(vec![]), lit(2)]), or(vec![])),
        (or(vec![lit(1), and(vec![])]), and(vec![])),
        (clause(&[1, 2, -1]), and(vec![])),
        (cube(&[1, 2, -1]), or(vec![])),
        (cube(&[1, 2, 1, 3, 2]), cube(&[1, 2, 3])),
        (and(vec![or(vec![lit(-2)])]), lit(-2)),
        (and(vec![and(vec![]), or(vec![clause(&[1, 1])])]), lit(1)),
        // The lone AND of an OR joins the AND above it; its literal then repeats.
        (and(vec![lit(1), or(vec![cube(&[1, 2])])]), cube(&[1, 2])),
        (or(vec![lit(1), and(vec![clause(&[-1, 2])])]), and(vec![])),
        (and(vec![or(vec![])]), or(vec![])),
        (or(vec![or(vec![]), or(vec![])]), or(vec![])),
        (lit(3), lit(3)),
    ];
    for (before, after) in tidied {
        assert_eq!(RULES.tidy_node(before), after);
    }
}

#[test]
fn places_of_untidiness() {
    let prefix = all(Exists, 3);
    let untidy = [
        (and(vec![lit(1)]), 3),
        (and(vec![lit(1), or(vec![])]), 5),
        (and(vec![lit(1), cube(&[2, 3])]), 3),
        (cube(&[1, 2, 1]), 3),
        (cube(&[1, 2, -1]), 3),
        (and(vec![clause(&[1, 2]), or(vec![lit(3), and(vec![lit(1)])])]), 9),
        (and(vec![or(vec![lit(1)]), or(vec![])]), 4),
        (or(vec![lit(1), and(vec![lit(2), clause(&[3, -3])]), or(vec![])]), 3),
    ];
    for (matrix, place) in untidy {
        let bytes = sheet(NARROW, &prefix, matrix);
        let mut output = vec![7; 200];
        assert_eq!(READING.settle(&bytes, 1, &mut output), Answer::Refused(9, place));
        assert_eq!(READING.expand(&bytes, 9, &mut output), Answer::Refused(9, place));
        assert_eq!(output, [7; 200]);
    }
    for matrix in [and(vec![]), or(vec![]), lit(-2), cube(&[1, 2]), four_cubes()] {
        assert!(RULES.is_tidy(&matrix));
    }
}

#[test]
fn refusals_of_settle_in_order() {
    let bytes = sheet(NARROW, &[(ForAll, 2), (Exists, 1), (Exists, 9)], equal_pair());
    let enough = NARROW.sheet_length(2, 7);
    let refusal = |x: Variable, room: usize| READING.settle(&bytes, x, &mut vec![0; room]);
    assert_eq!(refusal(0, 0), Answer::Refused(10, 0));
    assert_eq!(refusal(3, enough), Answer::Refused(10, 0));
    assert_eq!(refusal(65537, enough), Answer::Refused(10, 0));
    assert_eq!(refusal(1, 0), Answer::Refused(12, 0));
    assert_eq!(refusal(9, enough - 1), Answer::Refused(13, 0));
    assert_eq!(refusal(9, enough), Answer::Accepted(enough));
}

#[test]
fn refusals_of_expand_in_order() {
    let bytes = sheet(NARROW, &[(ForAll, 2), (Exists, 1), (Exists, 9)], equal_pair());
    let refusal = |x: Variable, room: usize| READING.expand(&bytes, x, &mut vec![0; room]);
    assert_eq!(refusal(7, 0), Answer::Refused(10, 0));
    assert_eq!(refusal(2, 0), Answer::Refused(11, 0));
    // Seven rows and all of them copied: 7 + 7 + 1.
    assert_eq!(refusal(1, NARROW.sheet_length(2, 15) - 1), Answer::Refused(13, 0));
    assert_eq!(refusal(1, NARROW.sheet_length(2, 15)), Answer::Accepted(NARROW.sheet_length(2, 1)));
    assert_eq!(refusal(9, NARROW.sheet_length(2, 7) - 1), Answer::Refused(13, 0));
    assert_eq!(refusal(9, NARROW.sheet_length(2, 7)), Answer::Accepted(NARROW.sheet_length(2, 7)));
}

#[test]
fn short_outputs_of_tidy_and_solve() {
    let bytes = sheet(NARROW, &all(Exists, 1), and(vec![lit(1), lit(1)]));
    let short = bytes.len() - 1;
    let mut output = vec![3; short];
    assert_eq!(READING.tidy(&bytes, &mut output), Answer::Refused(13, 0));
    assert_eq!(output, vec![3; short]);
    for (a, b) in [(short, bytes.len()), (bytes.len(), short)] {
        let (mut first, mut second) = (vec![3; a], vec![4; b]);
        assert_eq!(READING.solve(&bytes, &mut first, &mut second), SolveAnswer::Refused(13, 0));
        assert_eq!((first, second), (vec![3; a], vec![4; b]));
    }
}

#[test]
fn the_value_settled_depends_on_quantifier_and_sign() {
    let of = |quantifier, signed| {
        settle_value(&formula(&[(quantifier, 1), (Exists, 2)], cube(&[signed, 2])), 1)
    };
    assert_eq!(of(Exists, 1), Some(true));
    assert_eq!(of(Exists, -1), Some(false));
    assert_eq!(of(ForAll, 1), Some(false));
    assert_eq!(of(ForAll, -1), Some(true));
    let unused = formula(&[(ForAll, 1), (Exists, 2)], lit(2));
    assert_eq!(settle_value(&unused, 1), Some(false));
}

#[test]
fn a_unit_literal_gives_the_sign() {
    // Both signs of 1 occur; the one under the root decides.
    for (root, expected) in [(1, true), (-1, false)] {
        let deep = or(vec![lit(2), cube(&[-root, 3])]);
        for matrix in [and(vec![lit(root), deep]), or(vec![lit(root), cube(&[2, -root])])] {
            assert_eq!(settle_value(&formula(&all(Exists, 3), matrix.clone()), 1), Some(expected));
            assert_eq!(settle_value(&formula(&all(ForAll, 3), matrix), 1), Some(!expected));
        }
    }
    assert_eq!(settle_value(&formula(&all(ForAll, 1), lit(-1)), 1), Some(true));
    assert_eq!(settle_value(&formula(&all(Exists, 2), equal_pair()), 1), None);
}

#[test]
fn expansion_copies_only_the_relevant_children() {
    // The shape of document 000, figure 2, with other children around the relevant ones.
    let children = vec![lit(3), clause(&[1, 4]), lit(6), clause(&[-1, 5]), lit(7)];
    let start = formula(&all(Exists, 7), or(vec![lit(2), and(children)]));
    let expansion = raw_expansion(&start, 1);
    let no = || or(vec![]);
    let yes = || and(vec![]);
    let zero = and(vec![or(vec![no(), lit(4)]), or(vec![yes(), lit(5)])]);
    let one = and(vec![or(vec![yes(), lit(4)]), or(vec![no(), lit(5)])]);
    let around = |new: Node| or(vec![lit(2), and(vec![lit(3), new, lit(6), lit(7)])]);
    assert_eq!(expansion.raw, formula(&all(Exists, 7)[1..], around(or(vec![zero, one]))));
    assert_eq!((expansion.e, expansion.raw_rows), (7, 12 + 7 + 2));
    assert_eq!(RULES.expand_formula(&start, 1).matrix, around(clause(&[4, 5])));
}

#[test]
fn expansion_of_one_literal_of_none_and_of_a_whole_operator() {
    let start = formula(&all(ForAll, 3), or(vec![lit(2), cube(&[-1, 2])]));
    let single = raw_expansion(&start, 1);
    let pair = and(vec![and(vec![]), or(vec![])]);
    assert_eq!(single.raw.matrix, or(vec![lit(2), and(vec![pair, lit(2)])]));
    assert_eq!((single.e, single.raw_rows), (1, 5 + 1 + 1));
    let none = raw_expansion(&start, 3);
    assert_eq!(none.raw, formula(&all(ForAll, 2), start.matrix.clone()));
    assert_eq!((none.e, none.raw_rows), (0, 5));
    let whole = raw_expansion(&start, 2);
    assert_eq!((whole.e, whole.raw_rows), (5, 5 + 5 + 1));
    assert_eq!(whole.raw.matrix.rows(), 11);
}

#[test]
fn raw_rows_are_limited_whatever_the_buffer() {
    let bytes = NARROW.encode(&valve_clauses(800));
    let mut output = vec![0; 40_000];
    assert_eq!(NARROW.check(&bytes), Ok((201, 2401)));
    assert_eq!(READING.expand(&bytes, 1, &mut output), Answer::Refused(13, 0));
    let fewer = NARROW.encode(&valve_clauses(682));
    // 2 * 2047 + 1 rows are within the limit, 2 * 2050 + 1 are not.
    assert!(matches!(READING.expand(&fewer, 1, &mut output), Answer::Accepted(_)));
    let more = NARROW.encode(&valve_clauses(683));
    assert_eq!(READING.expand(&more, 1, &mut output), Answer::Refused(13, 0));
}

#[test]
fn solve_stops_at_the_row_limit_in_any_buffer() {
    // All variables have both signs, so nothing can be settled.
    let bytes = NARROW.encode(&valve_clauses(700));
    assert_eq!(solve_line(&bytes, 40_000), "stopped 0 0 1");
    assert_eq!(READING.program_line(&bytes), "stopped 0 0 1");
}

#[test]
fn parts_of_the_kind_bytes() {
    let bytes = sheet(NARROW, &[(ForAll, 2), (Exists, 1)], equal_pair());
    assert_eq!(NARROW.part_range(&bytes, 0), 6..13);
    assert_eq!(NARROW.part(&bytes, 1), [5, 3, 3]);
    assert_eq!(NARROW.part_range(&bytes, 4), 10..13);
    assert_eq!(NARROW.part_range(&bytes, 6), 12..13);
    assert!(NARROW.part(&bytes, 7).is_empty());
    assert!(NARROW.part(&bytes, usize::MAX).is_empty());
    assert!(NARROW.part(&bytes[..30], 0).is_empty());
}

#[test]
fn what_the_program_reads() {
    with_deep_stack(|| {
        let longest = NARROW.encode(&deep_formula(256, 4096));
        assert_eq!(READING.program_line(&longest), "true 1 0 0");
        let longer = [longest, vec![0; 5]].concat();
        assert_eq!(READING.program_line(&longer), "refused 0 0 3");
        assert_eq!(READING.program_line(&[]), "refused 0 0 1");
        assert_eq!(READING.program_line(&[0, 0, 1, 0, 5, 0, 0, 10]), "refused 0 0 3");
    });
}

#[test]
fn deepest_sheets() {
    with_deep_stack(|| {
        let chain = NARROW.encode(&deep_formula(1, 4096));
        let mut output = vec![1; chain.len()];
        assert_eq!(READING.tidy(&chain, &mut output), Answer::Accepted(NARROW.sheet_length(1, 1)));
        assert_eq!(READING.settle(&chain, 1, &mut output), Answer::Refused(9, 1));
        assert_eq!(NARROW.trial(&chain), Answer::Accepted((true, 2)));
        assert_eq!(NARROW.part_range(&chain, 0), 5..4101);
        assert_eq!(NARROW.part_range(&chain, 4095), 4100..4101);
    });
}
