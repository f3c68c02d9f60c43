//! Sheets carried over from the narrow format to the wide one: the same rows in
//! other bytes, and the same answer of every operation.

use outside::generate::{self, cases, Call, Limits};
use outside::reference::*;

const NARROW: Reading = Reading::NARROW;
const WIDE: Reading = Reading::WIDE;
const SMALL: Limits = Limits::small(NARROW.format);

/// The same rows, good or not; the length goes with the sizes.
fn carried(from: Format, to: Format, sheet: &[u8]) -> Vec<u8> {
    let (v, n) = from.sizes(sheet).expect("two sizes");
    assert_eq!(sheet.len(), from.sheet_length(v, n));
    let argument = |row| from.number_at(sheet, from.argument_at(v + n, row)).expect("a row");
    let rows: Vec<Row> =
        (0..v + n).map(|row| (sheet[from.header() + row], argument(row))).collect();
    to.sheet_of(v, &rows)
}

fn widened(sheet: &[u8]) -> Vec<u8> {
    carried(NARROW.format, WIDE.format, sheet)
}

#[test]
fn rows_are_carried_over_and_back() {
    cases(3_000, |rng| {
        let formula = generate::formula(rng, SMALL);
        let sheet = NARROW.format.encode(&formula);
        let wide = widened(&sheet);
        assert_eq!(WIDE.format.encode(&formula), wide);
        assert_eq!(WIDE.format.parse(&wide), Ok(formula));
        assert_eq!(carried(WIDE.format, NARROW.format, &wide), sheet);
    });
}

/// Whether Check has the same numbers to say of the rows in either format: the
/// sizes are within the narrow limits, no quantifier's number is between both.
fn is_comparable(sheet: &[u8]) -> bool {
    let Format { most_variables, most_nodes, .. } = NARROW.format;
    let Some((v, n)) = NARROW.format.sizes(sheet) else {
        return false;
    };
    let within = v <= most_variables && (1..=most_nodes).contains(&n);
    let between = |row| {
        let number = NARROW.format.number_at(sheet, NARROW.format.argument_at(v + n, row));
        number.is_some_and(|x| x > most_variables && x <= WIDE.format.most_variables)
    };
    within && sheet.len() == NARROW.format.sheet_length(v, n) && !(0..v).any(between)
}

#[test]
fn bad_rows_are_refused_alike() {
    let mut refusals = [0; 9];
    cases(10_000, |rng| {
        let whole = generate::sheet(rng, SMALL);
        let sheet = generate::damage(rng, NARROW.format, &whole);
        if is_comparable(&sheet) {
            let answer: Answer<_> = NARROW.format.check(&sheet).into();
            assert_eq!(answer, WIDE.format.check(&widened(&sheet)).into());
            refusals[answer.number()] += 1;
        }
    });
    assert!(refusals[4..].iter().all(|&count| count > 50), "{refusals:?}");
}

/// One operation in both formats, each with an output of its own length; answers
/// with the refusal number, 0 if it was accepted.
fn agree(
    sheet: &[u8],
    room: impl Fn(Format) -> usize,
    operation: impl Fn(&Reading, &[u8], &mut [u8]) -> Answer<usize>,
) -> usize {
    let run = |reading: Reading, sheet: &[u8]| {
        let mut output = vec![0xa5; room(reading.format)];
        (operation(&reading, sheet, &mut output), output)
    };
    let (narrow, wide) = (run(NARROW, sheet), run(WIDE, &widened(sheet)));
    match (narrow.0, wide.0) {
        (Answer::Accepted(length), Answer::Accepted(wide_length)) => {
            assert_eq!(widened(&narrow.1[..length]), wide.1[..wide_length]);
            assert!(wide.1[wide_length..].iter().all(|&byte| byte == 0));
        }
        (refused, other) => {
            assert_eq!(refused, other);
            assert!(wide.1.iter().all(|&byte| byte == 0xa5));
        }
    }
    narrow.0.number()
}

#[test]
fn writing_operations_agree() {
    let mut answers = [0; 20];
    cases(2_000, |rng| {
        let formula = generate::formula(rng, SMALL);
        let sheet = NARROW.format.encode(&formula);
        let Call { operation, variable: x, .. } = generate::call(rng, &NARROW, &formula);
        for less in [0, 1] {
            let tidied = agree(
                &sheet,
                |format| format.encode(&formula).len() - less,
                |reading, sheet, output| reading.tidy(sheet, output),
            );
            let stepped = agree(
                &sheet,
                |format| format.least_output(operation, &formula, x) - less,
                |reading, sheet, output| reading.step(operation, sheet, x, output),
            );
            answers[tidied] += 1;
            answers[stepped] += 1;
        }
    });
    for number in [0, 9, 10, 11, 12, 13] {
        assert!(answers[number] > 50, "{answers:?}");
    }
}

#[test]
fn solve_trial_and_part_agree() {
    let mut stopped = 0;
    cases(2_000, |rng| {
        let formula = generate::formula(rng, SMALL);
        let sheet = NARROW.format.encode(&formula);
        let wide = widened(&sheet);
        let rows = formula.prefix.len() + formula.matrix.rows();
        let room = rng.between(rows, 3 * rows);
        let solve = |reading: &Reading, sheet: &[u8]| {
            let length = reading.format.sheet_length(0, room);
            let (mut first, mut second) = (vec![0xa5; length], vec![0x5a; length + 1]);
            let answer = reading.solve(sheet, &mut first, &mut second);
            (answer, reading.format.front(&first).to_vec())
        };
        let ((mine, reached), (theirs, wide_reached)) =
            (solve(&NARROW, &sheet), solve(&WIDE, &wide));
        assert_eq!((mine, widened(&reached)), (theirs, wide_reached));
        stopped += u32::from(matches!(mine, SolveAnswer::Stopped { .. }));
        assert_eq!(NARROW.format.trial(&sheet), WIDE.format.trial(&wide));
        let node = rng.below(formula.matrix.rows() + 2);
        assert_eq!(NARROW.format.part(&sheet, node), WIDE.format.part(&wide, node));
    });
    assert!(stopped > 50, "{stopped}");
}
