//! Properties of the reference on seeded random sheets, judged by brute force.

use outside::generate::{self, cases, Call, Limits, Rng};
use outside::reference::*;
use outside::{truth, with_deep_stack};
use Quantifier::Exists;

const READING: Reading = Reading::NARROW;
const NARROW: Format = READING.format;
const RULES: Rules = READING.rules;
const SMALL: Limits = Limits::small(NARROW);

/// The sheet at the front of an output, after checking the zeros behind it.
fn front(output: &[u8], length: usize) -> Vec<u8> {
    assert!(output[length..].iter().all(|&byte| byte == 0), "zeros behind the sheet");
    output[..length].to_vec()
}

fn accepted(answer: Answer<usize>) -> usize {
    match answer {
        Answer::Accepted(length) => length,
        Answer::Refused(number, place) => panic!("refused with {number} at {place}"),
    }
}

fn truth_of(sheet: &[u8]) -> bool {
    truth::is_true(&NARROW.parse(sheet).expect("a good sheet"))
}

fn run_call(sheet: &[u8], call: Call, output: &mut [u8]) -> Answer<usize> {
    READING.step(call.operation, sheet, call.variable, output)
}

#[test]
fn accepted_bytes_come_back() {
    let mut damaged_but_good = 0;
    cases(10_000, |rng| {
        let sheet = generate::sheet(rng, SMALL);
        assert_eq!(NARROW.encode(&NARROW.parse(&sheet).expect("a good sheet")), sheet);
        let damaged = generate::damage(rng, NARROW, &sheet);
        if let Ok(formula) = NARROW.parse(&damaged) {
            assert_eq!(NARROW.encode(&formula), damaged);
            damaged_but_good += u32::from(damaged != sheet);
        }
    });
    assert!(damaged_but_good > 100);
}

#[test]
fn every_operation_refuses_a_bad_sheet_alike() {
    cases(5_000, |rng| {
        let whole = generate::sheet(rng, SMALL);
        let sheet = generate::damage(rng, NARROW, &whole);
        let Err((number, place)) = NARROW.check(&sheet) else {
            return;
        };
        let length = generate::length_around(rng, NARROW, sheet.len());
        let before = generate::dirty(rng, length);
        let (mut first, mut second) = (before.clone(), before.clone());
        let refused = Answer::Refused(number, place);
        assert_eq!(READING.tidy(&sheet, &mut first), refused);
        assert_eq!(READING.settle(&sheet, 1, &mut first), refused);
        assert_eq!(READING.expand(&sheet, 1, &mut first), refused);
        let solved = READING.solve(&sheet, &mut first, &mut second);
        assert_eq!(solved, SolveAnswer::Refused(number, place));
        assert_eq!(NARROW.trial(&sheet), Answer::Refused(number, place));
        assert!(NARROW.part(&sheet, 0).is_empty());
        assert_eq!((&first, &second), (&before, &before));
    });
}

#[test]
fn tidying_keeps_the_matrix_and_ends() {
    let mut already_tidy = 0;
    cases(6_000, |rng| {
        let sheet = generate::sheet(rng, SMALL);
        let formula = NARROW.parse(&sheet).unwrap();
        let length = sheet.len() + rng.below(9);
        let mut output = generate::dirty(rng, length);
        let length = accepted(READING.tidy(&sheet, &mut output));
        let tidied = front(&output, length);
        let after = NARROW.parse(&tidied).unwrap();
        assert_eq!(after.prefix, formula.prefix);
        assert!(RULES.is_tidy(&after.matrix));
        assert!(after.matrix.rows() <= formula.matrix.rows());
        assert_eq!(truth::table(&after), truth::table(&formula));
        assert_eq!(tidied == sheet, RULES.is_tidy(&formula.matrix), "unchanged exactly when tidy");
        assert_eq!(RULES.tidy_formula(&after), after);
        already_tidy += u32::from(tidied == sheet);
    });
    assert!((500..5_500).contains(&already_tidy), "{already_tidy}");
}

#[test]
fn settling_keeps_truth() {
    let mut steps = 0;
    cases(4_000, |rng| {
        let formula = generate::tidy_formula(rng, SMALL);
        let sheet = NARROW.encode(&formula);
        for &(_, x) in &formula.prefix {
            let room = NARROW.sheet_length(formula.prefix.len() - 1, formula.matrix.rows());
            let mut output = generate::dirty(rng, room);
            match READING.settle(&sheet, x, &mut output) {
                Answer::Accepted(length) => {
                    let after = front(&output, length);
                    assert_eq!(truth_of(&after), truth::is_true(&formula));
                    assert!(is_stepped(&formula, x, &NARROW.parse(&after).unwrap()));
                    steps += 1;
                }
                refused => assert_eq!(refused, Answer::Refused(12, 0)),
            }
        }
    });
    assert!(steps > 5_000, "{steps}");
}

/// The row of `x` is gone, its literals too, and the matrix is tidy.
fn is_stepped(before: &Formula, x: Variable, after: &Formula) -> bool {
    let rows: Vec<_> = before.prefix.iter().copied().filter(|row| row.1 != x).collect();
    after.prefix == rows && RULES.is_tidy(&after.matrix) && !mentions(&after.matrix, x)
}

fn mentions(node: &Node, x: Variable) -> bool {
    match node {
        Node::Lit { var, .. } => *var == x,
        Node::Op { children, .. } => children.iter().any(|child| mentions(child, x)),
    }
}

#[test]
fn expanding_keeps_truth() {
    let mut cases_of_raw_rows = [0; 4];
    cases(4_000, |rng| {
        let formula = generate::tidy_formula(rng, SMALL);
        let sheet = NARROW.encode(&formula);
        for x in RULES.innermost_block(&formula) {
            let expansion = raw_expansion(&formula, x);
            let n = formula.matrix.rows();
            let rows = expansion.raw.matrix.rows();
            assert_eq!(rows, expansion.raw_rows);
            assert_eq!(truth::is_true(&expansion.raw), truth::is_true(&formula));
            cases_of_raw_rows[raw_rows_case(n, expansion.e, rows)] += 1;
            let room = NARROW.sheet_length(formula.prefix.len() - 1, rows);
            let mut output = generate::dirty(rng, room);
            let length = accepted(READING.expand(&sheet, x, &mut output));
            let after = front(&output, length);
            assert_eq!(truth_of(&after), truth::is_true(&formula));
            assert!(is_stepped(&formula, x, &NARROW.parse(&after).unwrap()));
        }
    });
    assert!(cases_of_raw_rows.iter().all(|&count| count > 200), "{cases_of_raw_rows:?}");
}

/// No literal, one, a whole operator, some of its children.
fn raw_rows_case(n: usize, e: usize, rows: usize) -> usize {
    match e {
        0 if rows == n => 0,
        1 if rows == n + 2 => 1,
        _ if rows == n + e + 1 => 2,
        _ if rows == n + e + 2 => 3,
        _ => panic!("{rows} raw rows from {n} with E = {e}"),
    }
}

#[test]
fn solve_truth_and_trial_agree() {
    let mut verdicts = [0; 2];
    let mut expansions = 0;
    cases(5_000, |rng| {
        let formula = generate::formula(rng, SMALL);
        let sheet = NARROW.encode(&formula);
        let (mut first, mut second) = (generate::dirty(rng, 13_060), generate::dirty(rng, 13_060));
        let answer = READING.solve(&sheet, &mut first, &mut second);
        let SolveAnswer::Ended { verdict, settled, expanded } = answer else {
            panic!("{answer:?} in a large buffer");
        };
        assert_eq!(verdict, truth::is_true(&formula));
        let Answer::Accepted((tried, leaves)) = NARROW.trial(&sheet) else {
            panic!("Trial takes eight variables");
        };
        assert_eq!(tried, verdict);
        assert_eq!((tried, leaves), leaves_of(&formula.prefix, &truth::table(&formula)));
        assert!(leaves <= 1 << formula.prefix.len());
        let left = formula.prefix.len() - settled - expanded;
        assert_eq!(NARROW.sizes(&first), Some((left, 1)), "a decided sheet has one node");
        front(&first, NARROW.sheet_length(left, 1));
        front(&second, 0);
        verdicts[usize::from(verdict)] += 1;
        expansions += expanded;
    });
    assert!(verdicts.iter().all(|&count| count > 1_000), "{verdicts:?}");
    assert!(expansions > 1_000, "{expansions}");
}

/// Verdict and leaves by halving the table of the matrix.
fn leaves_of(prefix: &[(Quantifier, Variable)], table: &[bool]) -> (bool, u64) {
    let Some((&(quantifier, _), rest)) = prefix.split_first() else {
        return (table[0], 1);
    };
    let (zero, one) = table.split_at(table.len() / 2);
    let (first, leaves) = leaves_of(rest, zero);
    if first == (quantifier == Exists) {
        return (first, leaves);
    }
    let (second, more) = leaves_of(rest, one);
    (second, leaves + more)
}

/// Solve rebuilt from the single calls, each on the sheet that the last one left.
fn solve_by_calls(sheet: &[u8], room: usize) -> (Vec<u8>, SolveAnswer) {
    let mut output = vec![0xee; room];
    let length = accepted(READING.tidy(sheet, &mut output));
    let mut held = front(&output, length);
    let (mut settled, mut expanded) = (0, 0);
    loop {
        let formula = NARROW.parse(&held).unwrap();
        if let Some(verdict) = verdict(&formula.matrix) {
            return (held, SolveAnswer::Ended { verdict, settled, expanded });
        }
        let mut settle_first =
            (0..=256).filter_map(|x| match READING.settle(&held, x, &mut output) {
                Answer::Accepted(length) => Some(length),
                Answer::Refused(..) => None,
            });
        let settle_length = settle_first.next();
        if let Some(length) = settle_length {
            held = front(&output, length);
            settled += 1;
            continue;
        }
        let (_, variable) = prices(&held).into_iter().min().expect("a variable is left");
        match READING.expand(&held, variable, &mut output) {
            Answer::Accepted(length) => {
                held = front(&output, length);
                expanded += 1;
            }
            Answer::Refused(number, _) => {
                assert_eq!(number, 13);
                return (held, SolveAnswer::Stopped { variable, settled, expanded });
            }
        }
    }
}

/// Raw rows and number of each variable that may be expanded.
fn prices(sheet: &[u8]) -> Vec<(usize, Variable)> {
    let formula = NARROW.parse(sheet).unwrap();
    let bound = formula.prefix.iter().map(|row| row.1);
    let innermost = bound.filter(|&x| READING.expand(sheet, x, &mut []) == Answer::Refused(13, 0));
    innermost.map(|x| (raw_expansion(&formula, x).raw_rows, x)).collect()
}

#[test]
fn solve_is_its_single_calls() {
    let mut stops = 0;
    cases(3_000, |rng| {
        let formula = generate::formula(rng, SMALL);
        let sheet = NARROW.encode(&formula);
        let room = sheet.len() + rng.below(2 * sheet.len());
        let (mut first, mut second) = (generate::dirty(rng, room + 3), generate::dirty(rng, room));
        if rng.one_in(2) {
            std::mem::swap(&mut first, &mut second);
        }
        let answer = READING.solve(&sheet, &mut first, &mut second);
        let (held, expected) = solve_by_calls(&sheet, room);
        assert_eq!(answer, expected);
        assert_eq!(front(&first, held.len()), held);
        front(&second, 0);
        assert_eq!(truth_of(&held), truth::is_true(&formula));
        stops += u32::from(matches!(answer, SolveAnswer::Stopped { .. }));
    });
    assert!(stops > 200, "{stops}");
}

#[test]
fn lists_of_calls_keep_truth_and_count_variables() {
    let mut refusals = [0; 20];
    cases(3_000, |rng| {
        let start = generate::tidy_formula(rng, SMALL);
        let truth_at_start = truth::is_true(&start);
        let mut held = NARROW.encode(&start);
        let mut accepted_calls = 0;
        for _ in 0..rng.between(1, 20) {
            let call = generate::call(rng, &READING, &NARROW.parse(&held).unwrap());
            let before = generate::dirty(rng, call.room);
            let mut output = before.clone();
            match run_call(&held, call, &mut output) {
                Answer::Accepted(length) => {
                    held = front(&output, length);
                    accepted_calls += 1;
                    refusals[0] += 1;
                }
                Answer::Refused(number, place) => {
                    assert_eq!((output, place), (before, 0), "{call:?}");
                    refusals[usize::from(number)] += 1;
                }
            }
        }
        assert_eq!(truth_of(&held), truth_at_start);
        let (left, _) = NARROW.check(&held).unwrap();
        assert_eq!(accepted_calls + left, start.prefix.len());
    });
    for number in [0, 10, 11, 12, 13] {
        assert!(refusals[number] > 500, "{refusals:?}");
    }
}

/// The first number, in the paper's order, whose condition holds; 0 if none.
fn expected_refusal(formula: &Formula, call: Call) -> usize {
    let x = call.variable;
    let bound = formula.prefix.iter().position(|row| row.1 == x);
    let rest = bound.map_or(&[][..], |row| &formula.prefix[row..]);
    let blocks = |row: &Binding| row.0 != rest[0].0 && mentions(&formula.matrix, row.1);
    let outside_block = rest.iter().any(blocks);
    let v_left = formula.prefix.len().saturating_sub(1);
    let short = |rows: usize| call.room < 4 + 3 * (v_left + rows);
    let raw = |x| raw_expansion(formula, x).raw.matrix.rows();
    let conditions = match call.operation {
        Operation::Settle => vec![
            (9, !RULES.is_tidy(&formula.matrix)),
            (10, bound.is_none()),
            (12, bound.is_some() && settle_value(formula, x).is_none()),
            (13, short(formula.matrix.rows())),
        ],
        Operation::Expand => vec![
            (9, !RULES.is_tidy(&formula.matrix)),
            (10, bound.is_none()),
            (11, outside_block),
            (13, bound.is_some() && short(raw(x))),
        ],
        Operation::Execute(ceiling) => vec![
            (9, !RULES.is_tidy(&formula.matrix)),
            (10, bound.is_none()),
            (11, outside_block),
            (19, bound.is_some() && ceiling < raw(x)),
            (13, bound.is_some() && short(raw(x))),
        ],
    };
    conditions.into_iter().find(|condition| condition.1).map_or(0, |condition| condition.0)
}

#[test]
fn refusals_come_in_the_papers_order() {
    cases(6_000, |rng| {
        let formula = generate::formula(rng, SMALL);
        let call = generate::call(rng, &READING, &formula);
        let answer = run_call(&NARROW.encode(&formula), call, &mut vec![0; call.room]);
        assert_eq!(answer.number(), expected_refusal(&formula, call), "{call:?}");
    });
}

/// The kinds of every subtree in preorder, each collected on its own.
fn parts_of(node: &Node, parts: &mut Vec<Vec<u8>>) {
    let rows = NARROW.encode(&Formula { prefix: Vec::new(), matrix: node.clone() });
    parts.push(rows[4..][..node.rows()].to_vec());
    node.children().iter().for_each(|child| parts_of(child, parts));
}

#[test]
fn parts_are_subtrees() {
    cases(1_000, |rng| {
        let formula = generate::formula(rng, SMALL);
        let sheet = NARROW.encode(&formula);
        let mut parts = Vec::new();
        parts_of(&formula.matrix, &mut parts);
        for (node, expected) in parts.iter().enumerate() {
            assert_eq!(NARROW.part(&sheet, node), expected);
            assert_eq!(NARROW.part_range(&sheet, node).start, 4 + formula.prefix.len() + node);
        }
        assert!(NARROW.part(&sheet, parts.len()).is_empty());
    });
}

fn large_run(rng: &mut Rng, limits: Limits) -> (Vec<u8>, SolveAnswer) {
    let formula = generate::formula(rng, limits);
    let sheet = NARROW.encode(&formula);
    let (mut first, mut second) = (generate::dirty(rng, 13_060), generate::dirty(rng, 13_060));
    let answer = READING.solve(&sheet, &mut first, &mut second);
    let reached = front(&first, NARROW.front(&first).len());
    let (left, _) = NARROW.check(&reached).expect("the sheet reached is a good one");
    front(&second, 0);
    let (settled, expanded) = answer.counts().expect("a good sheet is not refused");
    assert_eq!(settled + expanded + left, formula.prefix.len());
    (sheet, answer)
}

#[test]
fn middling_sheets_agree_with_trial() {
    let limits = Limits { format: NARROW, variables: 11, nodes: 160 };
    cases(400, |rng| {
        let (sheet, answer) = large_run(rng, limits);
        if let SolveAnswer::Ended { verdict, .. } = answer {
            assert!(
                matches!(NARROW.trial(&sheet), Answer::Accepted((tried, _)) if tried == verdict)
            );
        }
    });
}

#[test]
fn sheets_of_full_size() {
    with_deep_stack(|| {
        cases(60, |rng| {
            let (sheet, _) = large_run(rng, Limits::full(NARROW));
            let mut output = vec![1; sheet.len()];
            let length = accepted(READING.tidy(&sheet, &mut output));
            let tidied = front(&output, length);
            assert_eq!(accepted(READING.tidy(&tidied, &mut output)), length);
            assert_eq!(front(&output, length), tidied);
        });
    });
}
