//! Operations that write a sheet against the independent reading: answers and
//! every byte of the output, over buffers around every limit and of any
//! contents.

use differential::compare::{cases, hexadecimal, limit_sheets};
use differential::{Library, LIBRARIES};
use outside::formulas::{all, clause, formula, lit};
use outside::generate::{self, Call, Limits, Rng};
use outside::reference::*;
use outside::with_deep_stack;
use Operation::{Execute, Expand, Settle};
use Quantifier::{Exists, ForAll};

fn agree_on_tidy(rng: &mut Rng, library: &Library, sheet: &[u8]) {
    let room = generate::length_around(rng, library.reading.format, sheet.len());
    let outcome = library.agree_on_tidy(sheet, &generate::dirty(rng, room));
    if let Some(tidied) = outcome.sheet() {
        let again = library.agree_on_tidy(tidied, &generate::dirty(rng, tidied.len()));
        assert!(again.output() == tidied, "tidied twice: {}", hexadecimal(sheet));
    }
}

#[test]
fn tidy_on_small_sheets() {
    cases(30_000, |library, rng| {
        let format = library.reading.format;
        let sheet = generate::sheet(rng, Limits::small(format));
        agree_on_tidy(rng, library, &sheet);
        let damaged = generate::damage(rng, format, &sheet);
        agree_on_tidy(rng, library, &damaged);
    });
}

#[test]
fn tidy_on_large_sheets() {
    with_deep_stack(|| {
        let mut rng = Rng::new(generate::run_seed());
        limit_sheets(|library, sheet| agree_on_tidy(&mut rng, library, sheet));
        cases(200, |library, rng| {
            let format = library.reading.format;
            for limits in [Limits::medium(format), Limits::full(format)] {
                let sheet = generate::sheet(rng, limits);
                agree_on_tidy(rng, library, &sheet);
            }
        });
    });
}

/// A variable of the formula, of its innermost block, or any other number.
fn variable(rng: &mut Rng, reading: &Reading, formula: &Formula) -> Variable {
    if formula.prefix.is_empty() || rng.one_in(8) {
        let (last, highest) = (reading.format.most_variables, reading.format.highest_number());
        return rng.pick(&[0, 1, last, last + 1, highest + 2, usize::MAX]);
    }
    let whole_prefix = rng.one_in(2);
    let innermost = || reading.rules.innermost_block(formula);
    rng.pick(&if whole_prefix { formula.variables() } else { innermost() })
}

/// One call with an output about as long as it needs; answers with the refusal
/// number, 0 if it was accepted.
fn agree_around(
    rng: &mut Rng,
    library: &Library,
    operation: Operation,
    formula: &Formula,
    sheet: &[u8],
) -> usize {
    let format = library.reading.format;
    let variable = variable(rng, &library.reading, formula);
    let exact = format.least_output(operation, formula, variable);
    let room = generate::length_around(rng, format, exact);
    let call = Call { operation, variable, room };
    library.agree_on_call(sheet, call, &generate::dirty(rng, room)).answer.number()
}

/// Tidy, untidy and damaged sheets; every refusal must come up.
fn agree_on_small_sheets(operation: Operation, refusals: &[usize]) {
    let mut seen = [0; 15];
    cases(40_000, |library, rng| {
        let format = library.reading.format;
        let formula = generate::tidy_formula(rng, Limits::small(format));
        let sheet = format.encode(&formula);
        seen[agree_around(rng, library, operation, &formula, &sheet)] += 1;
        let untidy = generate::formula(rng, Limits::small(format));
        seen[agree_around(rng, library, operation, &untidy, &format.encode(&untidy))] += 1;
        let damaged = generate::damage(rng, format, &sheet);
        seen[agree_around(rng, library, operation, &formula, &damaged)] += 1;
    });
    assert!(refusals.iter().all(|&number| seen[number] > 400), "{seen:?}");
}

fn agree_on_large_sheets(operation: Operation) {
    with_deep_stack(|| {
        cases(400, |library, rng| {
            let format = library.reading.format;
            for limits in [Limits::medium(format), Limits::full(format)] {
                let formula = generate::tidy_formula(rng, limits);
                agree_around(rng, library, operation, &formula, &format.encode(&formula));
            }
        });
    });
}

#[test]
fn settle_on_small_sheets() {
    agree_on_small_sheets(Settle, &[0, 1, 2, 3, 4, 5, 6, 7, 8, 9, 10, 12, 13]);
}

#[test]
fn settle_on_large_sheets() {
    agree_on_large_sheets(Settle);
}

#[test]
fn expand_on_small_sheets() {
    agree_on_small_sheets(Expand, &[0, 1, 2, 3, 4, 5, 6, 7, 8, 9, 10, 11, 13]);
}

#[test]
fn expand_on_large_sheets() {
    agree_on_large_sheets(Expand);
}

/// A quote, its execution and Expand in equal outputs; answers with the quote.
fn agree_on_quote(
    rng: &mut Rng,
    library: &Library,
    sheet: &[u8],
    x: Variable,
    room: usize,
) -> Answer<usize> {
    let before = generate::dirty(rng, room);
    let call =
        |operation| library.agree_on_call(sheet, Call { operation, variable: x, room }, &before);
    let expanded = call(Expand);
    let quote = library.agree_on_quote(sheet, x);
    match quote {
        Answer::Accepted(rows) => {
            assert!(call(Execute(rows)) == expanded, "quoted {rows}: {}", hexadecimal(sheet));
            assert_eq!(call(Execute(rows - 1)).answer, Answer::Refused(19, 0));
        }
        refused => {
            assert_eq!(expanded.answer, refused);
            assert_eq!(call(Execute(usize::MAX)).answer, refused);
        }
    }
    let ceiling = generate::ceiling_around(rng, quote.accepted().unwrap_or(1));
    call(Execute(ceiling));
    quote
}

#[test]
fn a_quote_and_its_execution_are_an_expansion() {
    let mut seen = [0; 20];
    cases(20_000, |library, rng| {
        let format = library.reading.format;
        let formula = generate::tidy_formula(rng, Limits::small(format));
        let untidy = generate::formula(rng, Limits::small(format));
        let sheet = format.encode(&formula);
        let damaged = generate::damage(rng, format, &sheet);
        let x = variable(rng, &library.reading, &formula);
        let room = generate::length_around(rng, format, format.least_output(Expand, &formula, x));
        for sheet in [sheet, format.encode(&untidy), damaged] {
            seen[agree_on_quote(rng, library, &sheet, x, room).number()] += 1;
        }
    });
    assert!((0..=11).all(|number| seen[number] > 200), "{seen:?}");
}

/// A quote has no limit of rows: above the format's most, Execute is refused by
/// 13 under a high enough ceiling.
#[test]
fn quotes_above_the_row_limit() {
    let mut rng = Rng::new(generate::run_seed());
    for library in &LIBRARIES {
        let format = library.reading.format;
        for raw in format.most_nodes - 1..format.most_nodes + 3 {
            for matrix in with_raw_rows(format, Kind::And, raw) {
                let sheet = format.encode(&formula(&all(Exists, MANY), matrix));
                let room = 3 * format.longest_sheet();
                let quote = agree_on_quote(&mut rng, library, &sheet, 1, room);
                assert_eq!(quote, Answer::Accepted(raw));
            }
        }
    }
}

/// One call with each length around the least that suffices.
fn agree_at_limits(
    rng: &mut Rng,
    library: &Library,
    operation: Operation,
    formula: &Formula,
    variable: Variable,
) {
    let format = library.reading.format;
    let exact = format.least_output(operation, formula, variable);
    for room in [0, exact - 1, exact, exact + 1] {
        let call = Call { operation, variable, room };
        library.agree_on_call(&format.encode(formula), call, &generate::dirty(rng, room));
    }
}

#[test]
fn steps_at_every_limit_of_the_output() {
    cases(6_000, |library, rng| {
        let formula = generate::tidy_formula(rng, Limits::small(library.reading.format));
        for variable in formula.variables() {
            agree_at_limits(rng, library, Settle, &formula, variable);
            agree_at_limits(rng, library, Expand, &formula, variable);
        }
    });
}

/// The variables of the sheets around the limit of rows: enough for children of
/// which no two are equal.
const MANY: usize = 200;

/// Children for an operator, `rows` in all (at least 6), in operators of `kind`
/// over the variables behind 1, no two of them equal.
fn filling(kind: Kind, rows: usize) -> Vec<Node> {
    let longer = rows % 3;
    let group = |literals: &[i32]| Node::Op {
        kind,
        children: literals.iter().map(|&signed| lit(signed)).collect(),
    };
    let short = (rows - 4 * longer) / 3;
    let pairs = (2..MANY as i32).flat_map(|a| (a + 1..=MANY as i32).map(move |b| [a, b]));
    let long = (0..longer as i32).map(|at| group(&[2, 3, 4 + at]));
    long.chain(pairs.take(short).map(|pair| group(&pair))).collect()
}

/// Groups of three rows with both signs of variable 1, no two of them equal.
fn relevant_groups(kind: Kind, count: usize) -> Vec<Node> {
    let sign = |at: usize| if at.is_multiple_of(2) { 1 } else { -1 };
    let group = |at: usize| {
        let (other, round) = (at / 2 % (MANY - 1), at / 2 / (MANY - 1));
        let (one, other) = (lit(sign(at)), lit(sign(round) * (2 + other as i32)));
        Node::Op { kind, children: if round < 2 { vec![one, other] } else { vec![other, one] } }
    };
    (0..count).map(group).collect()
}

/// Matrices whose expansion of variable 1 has `raw` rows: with no literal of
/// it, with one, with some of the root's children relevant, and with all.
fn with_raw_rows(format: Format, kind: Kind, raw: usize) -> Vec<Node> {
    let filled = |mut children: Vec<Node>, rows: usize| {
        let middle = children.len() / 2;
        children.splice(middle..middle, filling(kind.other(), rows));
        Node::Op { kind, children }
    };
    let some = 600;
    let mut matrices = vec![
        filled(vec![lit(1)], raw - 4),
        filled(relevant_groups(kind.other(), some), raw - 4 - 6 * some),
    ];
    if raw <= format.most_nodes {
        matrices.push(filled(vec![], raw - 1));
    }
    if raw % 6 == 3 {
        matrices.push(filled(relevant_groups(kind.other(), (raw - 3) / 6), 0));
    }
    matrices
}

/// Expansions of variable 1 with exactly `raw` rows; answers with how many
/// were accepted.
fn agree_on_raw_rows(rng: &mut Rng, library: &Library, kind: Kind, raw: usize) -> usize {
    let format = library.reading.format;
    let mut accepted = 0;
    for matrix in with_raw_rows(format, kind, raw) {
        for quantifier in [Exists, ForAll] {
            let formula = formula(&all(quantifier, MANY), matrix.clone());
            assert_eq!(raw_rows(&formula, 1), raw);
            agree_at_limits(rng, library, Expand, &formula, 1);
            let room = 3 * format.longest_sheet();
            let call = Call { operation: Expand, variable: 1, room };
            let sheet = format.encode(&formula);
            let outcome = library.agree_on_call(&sheet, call, &generate::dirty(rng, room));
            assert_eq!(outcome.sheet().is_some(), raw <= format.most_nodes);
            accepted += usize::from(outcome.sheet().is_some());
        }
    }
    accepted
}

#[test]
fn expand_around_the_row_limit() {
    let mut rng = Rng::new(generate::run_seed());
    for library in &LIBRARIES {
        let limit = library.reading.format.most_nodes;
        let mut accepted = 0;
        for raw in limit - 3..=limit + 5 {
            for kind in [Kind::And, Kind::Or] {
                accepted += agree_on_raw_rows(&mut rng, library, kind, raw);
            }
        }
        assert!(accepted > 20, "{accepted}");
    }
}

#[test]
fn expansion_of_a_clause_under_a_long_prefix() {
    let mut rng = Rng::new(generate::run_seed());
    for library in &LIBRARIES {
        let most = library.reading.format.most_variables;
        for quantifier in [Exists, ForAll] {
            for v in [2, most - 1, most] {
                let formula = formula(&all(quantifier, v), clause(&[1, -2]));
                for variable in [1, 2, v, v + 1] {
                    agree_at_limits(&mut rng, library, Expand, &formula, variable);
                }
            }
        }
    }
}
