//! The list of cases.

use super::{Call, Case, Letter, SHORT};
use crate::formulas::*;
use crate::generate::{deep_formula, ladder_formula, limit_sheets, wide_formula, with_variables};
use crate::reference::{
    block_behind, raw_rows, Answer, Format, Formula, Move, Node, Operation, Quantifier, Reading,
    Row, Variable,
};
use Quantifier::{Exists, ForAll};

const CHECK: Call = Call::new(Letter::Check, 0, 0);
const TRIAL: Call = Call::new(Letter::Trial, 0, 0);

fn part_call(node: usize) -> Call {
    Call::new(Letter::Part, node, 0)
}

/// Solve with the program's buffers, with buffers of the sheet's length, and
/// with the first or the second a byte shorter than the sheet.
fn solve_calls(format: Format, formula: &Formula) -> Vec<Call> {
    let (longest, length) = (format.longest_sheet(), format.encode(formula).len());
    vec![
        Call::solve(longest, longest),
        Call::solve(length, length),
        Call::solve(length - 1, length),
        Call::solve(length, length - 1),
    ]
}

/// A call with an output of the length that is asked for, and with one byte less.
fn at_limit(letter: Letter, number: usize, room: usize) -> [Call; 2] {
    [room, room - 1].map(|room| Call::new(letter, number, room))
}

fn tidy_calls(format: Format, formula: &Formula) -> Vec<Call> {
    at_limit(Letter::Tidy, 0, format.encode(formula).len()).into()
}

fn reduce_calls(format: Format, formula: &Formula) -> Vec<Call> {
    at_limit(Letter::Reduce, 0, format.encode(formula).len()).into()
}

/// Settle and Expand of these variables.
fn step_calls(format: Format, formula: &Formula, variables: &[Variable]) -> Vec<Call> {
    let steps = [(Letter::Settle, Operation::Settle), (Letter::Expand, Operation::Expand)];
    let mut calls = Vec::new();
    for &x in variables {
        for (letter, operation) in steps {
            let room = format.least_output(operation, formula, x).min(format.longest_sheet());
            calls.extend(at_limit(letter, x, room));
        }
    }
    calls
}

/// Quote, and Execute with the raw rows as its ceiling and with one less, in an
/// output that suffices and in none.
fn quote_calls(format: Format, formula: &Formula, x: Variable) -> Vec<Call> {
    let raw = raw_rows(formula, x);
    let room = format.least_output(Operation::Expand, formula, x).min(format.longest_sheet());
    let mut calls = vec![Call::new(Letter::Quote, x, 0)];
    for ceiling in [raw, raw - 1] {
        calls.extend([room, 0].map(|room| Call::execute(x, ceiling, room)));
    }
    calls
}

/// Tidy, and the steps and quotes of every variable and of two other numbers.
fn writing_calls(format: Format, formula: &Formula) -> Vec<Call> {
    let mut variables = formula.variables();
    variables.extend([0, 300]);
    let quotes = variables.iter().flat_map(|&x| quote_calls(format, formula, x)).collect();
    [tidy_calls(format, formula), step_calls(format, formula, &variables), quotes].concat()
}

/// The single calls that Solve is made of, each on the sheet that the last one left.
fn solving_calls(reading: Reading, formula: &Formula) -> Vec<Case> {
    let Reading { format, rules } = reading;
    let mut held = rules.tidy_formula(formula);
    let mut cases = Vec::new();
    loop {
        let (letter, number, next) = match rules.next_move(&held) {
            Move::End(_) => return cases,
            Move::Settle(x, value) => (Letter::Settle, x, rules.settle_formula(&held, x, value)),
            Move::Expand(x) => (Letter::Expand, x, rules.expand_formula(&held, x)),
        };
        let calls = vec![Call::new(letter, number, format.longest_sheet())];
        cases.push(Case { sheet: format.encode(&held), calls });
        held = next;
    }
}

/// Force with every beginning of values of up to three rows, with values that
/// are too many or none, and with buffers of the sheet's length and a byte less.
fn force_calls(format: Format, formula: &Formula) -> Vec<Call> {
    let length = format.encode(formula).len();
    let longest = format.longest_sheet();
    let mut calls = Vec::new();
    for given in 0..=formula.prefix.len().min(3) {
        for bits in 0..1u8 << given {
            let values: Vec<u8> = (0..given).map(|row| bits >> row & 1).collect();
            calls.push(Call::force(&values, longest, longest));
            if bits == 0 {
                calls.extend([length, length - 1].map(|room| Call::force(&values, room, length)));
                calls.push(Call::force(&[&values[..], &[2]].concat(), length, longest));
            }
        }
    }
    calls
}

/// The same list for both formats, and sheets carried over and back.
pub fn cases() -> Vec<Case> {
    let mut cases = cases_of(Reading::NARROW);
    for Case { sheet, calls } in cases_of(Reading::WIDE) {
        cases.push(Case { sheet, calls: calls.into_iter().map(Call::on_wide).collect() });
    }
    cases.extend(carried());
    cases
}

fn cases_of(reading: Reading) -> Vec<Case> {
    let format = reading.format;
    let mut cases = Vec::new();
    for sheet in refused_sheets(format) {
        let mut calls = vec![CHECK, TRIAL, part_call(0)];
        let writing = [Letter::Tidy, Letter::Reduce, Letter::Settle, Letter::Expand];
        calls.extend(writing.map(|letter| Call::new(letter, 1, SHORT)));
        calls.extend([Call::solve(SHORT, SHORT), Call::solve(0, 0)]);
        calls.push(Call::force(&[0, 2], SHORT, SHORT));
        cases.push(Case { sheet, calls });
    }
    for limit in limit_sheets(format) {
        let longest = format.longest_sheet();
        let room = limit.sheet.len().min(longest);
        let tidy = Call::new(Letter::Tidy, 0, room);
        let calls = vec![CHECK, tidy, Call::solve(room, longest)];
        cases.push(Case { sheet: limit.sheet, calls });
    }
    for (formula, _) in tried_by_hand() {
        let mut calls = vec![CHECK, TRIAL];
        calls.extend((0..=formula.matrix.rows()).map(part_call));
        calls.extend(writing_calls(format, &formula));
        calls.extend(reduce_calls(format, &formula));
        calls.extend(solve_calls(format, &formula));
        calls.extend(force_calls(format, &formula));
        cases.push(Case { sheet: format.encode(&formula), calls });
        cases.extend(solving_calls(reading, &formula));
    }
    for formula in clause_traps() {
        let calls = reduce_calls(format, &formula);
        cases.push(Case { sheet: format.encode(&formula), calls });
    }
    cases.push(four_cubes_at_limit(format));
    for formula in traps() {
        let (writing, solve) = (writing_calls(format, &formula), solve_calls(format, &formula));
        let calls = [writing, solve, force_calls(format, &formula)].concat();
        cases.push(Case { sheet: format.encode(&formula), calls });
        cases.extend(solving_calls(reading, &formula));
    }
    for (quantifier, count) in [(Exists, 20), (ForAll, 20), (Exists, 21)] {
        let sheet = sheet(format, &all(quantifier, count), and(vec![]));
        cases.push(Case { sheet, calls: vec![TRIAL] });
    }
    cases.extend(largest(format));
    cases.extend(guards_cases(format));
    cases.extend(ordered(format));
    cases.extend(outer_cases(format));
    cases.extend(text_cases(format));
    cases
}

/// QDIMACS in (N1): a text for each point that a reader could get wrong, in outputs that suffice and that lack a byte.
fn text_cases(format: Format) -> Vec<Case> {
    let texts = [
        "c a comment\n\n p cnf 3 2 \ne 3 0\na 1 0\n1 -2 0 -3 02 0",
        "p cnf 2 3\na\t1\r\n2 0 0 0\n-1\n2 0",
        "p cnf 0 0",
        "p cnf 2 0\ne 0 a 2 0",
        "p cnf 1 1 1\n1 0",
        "p cnf +1 1\n1 0",
        "p cnf 1025 0",
        "p cnf 257 1\n257 0",
        "1 0",
        "",
        "p cnf 2 1\n1 -0 0",
        "p cnf 2 1\n1x 0",
        "p cnf 2 1\n+1 0",
        "p cnf 2 1\n1 0 2",
        "p cnf 2 1\n3 0\nc below\n",
        "p cnf 2 1\n1 0\ne 2 0",
        "p cnf 2 1\ne -1 0 1 0",
        "p cnf 2 1\n1 e 2 0",
        "p cnf 2 1\n-2147483648 0",
        "p cnf 2 1\n99999999999999999999999999999999 0",
        "p cnf 2 1\ne 3 0 1 0",
        "p cnf 2 99999999999999999999\n1 0",
        "p cnf 2 1\ne 1 0 a 1 0 2 0",
    ];
    let mut texts: Vec<Vec<u8>> = texts.map(|text| text.as_bytes().to_vec()).into();
    for clauses in [format.most_nodes - 1, format.most_nodes] {
        texts.push(format!("p cnf 1 {clauses}\n{}", "0 ".repeat(clauses)).into_bytes());
    }
    let reading = Reading { format, ..Reading::NARROW };
    let case = |text: Vec<u8>| {
        let room = match reading.qdimacs(&text, &mut vec![0; format.longest_sheet()]) {
            Answer::Accepted(length) => length,
            Answer::Refused(..) => SHORT,
        };
        Case { sheet: text, calls: at_limit(Letter::Qdimacs, 0, room).into() }
    };
    texts.into_iter().map(case).collect()
}

/// The step one block out (N6) of every variable and of two other numbers, in an output that suffices and in one a byte too short.
fn outer_calls(format: Format, formula: &Formula) -> Vec<Call> {
    let mut variables = formula.variables();
    variables.extend([0, 300]);
    let mut calls = Vec::new();
    for x in variables {
        let block = block_behind(formula, x);
        let raw = block.and_then(|block| format.outer_expansion(formula, x, &block));
        let room = raw.map_or(SHORT, |expansion| format.encode(&expansion.raw).len());
        calls.extend(at_limit(Letter::Outer, x, room.min(format.longest_sheet())));
    }
    calls
}

/// What the step one block out could get wrong, with all numbers in use too, and the largest sheets.
fn outer_cases(format: Format) -> Vec<Case> {
    let Format { most_variables, most_nodes: n, .. } = format;
    let linked = [[-2, 3], [2, -3], [-1, -2], [1, 2]].map(|literals| clause(&literals));
    let prefix = [(ForAll, 1), (Exists, 2), (Exists, 3)];
    let every: Vec<_> = (3..=most_variables).map(|x| (Exists, x)).collect();
    let mut formulas = vec![
        // 3 depends on 1 by way of 2 alone; copying only 2 makes a true formula false.
        formula(&prefix, and(linked.to_vec())),
        // The same in another order of the prefix, with a universal row between and a spare one behind.
        formula(
            &[(ForAll, 1), (ForAll, 5), (Exists, 3), (Exists, 2), (ForAll, 4)],
            and([&linked[..], &[clause(&[3, 5])]].concat()),
        ),
        // No literal of 1; one literal; a child that holds none of those chosen.
        formula(&prefix, clause(&[2, 3])),
        formula(&prefix, and(vec![lit(3), clause(&[1, 2])])),
        formula(&prefix, and(vec![lit(3), clause(&[1, 2]), clause(&[-1, -2])])),
        // An existential row behind which a universal one has literals.
        formula(&[(ForAll, 1), (Exists, 2), (ForAll, 3)], and(linked.to_vec())),
        // No number is left, and one is.
        formula(&[&prefix[..2], &every[..]].concat(), and(linked[2..].to_vec())),
        formula(&[&prefix[..2], &every[1..]].concat(), and(linked[2..].to_vec())),
    ];
    formulas.extend(traps());
    let mut cases: Vec<_> = formulas
        .into_iter()
        .map(|formula| Case {
            sheet: format.encode(&formula),
            calls: outer_calls(format, &formula),
        })
        .collect();
    for mut formula in [ladder_formula(format, n / 2 - 1, 2), clauses(format, n / 6)] {
        // 2 to 20 are the block behind all the others.
        let (block, others): (Vec<_>, Vec<_>) =
            formula.variables().into_iter().partition(|x| (2..=20).contains(x));
        formula.prefix = others.into_iter().map(|x| (ForAll, x)).collect();
        formula.prefix.extend(block.into_iter().map(|x| (Exists, x)));
        let longest = format.longest_sheet();
        let calls = [1, most_variables].map(|x| Call::new(Letter::Outer, x, longest));
        cases.push(Case { sheet: format.encode(&formula), calls: calls.into() });
    }
    let refused = refused_sheets(format).into_iter();
    let call = Call::new(Letter::Outer, 1, SHORT);
    cases.extend(refused.map(|sheet| Case { sheet, calls: vec![call.clone()] }));
    cases
}

/// Sort and Compare (N14): every formula tried by hand and every trap sorted, and beside the next one, in buffers that suffice and in
/// ones a byte too short; refused sheets on either side; the deepest and the widest sheets.
fn ordered(format: Format) -> Vec<Case> {
    let longest = format.longest_sheet();
    let tried = tried_by_hand().into_iter().map(|(formula, _)| formula);
    let sheets: Vec<_> = tried.chain(traps()).map(|formula| format.encode(&formula)).collect();
    let bad = refused_sheets(format).remove(0);
    let beside = |(i, sheet): (usize, &Vec<u8>)| {
        let (other, length) = (sheets[(i + 1) % sheets.len()].clone(), sheet.len());
        let mut calls: Vec<_> = at_limit(Letter::Sort, 0, length).into();
        for (first, second) in
            [(length, other.len()), (length - 1, longest), (longest, other.len() - 1)]
        {
            calls.push(Call::compare(other.clone(), first, second));
        }
        calls.push(Call::compare(sheet.clone(), length, length));
        calls.push(Call::compare(bad.clone(), length, length));
        Case { sheet: sheet.clone(), calls }
    };
    let mut cases: Vec<_> = sheets.iter().enumerate().map(beside).collect();
    let calls = vec![Call::compare(bad.clone(), 0, 0), Call::new(Letter::Sort, 0, 0)];
    cases.push(Case { sheet: bad.clone(), calls });
    for formula in [deep_formula(2, format.most_nodes), wide_formula(format.most_nodes)] {
        let sheet = format.encode(&formula);
        let length = sheet.len();
        let calls =
            vec![Call::new(Letter::Sort, 0, length), Call::compare(sheet.clone(), length, length)];
        cases.push(Case { sheet, calls });
    }
    cases
}

/// Guards: roots that aren't AND, that hold, that clash, buffers around each limit, runs that stop.
fn guards_cases(format: Format) -> Vec<Case> {
    let longest = format.longest_sheet();
    let clashing = [clause(&[1, 2]), lit(3), clause(&[-1, 2]), clause(&[1, -2]), lit(3)];
    let both = [clause(&[-1, -2]), clause(&[2, 3]), or(vec![])];
    // 1 and not 1 clash at once; without one of them the clauses have to be expanded, for which there is no room.
    let clauses = [[2, 3], [-2, 3], [2, -3], [-2, -3]].map(|literals| clause(&literals));
    let mut formulas = vec![
        formula(&all(Exists, 1), lit(1)),
        formula(&all(Exists, 2), clause(&[1, 2])),
        formula(&[], and(vec![])),
        formula(&[], and(vec![and(vec![]), or(vec![]), or(vec![and(vec![])])])),
        formula(&all(Exists, 3), and(clashing.to_vec())),
        formula(&all(Exists, 3), and([&clashing[..], &both[..1]].concat())),
        formula(&all(ForAll, 3), and([&clashing[..], &both[..]].concat())),
        formula(&all(Exists, 3), and([&[lit(1), lit(-1)][..], &clauses[..]].concat())),
    ];
    formulas.extend(tried_by_hand().into_iter().map(|(formula, _)| formula));
    let mut cases = Vec::new();
    for formula in formulas {
        let length = format.encode(&formula).len();
        let mut calls = vec![Call::guards(longest, longest, longest)];
        for room in [length, length + 6, length + 20] {
            calls.push(Call::guards(length, room, room));
        }
        calls.push(Call::guards(length - 1, length, length));
        calls.push(Call::guards(length, length - 1, length));
        calls.push(Call::guards(length, length, length - 1));
        cases.push(Case { sheet: format.encode(&formula), calls });
    }
    let calls = vec![Call::guards(SHORT, SHORT, SHORT), Call::guards(0, 0, 0)];
    let refused = refused_sheets(format).into_iter();
    cases.extend(refused.map(|sheet| Case { sheet, calls: calls.clone() }));
    cases
}

/// The raw sheet of the four cubes has 88 bytes, wide 148; the tidied one would fit a byte less too.
fn four_cubes_at_limit(format: Format) -> Case {
    let room = format.sheet_length(1, 27);
    let lengths = [(room, room), (room, room - 1), (room - 1, room), (room - 1, room - 1)];
    let calls = lengths.map(|(first, second)| Call::solve(first, second)).into();
    Case { sheet: sheet(format, &all(ForAll, 2), four_cubes()), calls }
}

/// Carrying over and bringing back, with outputs that suffice and that lack a byte.
fn carried() -> Vec<Case> {
    let (narrow, wide) = (Format::NARROW, Format::WIDE);
    let case = |letter: Letter, sheet: Vec<u8>, room: usize| {
        let calls = [room, room - 1, 0, wide.longest_sheet()];
        Case { sheet, calls: calls.map(|room| Call::new(letter, 0, room)).into() }
    };
    let mut formulas: Vec<Formula> = tried_by_hand().into_iter().map(|tried| tried.0).collect();
    formulas.extend([deep_formula(256, 4096), wide_formula(4096)]);
    let mut cases = Vec::new();
    for formula in formulas {
        let (short, long) = (narrow.encode(&formula), wide.encode(&formula));
        cases.push(case(Letter::Widen, short.clone(), long.len()));
        cases.push(case(Letter::BringBack, long, short.len()));
    }
    // Bytes that are no sheet of the format they are taken for, and wide sheets past a narrow limit.
    for sheet in refused_sheets(narrow) {
        cases.push(case(Letter::Widen, sheet, SHORT));
    }
    for sheet in refused_sheets(wide) {
        cases.push(case(Letter::BringBack, sheet, SHORT));
    }
    for sheet in beyond_narrow() {
        cases.push(case(Letter::BringBack, sheet, SHORT));
    }
    cases
}

/// Good wide sheets with a size or a number above the narrow limits. A child count is neither.
fn beyond_narrow() -> Vec<Vec<u8>> {
    let wide = Format::WIDE;
    let formulas = [with_variables(257), wide_formula(4097), deep_formula(257, 4096)];
    let mut sheets: Vec<Vec<u8>> = formulas.iter().map(|formula| wide.encode(formula)).collect();
    let rows: [&[Row]; 3] =
        [&[(1, 257), (3, 257)], &[(2, 1024), (5, 0)], &[(1, 256), (5, 1), (4, 256)]];
    sheets.extend(rows.map(|rows| wide.sheet_of(1, rows)));
    sheets
}

/// What document 01's traps would get wrong, beside the formulas of its list.
fn traps() -> Vec<Formula> {
    let mut formulas = Vec::new();
    // Settling by sign without regard to the quantifier.
    for quantifier in [Exists, ForAll] {
        for signed in [1, -1] {
            formulas.push(formula(&[(quantifier, 1), (Exists, 2)], clause(&[signed, 2])));
        }
    }
    // Copying children that hold no literal of x, 1 here; 6 and 7 have one literal.
    let children = vec![lit(3), clause(&[1, 4]), lit(6), clause(&[-1, 5]), lit(7)];
    for quantifier in [Exists, ForAll] {
        formulas.push(formula(&all(quantifier, 7), or(vec![lit(2), and(children.clone())])));
    }
    // Joining an existential's copies with AND; expanding outside the innermost block.
    formulas.push(formula(&[(Exists, 3), (ForAll, 2), (Exists, 1)], equal_pair()));
    // Rows without a literal counted as blocking, or x's own literals asked for: 1, 2 and 4 are in the block, 3 isn't.
    formulas.push(formula(&[(Exists, 1), (ForAll, 3), (Exists, 2), (ForAll, 4)], equal_pair()));
    // A later row of another kind ignored though it has a literal: 2 and 3 are in the block, 1 isn't.
    formulas.push(formula(&[(Exists, 1), (ForAll, 2), (Exists, 3)], equal_pair()));
    // Spare rows alone, of any kind.
    formulas.push(formula(&[(ForAll, 3), (Exists, 1), (ForAll, 2)], and(vec![])));
    // Reading "no variables left" as true.
    formulas.push(formula(&all(ForAll, 1), lit(1)));
    formulas.push(formula(
        &all(Exists, 2),
        and(vec![clause(&[1, 2]), clause(&[-1, 2]), clause(&[1, -2]), clause(&[-1, -2])]),
    ));
    // A decided sheet with variables left, which may still be settled and expanded.
    formulas.push(formula(&all(Exists, 2), or(vec![])));
    formulas
}

/// What Reduce could get wrong: each has one reading that is right.
fn clause_traps() -> Vec<Formula> {
    let prefix = [(ForAll, 1), (Exists, 2), (ForAll, 3), (Exists, 4), (ForAll, 5), (ForAll, 6)];
    let matrices = [
        // 1 stays before 2, and 3 goes behind it; in another clause 3 stays before 4.
        and(vec![clause(&[1, 2, 3]), clause(&[2, 3, -4]), clause(&[5, 4, -6])]),
        // A clause without an existential literal loses all, and the sheet is false.
        and(vec![clause(&[1, -3]), clause(&[2, 4])]),
        // A literal child is a clause: an existential one stays, a universal one makes the sheet false.
        and(vec![lit(2), clause(&[-2, 5])]),
        and(vec![lit(2), lit(5)]),
        // A root OR is one clause, a root literal too, and empty roots pass.
        clause(&[1, 2, 3]),
        clause(&[1, 3]),
        lit(4),
        lit(-5),
        and(vec![]),
        or(vec![]),
        // Near-misses: an AND below the root, under the root AND's OR or under a root OR.
        and(vec![lit(1), or(vec![lit(2), and(vec![lit(3), lit(4)])])]),
        or(vec![lit(2), and(vec![lit(3), lit(4)])]),
        // Not tidy, and an AND below the root: 9 comes before 20.
        and(vec![lit(1), or(vec![and(vec![])])]),
        and(vec![clause(&[1, 2]), clause(&[3])]),
    ];
    matrices.map(|matrix| formula(&prefix, matrix)).into()
}

/// The deepest and the widest sheets, untidy and tidy.
fn largest(format: Format) -> Vec<Case> {
    let Format { most_variables, most_nodes: n, .. } = format;
    let mut cases = Vec::new();
    for formula in [deep_formula(1, n), wide_formula(n), deep_formula(most_variables, n)] {
        let mut calls = vec![TRIAL];
        calls.extend([n - 6, n - 1, n, format.highest_number()].map(part_call));
        calls.extend([tidy_calls(format, &formula), step_calls(format, &formula, &[1])].concat());
        calls.extend(solve_calls(format, &formula));
        cases.push(Case { sheet: format.encode(&formula), calls });
    }
    // Of the second ladder the raw rows are one less than the most with one literal of 1; of the third, with all rows copied.
    for formula in [
        ladder_formula(format, n - 1, 1),
        ladder_formula(format, n - 3, 1),
        ladder_formula(format, n / 2 - 1, 2),
        clauses(format, (n - 1) / 3),
        clauses(format, n / 6),
    ] {
        let steps = step_calls(format, &formula, &[1, 2, most_variables]);
        let quotes = quote_calls(format, &formula, 1);
        let reduce = reduce_calls(format, &formula);
        let (tidy, solve) = (tidy_calls(format, &formula), solve_calls(format, &formula));
        let calls = [tidy, reduce, steps, quotes, solve].concat();
        cases.push(Case { sheet: format.encode(&formula), calls });
    }
    cases.extend(largest_expansions(format));
    cases
}

/// Solve begins with an expansion. Its raw rows, nine less than the most, just
/// fit the buffers or lack a byte; of the last two sheets the raw rows of the
/// first fit, and those of the second are too many for any buffer.
fn largest_expansions(format: Format) -> Vec<Case> {
    let n = format.most_nodes;
    let room = format.sheet_length(255, n - 9);
    let lengths = [(room, room), (room - 1, room), (room, room - 1)];
    let calls = lengths.map(|(first, second)| Call::solve(first, second)).into();
    let mut cases = vec![Case { sheet: format.encode(&two_ladders(n / 4 - 5)), calls }];
    let longest = format.longest_sheet();
    for count in [(n - 3) / 6, (n - 3) / 6 + 1] {
        let sheet = format.encode(&valve_clauses(count));
        cases.push(Case { sheet, calls: vec![Call::solve(longest, longest)] });
    }
    cases
}

/// 1 and a ladder of so many rows, or else not 1 and that ladder with all signs
/// turned: each of 256 variables has both signs, and no literal stands under the
/// root.
fn two_ladders(rows: usize) -> Formula {
    let ladder = ladder_formula(Format::NARROW, rows, 1).matrix;
    let turned = with_signs_turned(&ladder);
    let matrix = or(vec![and(vec![lit(1), ladder]), and(vec![lit(-1), turned])]);
    formula(&all(ForAll, 256), matrix)
}

fn with_signs_turned(node: &Node) -> Node {
    match node {
        Node::Lit { positive, var } => Node::Lit { positive: !positive, var: *var },
        Node::Op { kind, children } => {
            Node::Op { kind: *kind, children: children.iter().map(with_signs_turned).collect() }
        }
    }
}

/// AND of clauses of three rows, each with a literal of 1, in both signs. Once 1 has met all others
/// from either side, it meets their negations, but for those of 2 and of the last one.
fn clauses(format: Format, count: usize) -> Formula {
    let others = format.most_variables - 1;
    let of = |at: usize| {
        let one = if at.is_multiple_of(2) { 1 } else { -1 };
        let other = 2 + (at % others) as i32;
        match at / (2 * others) {
            0 => clause(&[one, other]),
            1 => clause(&[other, one]),
            _ => clause(&[one, -3 - (at % (others - 2)) as i32]),
        }
    };
    formula(&all(Exists, format.most_variables), and((0..count).map(of).collect()))
}

/// Each refusal of Check, with rows before and behind the bad one.
fn refused_sheets(format: Format) -> Vec<Vec<u8>> {
    let Format { most_variables, most_nodes, .. } = format;
    let (past, highest) = (most_variables + 1, format.highest_number());
    let sizes = |v: usize, n: usize| {
        let mut bytes = Vec::new();
        format.push_number(v, &mut bytes);
        format.push_number(n, &mut bytes);
        bytes
    };
    let short = sizes(0, 1)[..2 * format.width - 1].to_vec();
    let long = [format.sheet_of(0, &[(5, 0)]), vec![0]].concat();
    let mut sheets = vec![
        vec![],
        short,
        sizes(past, 1),
        sizes(0, 0),
        sizes(0, most_nodes + 1),
        sizes(0, 1),
        long,
    ];
    let variables_and_rows: [(usize, &[Row]); 13] = [
        (1, &[(0, 1), (5, 0)]),
        (1, &[(1, 1), (7, 0)]),
        (1, &[(1, 1), (2, 1)]),
        (2, &[(1, 1), (2, 0), (5, 0)]),
        (2, &[(1, 1), (2, past), (5, 0)]),
        (3, &[(1, 1), (2, 2), (2, 1), (5, 0)]),
        (1, &[(1, 1), (6, 2), (3, 1), (4, 2)]),
        (1, &[(1, 1), (4, past)]),
        (1, &[(1, 1), (5, 0), (3, 2)]),
        (0, &[(5, 0), (5, 0)]),
        (1, &[(1, 1), (3, 1), (3, 1), (3, 1)]),
        (1, &[(1, 1), (5, 2), (3, 1)]),
        (1, &[(1, 1), (5, highest)]),
    ];
    sheets.extend(variables_and_rows.map(|(v, rows)| format.sheet_of(v, rows)));
    sheets
}
