//! The command `guards` as people call it: output, messages and exit status.

mod common;

use common::called;
use outside::formulas::{and, clause, formula, lit, or};
use outside::generate::{self, cases, Family, Limits, Rng};
use outside::reference::{Formula, Node, Quantifier, Reading, Sifted, SolveAnswer};
use Quantifier::{Exists, ForAll};

/// Exists 1, 2: AND of these literals, in numbers of so many bytes.
fn literals(width: usize, signed: &[i32]) -> Vec<u8> {
    let number = |n: usize| n.to_le_bytes()[..width].to_vec();
    let kinds = signed.iter().map(|&l| if l > 0 { 3 } else { 4 });
    let variables = signed.iter().flat_map(|&l| number(l.unsigned_abs() as usize));
    let mut sheet = [number(2), number(1 + signed.len()), vec![1, 1, 5]].concat();
    sheet.extend(kinds);
    sheet.extend([number(1), number(2), number(signed.len())].concat());
    sheet.extend(variables);
    sheet
}

#[test]
fn the_guards_kept_and_their_numbers() {
    for (width, format) in [(2, "narrow"), (4, "wide")] {
        let sheet = literals(width, &[1, 2, -1, 2, 1]);
        let ended = called(&["guards", "--from", format], &sheet);
        assert_eq!((ended.status, ended.output), (0, literals(width, &[-1, 1])));
        assert_eq!(ended.message, "kept 2 of 5 guards: 3 5\n");
    }
}

/// AND of parities and of ORs of literals, some of them pasted again: often false,
/// and what can't be settled is expanded.
fn pasted_guards(rng: &mut Rng, reading: Reading) -> Formula {
    let limits = Limits { format: reading.format, variables: rng.between(4, 7), nodes: 60 };
    let mut formula = generate::alternating_formula(rng, Family::Parity, limits);
    let bound = formula.variables();
    let mut children = Vec::new();
    for child in formula.matrix.children() {
        children.extend(vec![child.clone(); rng.between(1, 3)]);
    }
    for _ in 0..rng.between(0, 3) {
        let literal = |rng: &mut Rng| Node::Lit { positive: rng.one_in(2), var: rng.pick(&bound) };
        let guard = Node::or((0..3).map(|_| literal(rng)).collect());
        children.extend(vec![guard; rng.between(1, 3)]);
    }
    rng.shuffle(&mut children);
    formula.matrix = Node::and(children);
    formula
}

/// The least room in which Solve says false, if it does.
fn least_room(reading: Reading, sheet: &[u8]) -> Option<usize> {
    let is_false = |room: usize| {
        let (mut first, mut second) = (vec![0; room], vec![0; room]);
        let answer = reading.solve(sheet, &mut first, &mut second);
        matches!(answer, SolveAnswer::Ended { verdict: false, .. })
    };
    let (mut low, mut high) = (sheet.len(), 4 * sheet.len());
    if !is_false(high) {
        return None;
    }
    while low < high {
        let middle = (low + high) / 2;
        (low, high) = if is_false(middle) { (low, middle) } else { (middle + 1, high) };
    }
    Some(low)
}

/// Of three equal guards with valve 4 two make no difference: tidying drops them.
fn first_of_three() -> Formula {
    let prefix = [(ForAll, 1), (ForAll, 2), (ForAll, 3), (Exists, 4), (Exists, 5)];
    let crossed = [[2, 3], [-2, 3], [2, -3], [-2, -3]].map(|pair| clause(&pair));
    let guard = or(vec![lit(4), and(crossed.to_vec())]);
    let mut guards = vec![guard.clone(), clause(&[-4, 5]), guard.clone(), guard];
    guards.extend([[5, 1], [5, -1], [-5, 1], [-5, -1]].map(|pair| clause(&pair)));
    guards.extend([[5, 2], [5, -2], [-5, 2], [5, 3], [5, -3], [-5, 3]].map(|pair| clause(&pair)));
    formula(&prefix, and(guards))
}

/// The tool names the guards that the reference kept; how many runs stopped, and whether a guard
/// was kept that has an equal one behind it.
fn named_as_kept(format: &str, reading: Reading, formula: &Formula, room: usize) -> (usize, bool) {
    let sheet = reading.format.encode(formula);
    let ended = called(&["guards", "--from", format, "--room", &room.to_string()], &sheet);
    let Sifted { kept, places, stops } = reading.sift(formula.clone(), room);
    assert_eq!((ended.status, ended.output), (0, reading.format.encode(&kept)));
    let numbers: Vec<String> = places.iter().map(|at| (at + 1).to_string()).collect();
    let all = formula.matrix.children();
    let counts = format!("kept {} of {} guards", places.len(), all.len());
    let line = format!("{counts}: {}", numbers.join(" "));
    assert_eq!(ended.message.lines().next(), Some(line.as_str()));
    (stops, places.iter().any(|at| all[at + 1..].contains(&all[*at])))
}

#[test]
fn of_equal_guards_the_one_kept_is_named() {
    let (mut named, mut stopped_within) = (0, 0);
    for (format, reading) in [("narrow", Reading::NARROW), ("wide", Reading::WIDE)] {
        cases(800, |rng| {
            let formula = pasted_guards(rng, reading);
            let Some(least) = least_room(reading, &reading.format.encode(&formula)) else {
                return;
            };
            let room = least + rng.pick(&[0, 0, 0, 3, 30]);
            let (stops, _) = named_as_kept(format, reading, &formula, room);
            named += 1;
            stopped_within += usize::from(stops > 0);
        });
        let formula = first_of_three();
        let least = least_room(reading, &reading.format.encode(&formula)).expect("a false sheet");
        let (_, earlier) = named_as_kept(format, reading, &formula, least);
        assert!(!earlier);
    }
    // Tidying drops equal guards (N4), so that few runs are left that stop.
    assert!(named > 500 && stopped_within > 3, "{named} {stopped_within}");
}

#[test]
fn a_true_sheet_blames_none() {
    let ended = called(&["guards", "-"], &literals(4, &[1, 2]));
    assert_eq!((ended.status, ended.output.len()), (1, 0));
    assert!(ended.message.starts_with("plumanchor: true "), "{ended:?}");
}

#[test]
fn a_root_that_is_no_and_is_refused() {
    let or = [0, 0, 1, 0, 6, 0, 0];
    let ended = called(&["guards", "--from", "narrow"], &or);
    assert_eq!((ended.status, ended.output.len()), (1, 0));
    assert!(ended.message.contains("refused 23: the root is not AND"), "{ended:?}");
}

#[test]
fn wrong_use_is_not_ignored() {
    let calls = [&["guards", "--from", "broad"][..], &["guards", "a", "b"], &["guards", "--to"]];
    for arguments in calls {
        let ended = called(arguments, &[]);
        assert_eq!((ended.status, ended.output.len()), (2, 0), "{arguments:?}");
        assert!(ended.message.starts_with("plumanchor: "), "{ended:?}");
    }
}
