//! `explain` and `solve`: the lines are the reference's, and every step told is
//! the one that the rule asks for.

mod common;

use common::{answered, called, example, example_bytes, spawned, text, READING};
use outside::examples::examples;
use outside::generate::{self, cases, damage, formula, length_around, Family, Limits, Rng};
use outside::reference::{line_of, settle_value, Formula, Move};
use outside::with_deep_stack;

/// The program's line with buffers of so many bytes.
fn expected_line(sheet: &[u8], room: usize) -> String {
    let (mut first, mut second) = (vec![0; room], vec![0; room]);
    line_of(&READING.solve(sheet, &mut first, &mut second))
}

fn last_line(text: &str) -> &str {
    text.lines().last().expect("a line")
}

/// Explains and solves a sheet in so little or so much room; returns the line.
fn agrees(sheet: &[u8], room: usize) -> String {
    let (room_word, line) = (room.to_string(), expected_line(sheet, room));
    for command in ["explain", "solve"] {
        let ended = called(&[command, "--from", "wide", "--room", &room_word], sheet);
        assert_eq!(last_line(&text(ended.output)), line, "{command}");
        assert_eq!(ended.status, u8::from(line.starts_with("refused")), "{}", ended.message);
    }
    line
}

#[test]
fn the_last_line_is_the_programs() {
    let mut seen = [("true", 0), ("false", 0), ("stopped", 0), ("refused", 0)];
    let mut count = |line: String| {
        let word = line.split(' ').next().expect("a word").to_string();
        seen.iter_mut().find(|known| known.0 == word).expect("a known word").1 += 1;
    };
    let longest = READING.format.longest_sheet();
    cases(3000, |rng| {
        let sheet = generate::sheet(rng, Limits::small(READING.format));
        count(agrees(&sheet, longest));
        let room = length_around(rng, READING.format, sheet.len());
        count(agrees(&sheet, room));
        let tight = generate::tidy_formula(rng, Limits::small(READING.format));
        let tight = READING.format.encode(&tight);
        count(agrees(&tight, tight.len() + rng.below(60)));
        count(agrees(&damage(rng, READING.format, &sheet), longest));
    });
    assert!(seen.iter().all(|known| known.1 > 300), "{seen:?}");
}

#[test]
fn larger_sheets_too() {
    with_deep_stack(|| {
        let longest = READING.format.longest_sheet();
        let mut stopped = 0;
        let full = Limits { variables: 100, ..Limits::full(READING.format) };
        cases(40, |rng| {
            let crowded = generate::alternating_formula(rng, Family::Clauses, full);
            for formula in [generate::solver_formula(rng, READING.format), crowded] {
                let line = agrees(&READING.format.encode(&formula), longest);
                stopped += u32::from(line.starts_with("stopped"));
            }
        });
        assert!(stopped > 5, "{stopped}");
    });
}

/// What a step's line says: the variable, and the value if it is settled.
fn told_move(line: &str) -> Option<Move> {
    let (_, step) = line.split_once(". ")?;
    let (what, _) = step.split_once(": ")?;
    Some(match what.split(' ').collect::<Vec<_>>()[..] {
        ["Settle", x, "=", value] => Move::Settle(x.parse().ok()?, value == "1"),
        ["Expand", x] => Move::Expand(x.parse().ok()?),
        _ => return None,
    })
}

/// The formula after a move, told with its raw rows if it is an expansion.
fn after(formula: &Formula, step: Move, line: &str) -> Formula {
    match step {
        Move::Settle(x, value) => {
            assert_eq!(settle_value(formula, x), Some(value));
            READING.rules.settle_formula(formula, x, value)
        }
        Move::Expand(x) => {
            let raw = outside::reference::raw_rows(formula, x);
            assert!(line.contains(&format!(", {raw} raw rows; ")), "{line}");
            READING.rules.expand_formula(formula, x)
        }
        Move::End(_) => panic!("no step"),
    }
}

fn steps_follow_the_rule(rng: &mut Rng) {
    let start = formula(rng, Limits::small(READING.format));
    let told = text(answered(&["explain"], &READING.format.encode(&start)));
    let mut held = READING.rules.tidy_formula(&start);
    for line in told.lines().filter(|line| line.starts_with(|first: char| first.is_ascii_digit())) {
        let step = told_move(line).expect("a step");
        assert_eq!(READING.rules.next_move(&held), step, "{line}");
        held = after(&held, step, line);
        let (rows, variables) = (held.matrix.rows(), held.prefix.len());
        let left = format!("{rows} row, {variables} variable left.");
        let (_, told) = line.split_once("; ").expect("what is left");
        assert_eq!(told.replace("rows", "row").replace("variables", "variable"), left);
    }
}

#[test]
fn every_step_is_the_rules() {
    cases(2000, steps_follow_the_rule);
}

#[test]
fn a_run_in_words() {
    let expected = "Tidied: 15 of 15 rows stay.\n\
         1. Expand 4: exists, 24 raw rows; 10 rows, 3 variables left.\n\
         2. Settle 3 = 1: exists, the literal 3 stands under the root; 7 rows, 2 variables left.\n\
         3. Expand 2: for all, 15 raw rows; 1 row, 1 variable left.\n\
         Decided: OR of nothing.\nfalse 1 2 0\n";
    assert_eq!(text(answered(&["explain"], &example_bytes("semantic-tree"))), expected);
    let pure = text(answered(&["explain"], &example_bytes("nnf-for-all")));
    assert!(pure.contains("2. Settle 2 = 0: for all, only positive literals;"), "{pure}");
    assert!(pure.contains("3. Settle 3 = 1: for all, only negative literals;"), "{pure}");
    let spare = READING.format.sheet_of(2, &[(2, 2), (2, 1), (6, 1), (3, 1)]);
    let spare = text(answered(&["explain"], &spare));
    assert!(
        spare.starts_with("Tidied: 1 of 2 rows stay.\n1. Settle 1 = 0: for all, only"),
        "{spare}"
    );
}

#[test]
fn a_stop_says_why() {
    let crowded = text(answered(&["explain"], &example_bytes("crowded")));
    let most = READING.format.most_nodes;
    let told = format!(
        "Stopped at 1: exists, 12003 raw rows; a sheet has at most {most}.\nstopped 0 0 1\n"
    );
    assert!(crowded.ends_with(&told), "{crowded}");
    let sheet = example_bytes("two-tautology");
    let needed = READING.format.sheet_length(1, 27);
    let room = (needed - 1).to_string();
    let stopped = text(answered(&["explain", "--room", &room], &sheet));
    let told = format!(
        "27 raw rows; their sheet has {needed} bytes, and a buffer {room}.\nstopped 0 0 1\n"
    );
    assert!(stopped.ends_with(&told), "{stopped}");
    let enough = text(answered(&["explain", "--room", &needed.to_string()], &sheet));
    assert_eq!(last_line(&enough), "true 0 1 0");
    let refused = called(&["explain", "--room", "10"], &sheet);
    assert_eq!((refused.status, text(refused.output)), (1, "refused 0 0 13\n".to_string()));
}

#[test]
fn every_example_has_its_line() {
    for known in examples() {
        for command in ["solve", "explain"] {
            let ended = spawned(&[command, &example(known.name)], &[]);
            assert_eq!(last_line(&text(ended.output)), known.line, "{}", known.name);
            assert_eq!(ended.status, u8::from(known.line.starts_with("refused")));
        }
    }
}

#[test]
fn the_sheets_on_the_way_are_kept() {
    let folder = std::env::temp_dir().join(format!("plumanchor-sheets-{}", std::process::id()));
    let name = folder.to_str().expect("a path");
    answered(&["explain", "--sheets", name], &example_bytes("semantic-tree"));
    let mut sheets = Vec::new();
    for name in ["0000-tidied", "0001-expand-4", "0002-settle-3", "0003-expand-2"] {
        sheets.push(std::fs::read(folder.join(format!("{name}.sheet"))).expect("a sheet"));
    }
    assert_eq!(answered(&["expand", "4"], &sheets[0]), sheets[1]);
    assert_eq!(answered(&["settle", "3"], &sheets[1]), sheets[2]);
    assert_eq!(answered(&["expand", "2"], &sheets[2]), sheets[3]);
    assert_eq!(std::fs::read_dir(&folder).expect("the folder").count(), 4);
    std::fs::remove_dir_all(folder).expect("the folder");
    let nowhere = called(&["explain", "--sheets", "/dev/null/x"], &example_bytes("equal-after"));
    assert_eq!(nowhere.status, 2);
}
