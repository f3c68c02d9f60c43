//! `strategy`, `claim`, `response` and `play`: strategies are those of the independent reading, win
//! every play, and are told as they are in every format; a strategy that was damaged is refused,
//! wins or loses as it does by brute force.

#[path = "common/block.rs"]
mod block;
mod common;

use block::Block;
use common::{answered, called, example, spawned, text, READING};
use outside::generate::{self, cases, damage_strategy, length_around, Family, Limits};
use outside::reference::*;
use outside::{truth, with_deep_stack};
use std::path::PathBuf;
use Quantifier::{Exists, ForAll};

const ROOT: &str = concat!(env!("CARGO_MANIFEST_DIR"), "/..");

/// A file for what a call reads beside standard input, which goes when it is dropped.
struct Kept(PathBuf);

impl Kept {
    fn new(name: &str) -> Kept {
        let name = format!("plumanchor-strategy-{name}-{}", std::process::id());
        Kept(std::env::temp_dir().join(name))
    }

    fn with(&self, bytes: &[u8]) -> &str {
        std::fs::write(&self.0, bytes).expect("a file");
        self.0.to_str().expect("a path")
    }
}

impl Drop for Kept {
    fn drop(&mut self) {
        // What is left in a folder for temporary files does no harm.
        let _ = std::fs::remove_file(&self.0);
    }
}

/// What the independent reading says, with buffers of so many bytes.
fn expected(sheet: &[u8], room: usize) -> (StrategyAnswer, Vec<u8>) {
    let [mut first, mut second, mut output] = [(); 3].map(|()| vec![0; room]);
    let answer = READING.strategy(sheet, &mut first, &mut second, &mut output);
    if let StrategyAnswer::Written { length, .. } = answer {
        output.truncate(length);
    }
    (answer, output)
}

/// The values of a prefix's variables of one side that these bits say, the first one counting
/// slowest.
fn assignment(given: &Formula, side: Quantifier, bits: usize) -> Vec<bool> {
    let mut values = vec![false; given.highest_variable() + 1];
    let own: Vec<Variable> =
        given.prefix.iter().filter(|row| row.0 == side).map(|row| row.1).collect();
    for (at, &x) in own.iter().enumerate() {
        values[x] = bits >> (own.len() - 1 - at) & 1 == 1;
    }
    values
}

fn count(given: &Formula, side: Quantifier) -> usize {
    given.prefix.iter().filter(|row| row.0 == side).count()
}

/// Every format of one strategy says its pairs.
fn formats_say(sheet: &[u8], given: &Formula, side: Quantifier, pairs: &[Pair]) {
    let written = |to: &str| text(answered(&["strategy", "--from", "wide", "--to", to], sheet));
    let table = written("table");
    let block = Block::read(&written("st"));
    let mut rows = table.lines();
    let names: Vec<&str> = rows.next().expect("a line of names").split_whitespace().collect();
    let names: Vec<&str> = names.into_iter().filter(|name| *name != "|").collect();
    for bits in 0..1 << count(given, side.other()) {
        let played = truth::play(pairs, &assignment(given, side.other(), bits));
        let row = rows.next().expect("a row for each play");
        let values: Vec<&str> = row.split_whitespace().filter(|word| *word != "|").collect();
        for (name, value) in names.iter().zip(&values) {
            let x: Variable = name.parse().expect("a number");
            assert_eq!(*value == "1", played[x], "{row} of {given:?}");
        }
        assert_eq!(names.len(), values.len());
        let value = |name: &str| played[name[1..].parse::<usize>().expect("x and a number")];
        for (name, told) in block.run(&value) {
            assert_eq!(told, value(&name), "{name} of {given:?}");
        }
    }
    assert_eq!(rows.next(), None);
    assert_eq!(names.len(), given.prefix.len());
    assert_eq!(block.outputs.len(), pairs.len());
    let line = text(answered(&["solve", "--from", "qcir"], written("qcir").as_bytes()));
    assert!(line.starts_with(if side == Exists { "true" } else { "false" }), "{line}");
}

/// Sheets and texts are the pairs of the independent reading, and the text wins when it is handed in
/// again.
#[test]
fn strategies_are_told_as_they_are() {
    let (kept, longest) = (Kept::new("told"), READING.format.longest_sheet());
    let mut sides = [0; 2];
    cases(800, |rng| {
        let limits = Limits { variables: 7, ..Limits::small(READING.format) };
        let given = generate::formula(rng, limits);
        let sheet = READING.format.encode(&given);
        let (answer, bytes) = expected(&sheet, longest);
        let StrategyAnswer::Written { verdict, .. } = answer else { panic!("{answer:?}") };
        assert_eq!(answered(&["strategy", "--from", "wide", "--to", "sheet"], &sheet), bytes);
        let (side, pairs) = (
            Quantifier::winner(verdict),
            pairs_of(&READING.format.parse(&bytes).expect("a sheet").matrix),
        );
        formats_say(&sheet, &given, side, &pairs.expect("pairs"));
        let lines = answered(&["strategy", "--from", "wide"], &sheet);
        let first = if verdict { "true: exists wins\n" } else { "false: for all wins\n" };
        assert!(lines.starts_with(first.as_bytes()));
        for strategy in [lines, bytes] {
            let claimed = [
                "claim",
                "--from",
                "wide",
                "--side",
                if verdict { "exists" } else { "for-all" },
                "-",
                kept.with(&strategy),
            ];
            assert_eq!(text(answered(&claimed, &sheet)), "wins\n", "{given:?}");
        }
        sides[usize::from(verdict)] += 1;
    });
    assert!(sides.iter().all(|&count| count > 150), "{sides:?}");
}

/// Runs that stop, and strategies that have no room, say so and write nothing else.
#[test]
fn what_has_no_room_is_told() {
    let mut seen = [0; 4];
    cases(800, |rng| {
        let given = generate::tidy_formula(rng, Limits::small(READING.format));
        let sheet = READING.format.encode(&given);
        let room = length_around(rng, READING.format, sheet.len() + 30);
        let (room, word) = (room.min(READING.format.longest_sheet()), room.to_string());
        let ended = called(&["strategy", "--from", "wide", "--room", &word], &sheet);
        let (lines, bytes) =
            (text(ended.output), ["strategy", "--from", "wide", "--room", &word, "--to", "sheet"]);
        let bytes = called(&bytes, &sheet);
        match expected(&sheet, room).0 {
            StrategyAnswer::Refused(number, _) => {
                assert!(
                    ended.message.contains(&format!("refused {number}: ")),
                    "{}",
                    ended.message
                );
                assert_eq!((ended.status, lines.as_str()), (1, ""));
                seen[0] += 1;
            }
            StrategyAnswer::Stopped { variable, .. } => {
                assert_eq!(
                    lines,
                    format!("stopped: no verdict, since there is no room to expand {variable}\n")
                );
                assert_eq!((ended.status, bytes.status, bytes.output.len()), (0, 1, 0));
                seen[1] += 1;
            }
            StrategyAnswer::TooLong { verdict, rows, .. } => {
                assert!(lines.starts_with(&verdict.to_string()), "{lines}");
                assert!(lines.contains(&format!("strategy has {rows} row")), "{lines}");
                assert_eq!((ended.status, bytes.status, bytes.output.len()), (0, 1, 0));
                seen[2] += 1;
            }
            StrategyAnswer::Written { .. } => {
                assert_eq!((ended.status, bytes.status), (0, 0));
                seen[3] += 1;
            }
        }
    });
    assert!(seen.iter().all(|&count| count > 20), "{seen:?}");
}

/// A play that `claim` tells, as values by number.
fn told_play(given: &Formula, line: &str) -> Vec<bool> {
    let moves = line.strip_prefix("loses: ").expect("a play").split(": ").next().expect("moves");
    let mut values = vec![false; given.highest_variable() + 1];
    let mut places = given.prefix.iter();
    for told in moves.split(", ").filter(|_| !given.prefix.is_empty()) {
        let (name, value) = told.trim_start_matches("then ").split_once(" = ").expect("a move");
        let x: Variable = name.parse().expect("a number");
        assert_eq!(places.next().map(|row| row.1), Some(x), "{line}");
        values[x] = value == "1";
    }
    assert_eq!(places.next(), None);
    values
}

/// Damaged strategies are refused as the independent reading does, or win and lose as by brute
/// force; a play that is told follows the functions and breaks the sheet.
#[test]
fn damaged_strategies_lose_or_are_refused() {
    let (kept, longest) = (Kept::new("damaged"), READING.format.longest_sheet());
    let (mut numbers, mut lost, mut won) = ([0; 30], 0, 0);
    cases(1500, |rng| {
        let limits = Limits { variables: 6, ..Limits::small(READING.format) };
        let given = generate::formula(rng, limits);
        let sheet = READING.format.encode(&given);
        let (answer, bytes) = expected(&sheet, longest);
        let StrategyAnswer::Written { verdict, .. } = answer else { panic!("{answer:?}") };
        let side = Quantifier::winner(verdict);
        let pairs =
            pairs_of(&READING.format.parse(&bytes).expect("a sheet").matrix).expect("pairs");
        let damaged = damage_strategy(rng, &given.prefix, &pairs);
        let strategy = READING.format.encode(&damaged);
        let word = if verdict { "exists" } else { "for-all" };
        let ended =
            called(&["claim", "--from", "wide", "--side", word, "-", kept.with(&strategy)], &sheet);
        match READING.claim(&sheet, side, &strategy, &mut vec![0; longest]) {
            ClaimAnswer::Refused(_, number, _) => {
                let told = format!("refused {number}: ");
                assert!(
                    ended.message.contains(&told) && ended.message.contains(" ("),
                    "{}",
                    ended.message
                );
                assert_eq!((ended.status, ended.output.len()), (1, 0));
                numbers[usize::from(number)] += 1;
            }
            ClaimAnswer::Written(_) => {
                let pairs = pairs_of(&damaged.matrix).expect("pairs");
                let line = text(ended.output);
                assert_eq!((ended.status, ended.message.as_str()), (0, ""));
                if truth::wins(side, &given, &pairs) {
                    assert_eq!(line, "wins\n");
                    won += 1;
                } else {
                    let values = told_play(&given, line.trim_end());
                    assert_eq!(truth::play(&pairs, &values), values, "{line}");
                    assert_eq!(truth::holds(&given.matrix, &values), side == ForAll, "{line}");
                    lost += 1;
                }
            }
        }
    });
    assert!(
        numbers[26] > 100 && numbers[27] > 100 && lost > 60 && won > 60,
        "{numbers:?} {lost} {won}"
    );
}

/// The function of a variable is that of the independent reading, in words too.
#[test]
fn responses() {
    let mut accepted = 0;
    cases(800, |rng| {
        let given =
            generate::tidy_formula(rng, Limits { variables: 6, ..Limits::small(READING.format) });
        let sheet = READING.format.encode(&given);
        let x = rng.pick(&[given.variables(), vec![1, 2000]].concat());
        let word = x.to_string();
        let mut output = vec![0; READING.format.longest_sheet()];
        let ended = called(&["response", "--from", "wide", "--to", "sheet", &word], &sheet);
        match READING.response(&sheet, x, &mut output) {
            Answer::Refused(number, _) => {
                assert!(
                    ended.message.contains(&format!("refused {number}: ")),
                    "{}",
                    ended.message
                );
            }
            Answer::Accepted(length) => {
                assert_eq!(ended.output, output[..length]);
                let line = text(answered(&["response", "--from", "wide", &word], &sheet));
                let function = READING.format.parse(&output[..length]).expect("a sheet").matrix;
                let read = Block::of_line(&line);
                for bits in 0..1usize << given.prefix.len() {
                    let mut values = vec![false; given.highest_variable() + 1];
                    given
                        .prefix
                        .iter()
                        .enumerate()
                        .for_each(|(at, row)| values[row.1] = bits >> at & 1 == 1);
                    let value = |name: &str| {
                        let x: Variable = name.parse().expect("a number");
                        // A number that no variable has is the constant.
                        given.quantifier(x).map_or(x == 1, |_| values[x])
                    };
                    let told = read.run(&value);
                    assert_eq!(told, [(word.clone(), truth::holds(&function, &values))], "{line}");
                }
                accepted += 1;
            }
        }
    });
    assert!(accepted > 150, "{accepted}");
}

/// Valve 1 equals a tree as deep as so many signals allow, each of which it reads once.
fn follows_a_ladder(depth: usize) -> Formula {
    let literal = |positive, var| Node::Lit { positive, var };
    let mut ladder = literal(true, 2);
    for var in 3..depth + 3 {
        let kind = if var % 2 == 0 { Kind::And } else { Kind::Or };
        ladder = Node::Op { kind, children: vec![literal(var % 3 == 0, var), ladder] };
    }
    let mut prefix: Vec<Binding> = (2..depth + 3).map(|var| (ForAll, var)).collect();
    prefix.push((Exists, 1));
    let opposite = Node::or(vec![literal(true, 1), negated(&ladder)]);
    let matrix = Node::and(vec![opposite, Node::or(vec![literal(false, 1), ladder])]);
    Formula { prefix, matrix }
}

/// Large sheets and deep functions: nothing overflows, and what is written is read again.
#[test]
fn large_strategies_too() {
    let kept = Kept::new("large");
    let full = Limits { variables: 60, ..Limits::full(READING.format) };
    let mut written = 0;
    with_deep_stack(|| {
        let mut sheets = vec![READING.format.encode(&follows_a_ladder(1000))];
        cases(10, |rng| {
            let crowded = generate::alternating_formula(rng, Family::Clauses, full);
            let solved = generate::solver_formula(rng, READING.format);
            sheets.extend([crowded, solved].map(|formula| READING.format.encode(&formula)));
        });
        sheets
    })
    .iter()
    .for_each(|sheet| {
        for to in ["qcir", "verilog", "st", "aiger", "json"] {
            let ended = called(&["strategy", "--from", "wide", "--to", to], sheet);
            assert!(ended.status < 2, "{}", ended.message);
        }
        let lines = called(&["strategy", "--from", "wide"], sheet).output;
        if lines.starts_with(b"true: exists wins\n") || lines.starts_with(b"false: for all wins\n")
        {
            let line =
                text(called(&["claim", "--from", "wide", "-", kept.with(&lines)], sheet).output);
            assert!(line == "wins\n" || line.starts_with("stopped: "), "{line}");
            written += 1;
        }
    });
    assert!(written > 5, "{written}");
}

/// Whoever has the last move wins, and a script is followed to the end.
#[test]
fn plays_from_a_script() {
    let line = format!("{ROOT}/examples/press-line.qcir");
    let script = b"1\nundo\nfeed=0 # no sheet\nopen\n1\nundo\n0\nundo\nundo\nundo\nquit\n1\n";
    let ended = spawned(&["play", &line], script);
    let told = "true: exists wins; it plays lift, stop, and you play feed, jam\n\
                feed = 1\nlift = 1\nfeed is taken back\nfeed = 0\nlift = 0\n\
                jam = 1\nstop = 1\nthe formula holds: exists wins\njam is taken back\n\
                jam = 0\nstop = 0\nthe formula holds: exists wins\njam is taken back\n\
                feed is taken back\nthere is no move to take back\n";
    assert_eq!((ended.status, text(ended.output).as_str()), (0, told));
    assert_eq!(
        ended.message,
        "plumanchor: 'open' is no move; jam is next: 0 or 1, 'undo' or 'quit'\n"
    );
    let ended = spawned(&["play", &example("press-line-early")], b"1\n0\n");
    let told =
        "false: for all wins; it plays 1, 3, and you play 2, 4\n1 = 0\n2 = 1\n4 = 0\n3 = 1\n\
                the formula fails: for all wins\n";
    assert_eq!((ended.status, text(ended.output).as_str(), ended.message.as_str()), (0, told, ""));
    let ended = spawned(&["play", &line], b"1\n");
    assert_eq!(
        (ended.status, ended.message.as_str()),
        (0, "plumanchor: the moves end before jam\n")
    );
    for (arguments, status, message) in [
        (vec!["play"], 2, "which sheet? Standard input has the moves"),
        (vec!["play", "-"], 2, "which sheet?"),
        (
            vec!["play", &example("crowded")],
            1,
            "stopped: no verdict, since there is no room to expand 1",
        ),
        (vec!["play", &example("cut-short")], 1, "refused 3"),
    ] {
        let ended = spawned(&arguments, b"");
        assert_eq!((ended.status, ended.output.len()), (status, 0), "{}", ended.message);
        assert!(ended.message.contains(message), "{}", ended.message);
    }
}
