//! The command `certify`: traces of a solver from outside, whole and damaged, on
//! clause sets and on any trees. What is accepted has the truth of the sheet.

mod common;

use common::{called, text};
use outside::depqbf;
use outside::generate::{self, cases, clause_set, Limits, Rng};
use outside::literature::LITERATURE;
use outside::qdimacs::Qdimacs;
use outside::reference::{Binding, Format, Formula, Node, Quantifier};
use outside::truth;
use plumanchor_tool::Ended;
use std::path::PathBuf;

/// A folder for traces, which goes when it is dropped.
struct Folder(PathBuf);

impl Folder {
    fn new(name: &str) -> Folder {
        let name = format!("plumanchor-certify-{name}-{}", std::process::id());
        let folder = std::env::temp_dir().join(name);
        std::fs::create_dir_all(&folder).expect("a folder");
        Folder(folder)
    }

    /// Asks for a verdict of a sheet or a text, by a trace.
    fn certified(&self, input: &[u8], trace: &str) -> Ended {
        let file = self.0.join("trace.qrp");
        std::fs::write(&file, trace).expect("a file");
        called(&["certify", "-", file.to_str().expect("a name")], input)
    }
}

impl Drop for Folder {
    fn drop(&mut self) {
        // What is left in a folder for temporary files does no harm.
        let _ = std::fs::remove_dir_all(&self.0);
    }
}

fn trace_of(text: &str) -> String {
    depqbf::trace_text_of(text).expect("depqbf is installed")
}

/// The verdict that a trace claims, if its run came to an end.
fn claimed(trace: &str) -> Option<bool> {
    match trace.lines().last() {
        Some("r SAT") => Some(true),
        Some("r UNSAT") => Some(false),
        _ => None,
    }
}

/// A clause set and its text: tidy, or as it comes, with tautologies, units and empty clauses.
fn clauses(rng: &mut Rng) -> (Formula, String) {
    loop {
        let limits = Limits { format: Format::WIDE, variables: 8, nodes: rng.pick(&[20, 40, 60]) };
        let formula = if rng.one_in(2) {
            clause_set(rng, limits)
        } else {
            generate::clause_formula(rng, limits)
        };
        // One that is a literal or a clause has no text of its own.
        if let Some(text) = Qdimacs::of_formula(&formula).map(|clauses| clauses.text()) {
            return (formula, text);
        }
    }
}

#[test]
fn traces_of_clause_sets() {
    let folder = Folder::new("clauses");
    let mut verdicts = [0; 2];
    cases(500, |rng| {
        let (formula, given) = clauses(rng);
        let trace = trace_of(&given);
        let verdict = truth::is_true(&formula);
        let ended = folder.certified(given.as_bytes(), &trace);
        assert_eq!(ended.message, "", "{given}{trace}");
        assert_eq!((ended.status, text(ended.output)), (0, format!("{verdict}\n")), "{given}");
        verdicts[usize::from(verdict)] += 1;
    });
    assert!(verdicts.iter().all(|&count| count > 80), "{verdicts:?}");
}

#[test]
fn traces_of_families_and_larger_sets() {
    let folder = Folder::new("families");
    for family in LITERATURE {
        for n in 1..6 {
            let given = family.qdimacs(n).text();
            let trace = trace_of(&given);
            if claimed(&trace).is_none() {
                continue;
            }
            let ended = folder.certified(given.as_bytes(), &trace);
            let answer = (ended.status, text(ended.output));
            assert_eq!(answer, (0, format!("{}\n", family.verdict)), "{} {n}", family.name);
        }
    }
    let mut verdicts = [0; 2];
    cases(80, |rng| {
        let limits = Limits { format: Format::WIDE, variables: 40, nodes: 400 };
        let formula = generate::clause_formula(rng, limits);
        let given = Qdimacs::of_formula(&formula);
        let Some(given) = given.map(|given| given.text()) else { return };
        let trace = trace_of(&given);
        if let Some(verdict) = claimed(&trace) {
            let ended = folder.certified(given.as_bytes(), &trace);
            assert_eq!((ended.status, text(ended.output)), (0, format!("{verdict}\n")), "{given}");
            verdicts[usize::from(verdict)] += 1;
        }
    });
    assert!(verdicts.iter().all(|&count| count > 5), "{verdicts:?}");
}

/// Of any tree the solver is asked by the clauses that `convert` writes.
#[test]
fn traces_of_trees() {
    let folder = Folder::new("trees");
    let mut verdicts = [0; 2];
    cases(300, |rng| {
        let format = rng.pick(&[Format::WIDE, Format::NARROW]);
        let formula = generate::formula(rng, Limits { format, variables: 6, nodes: 30 });
        let (sheet, verdict) = (format.encode(&formula), truth::is_true(&formula));
        let from = if format == Format::WIDE { "wide" } else { "narrow" };
        let given = called(&["convert", "--from", from, "--to", "qdimacs"], &sheet);
        assert_eq!((given.status, given.message.as_str()), (0, ""));
        let trace = trace_of(&text(given.output));
        let ended = folder.certified(&sheet, &trace);
        assert_eq!((ended.status, text(ended.output)), (0, format!("{verdict}\n")), "{trace}");
        verdicts[usize::from(verdict)] += 1;
    });
    assert!(verdicts.iter().all(|&count| count > 80), "{verdicts:?}");
}

/// A tree whose clauses no sheet holds has a text, by the tool's own variables, and it is said.
#[test]
fn trees_that_are_too_large() {
    let pairs: Vec<Node> = (0..600)
        .map(|at| {
            let literal = |x: usize| Node::Lit { positive: at % 3 == 0, var: x };
            Node::and(vec![literal(1 + at % 7), literal(8 + at % 5)])
        })
        .collect();
    let prefix: Vec<Binding> = (1..=600).map(|x| (Quantifier::Exists, x)).collect();
    let formula = Formula { prefix, matrix: Node::or(pairs) };
    let sheet = Format::WIDE.encode(&formula);
    let ended = called(&["convert", "--to", "qdimacs"], &sheet);
    assert_eq!(ended.status, 0);
    assert!(text(ended.output).starts_with("p cnf 1200 1201\n"));
    assert!(ended.message.contains("the clauses are this tool's"), "{}", ended.message);
    let ended = Folder::new("large").certified(&sheet, TRACE);
    assert_eq!((ended.status, ended.output.len()), (1, 0));
    assert!(ended.message.contains("refused 18: "), "{}", ended.message);
}

/// A line with the word at a place replaced by what is made of it.
fn with_word(line: &str, at: usize, made: impl Fn(i32) -> Option<i32>) -> String {
    let words = line.split(' ').enumerate().filter_map(|(place, word)| {
        let number = word.parse().expect("a number");
        let word = if place == at { made(number)? } else { number };
        Some(word.to_string())
    });
    words.collect::<Vec<String>>().join(" ")
}

/// A trace with one mistake: a literal dropped, flipped, another or one more; antecedents exchanged
/// or another one, which is another pivot too; a line left out, twice or elsewhere; the other verdict.
fn damaged(rng: &mut Rng, trace: &str) -> String {
    let mut lines: Vec<String> = trace.lines().map(str::to_string).collect();
    let is_step = |line: &String| line.starts_with(|letter: char| letter.is_ascii_digit());
    let steps: Vec<usize> = (0..lines.len()).filter(|&at| is_step(&lines[at])).collect();
    if steps.is_empty() {
        return trace.to_string();
    }
    let at = rng.pick(&steps);
    let words: Vec<&str> = lines[at].split(' ').collect();
    let first_zero = words.iter().position(|&word| word == "0").expect("a list's end");
    let (literals, antecedents) = (first_zero - 1, words.len() - first_zero - 2);
    let line = lines[at].clone();
    match rng.below(10) {
        0 | 1 if literals > 0 => lines[at] = with_word(&line, rng.between(1, literals), |_| None),
        2 if literals > 0 => {
            lines[at] = with_word(&line, rng.between(1, literals), |literal| Some(-literal));
        }
        3 if literals > 0 => {
            let other = rng.between(1, 8) as i32;
            lines[at] = with_word(&line, rng.between(1, literals), |_| Some(other));
        }
        4 => {
            let more = rng.between(1, 8) as i32 * rng.pick(&[-1, 1]);
            lines[at] = line.replacen(" 0 ", &format!(" {more} 0 "), 1);
        }
        5 if antecedents == 2 => {
            let last = words.len() - 2;
            let pair = [words[last], words[last - 1]].join(" ");
            lines[at] = format!("{} {pair} 0", words[..last - 1].join(" "));
        }
        6 if antecedents > 0 => {
            let other = rng.between(1, steps.len()) as i32;
            let place = first_zero + rng.between(1, antecedents);
            lines[at] = with_word(&line, place, |_| Some(other));
        }
        7 => _ = lines.remove(at),
        8 => {
            let line = lines.remove(at);
            lines.insert(rng.pick(&steps), line);
        }
        _ => {
            let last = lines.last_mut().expect("a verdict");
            *last = if last == "r SAT" { "r UNSAT" } else { "r SAT" }.to_string();
        }
    }
    lines.join("\n") + "\n"
}

/// The same question with one literal flipped.
fn another(rng: &mut Rng, formula: &Formula) -> Formula {
    let mut other = formula.clone();
    let Node::Op { children, .. } = &mut other.matrix else { return other };
    let filled: Vec<usize> =
        (0..children.len()).filter(|&at| !children[at].children().is_empty()).collect();
    if filled.is_empty() {
        return other;
    }
    if let Node::Op { children, .. } = &mut children[rng.pick(&filled)] {
        let place = rng.below(children.len());
        if let Node::Lit { positive, .. } = &mut children[place] {
            *positive = !*positive;
        }
    }
    other
}

#[test]
fn damaged_traces_show_nothing_wrong() {
    let folder = Folder::new("damaged");
    let (mut accepted, mut refused) = ([0; 2], 0);
    let mut judged = |formula: &Formula, trace: &str| {
        let given = Qdimacs::of_formula(formula).expect("a clause set").text();
        let ended = folder.certified(given.as_bytes(), trace);
        if ended.status == 0 {
            let verdict = truth::is_true(formula);
            assert_eq!(text(ended.output), format!("{verdict}\n"), "{given}{trace}");
            accepted[usize::from(verdict)] += 1;
        } else {
            assert_eq!((ended.status, ended.output.len()), (1, 0), "{given}{trace}");
            assert!(ended.message.contains("trace.qrp: line "), "{}", ended.message);
            refused += 1;
        }
    };
    cases(400, |rng| {
        let (formula, given) = clauses(rng);
        let trace = trace_of(&given);
        for _ in 0..8 {
            let mut other = damaged(rng, &trace);
            if rng.one_in(3) {
                other = damaged(rng, &other);
            }
            judged(&formula, &other);
        }
        for _ in 0..4 {
            judged(&another(rng, &formula), &trace);
        }
    });
    assert!(accepted.iter().all(|&count| count > 100) && refused > 500, "{accepted:?} {refused}");
}

/// The text of the tests by hand: for all 1 there is a 2 that is equal to it, and its trace.
const EQUAL: &str = "p cnf 2 2\na 1 0\ne 2 0\n1 -2 0\n-1 2 0\n";
const TRACE: &str = "p qrp 2 2\na 1 0\ne 2 0\n1 1 -2 0 0\n2 -1 2 0 0\n3 2 1 0 0\n4 1 0 3 0\n\
                     5 -2 -1 0 0\n6 -1 0 5 0\n7 0 4 6 0\nr SAT\n";

#[test]
fn the_line_at_fault() {
    let folder = Folder::new("faults");
    assert_eq!(text(folder.certified(EQUAL.as_bytes(), TRACE).output), "true\n");
    for (what, other, line, why) in [
        (TRACE, "", 1, "the trace ends without a verdict"),
        ("p qrp 2 2\n", "", 1, "a trace in QRP begins with 'p qrp'"),
        ("p qrp", "p cnf", 1, "a trace in QRP begins with 'p qrp'"),
        ("r SAT\n", "", 10, "the trace ends without a verdict"),
        ("r SAT", "r UNKNOWN", 11, "the verdict is neither SAT nor UNSAT"),
        ("r SAT", "r UNSAT", 6, "the clause has all literals of no clause of the formula"),
        ("r SAT\n", "r SAT\n8 0 7 0\n", 12, "the trace goes on behind its verdict"),
        ("3 2 1 0 0", "3 2 0 0", 6, "a clause of the formula has no literal in the cube"),
        ("4 1 0 3 0", "4 0 3 0", 7, "the cube doesn't follow from those it comes from"),
        ("4 1 0 3 0", "4 1 0 8 0", 7, "it comes from 8, which isn't above it"),
        ("4 1 0 3 0", "4 1 0 7 0", 7, "it comes from 7, which isn't above it"),
        ("4 1 0 3 0", "4 1 0 3 3 3 0", 7, "it comes from more than two lines"),
        ("4 1 0 3 0", "3 1 0 3 0", 7, "there is a 3 above it"),
        ("4 1 0 3 0", "4 1 0 3", 7, "the line ends before its second 0"),
        ("4 1 0 3 0", "4 1 0 3 0 0", 7, "the line goes on behind its second 0"),
        ("4 1 0 3 0", "4 one 0 3 0", 7, "'one' is no number"),
        ("7 0 4 6 0", "7 1 0 4 6 0", 10, "the last cube isn't empty"),
        ("7 0 4 6 0\n", "", 9, "the last cube isn't empty"),
        ("5 -2 -1", "5 -2 -1 3000", 8, "the sheet has no variable 3000"),
        ("5 -2 -1", "5 -2 -1 99999999999", 8, "'99999999999' is no number"),
    ] {
        let ended = folder.certified(EQUAL.as_bytes(), &TRACE.replace(what, other));
        assert_eq!((ended.status, ended.output.len()), (1, 0), "{other}");
        let told = format!("trace.qrp: line {line}: {why}");
        assert!(ended.message.contains(&told), "{told}\n{}", ended.message);
    }
    // What doesn't lead to the last line isn't looked at, blanks and comments aren't either.
    for (what, other) in
        [("2 -1 2 0 0", "2 -1 0 0"), ("3 2 1 0 0", "c\n\n 3\t2 1 0 0\r"), ("a 1 0\ne 2 0\n", "")]
    {
        let ended = folder.certified(EQUAL.as_bytes(), &TRACE.replace(what, other));
        assert_eq!((ended.status, text(ended.output)), (0, "true\n".to_string()), "{other}");
    }
    // Bytes that are no trace, some of them no text.
    for bytes in [&b"\xff\xfe"[..], b"p qrp\n\xff", b"p qrp\n1 \xff 0 0\n", b"\0"] {
        let file = folder.0.join("bytes");
        std::fs::write(&file, bytes).expect("a file");
        let ended = called(&["certify", "-", file.to_str().expect("a name")], EQUAL.as_bytes());
        assert_eq!((ended.status, ended.output.len()), (1, 0));
        assert!(ended.message.contains("bytes: line "), "{}", ended.message);
    }
}

/// A text whose numbers are above a sheet's limits has a trace in these.
#[test]
fn numbers_of_the_text() {
    let folder = Folder::new("numbers");
    let given = "p cnf 9000 2\na 7000 0\ne 9000 0\n7000 -9000 0\n-7000 9000 0\n";
    let file = folder.0.join("high.qrp");
    std::fs::write(&file, trace_of(given)).expect("a file");
    let file = file.to_str().expect("a name");
    let ended = called(&["certify", "--renumber", "-", file], given.as_bytes());
    assert_eq!((ended.status, text(ended.output)), (0, "true\n".to_string()), "{}", ended.message);
}
