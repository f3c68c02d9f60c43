//! Every operation's command: the reference's answer and bytes, refusals with
//! exit status 1, wrong use with 2, help for all.

mod common;

use common::{answered, called, example, example_bytes, spawned, text, READING};
use outside::generate::{self, cases, damage, Limits, Rng};
use outside::reference::{Answer, Operation};

/// A call's standard output if it has an answer, else the number refused with.
fn outcome(arguments: &[&str], sheet: &[u8]) -> Result<Vec<u8>, u8> {
    let ended = called(&[arguments, &["--from", "wide"]].concat(), sheet);
    match ended.status {
        0 => Ok(ended.output),
        1 => {
            let told = ended.message.strip_prefix("plumanchor: refused ").expect("a refusal");
            Err(told.split(':').next().and_then(|number| number.parse().ok()).expect("a number"))
        }
        _ => panic!("{ended:?}"),
    }
}

/// What an operation of the reference writes, or the number that it refuses with.
fn written(operation: impl FnOnce(&mut [u8]) -> Answer<usize>) -> Result<Vec<u8>, u8> {
    let mut output = vec![0; READING.format.longest_sheet()];
    match operation(&mut output) {
        Answer::Accepted(length) => Ok(output[..length].to_vec()),
        Answer::Refused(number, _) => Err(number),
    }
}

fn line(answer: Answer<String>) -> Result<Vec<u8>, u8> {
    match answer {
        Answer::Accepted(line) => Ok(format!("{line}\n").into_bytes()),
        Answer::Refused(number, _) => Err(number),
    }
}

fn map<T, U>(answer: Answer<T>, change: impl FnOnce(T) -> U) -> Answer<U> {
    match answer {
        Answer::Accepted(value) => Answer::Accepted(change(value)),
        Answer::Refused(number, place) => Answer::Refused(number, place),
    }
}

fn all_operations(sheet: &[u8], rng: &mut Rng) {
    let x = rng.between(0, 9);
    let (x_word, ceiling) = (x.to_string(), rng.between(0, 60));
    let step = |operation| written(|output| READING.step(operation, sheet, x, output));
    let told = |kind: &str| outcome(&[kind, &x_word], sheet);
    assert_eq!(outcome(&["tidy"], sheet), written(|output| READING.tidy(sheet, output)));
    assert_eq!(outcome(&["reduce"], sheet), written(|output| READING.reduce(sheet, output)));
    assert_eq!(told("settle"), step(Operation::Settle));
    assert_eq!(told("expand"), step(Operation::Expand));
    assert_eq!(told("quote"), line(map(READING.quote(sheet, x), |raw| raw.to_string())));
    let executed = outcome(&["execute", &x_word, &ceiling.to_string()], sheet);
    assert_eq!(executed, step(Operation::Execute(ceiling)));
    let trial = map(READING.format.trial(sheet), |(verdict, leaves)| format!("{verdict} {leaves}"));
    assert_eq!(outcome(&["trial"], sheet), line(trial));
    match READING.format.check(sheet) {
        Err((number, _)) => assert_eq!(outcome(&["check"], sheet), Err(number)),
        Ok((v, n)) => {
            let told = text(outcome(&["check"], sheet).expect("an answer")).replace('s', "");
            assert_eq!(told, format!("{v} variable, {n} node\n"));
            all_parts(sheet, rng.below(n), n);
        }
    }
}

fn all_parts(sheet: &[u8], node: usize, n: usize) {
    let kinds = READING.format.part(sheet, node);
    let told: Vec<String> = kinds.iter().map(u8::to_string).collect();
    let part = answered(&["part", &node.to_string()], sheet);
    assert_eq!(text(part), told.join(" ") + "\n");
    let beyond = called(&["part", &n.to_string()], sheet);
    let message = format!("plumanchor: node {n} is not there: nodes are 0 to {}\n", n - 1);
    assert_eq!((beyond.status, beyond.message), (1, message));
}

#[test]
fn operations_are_the_references() {
    cases(2000, |rng| {
        let sheet = if rng.one_in(2) {
            READING.format.encode(&generate::tidy_formula(rng, Limits::small(READING.format)))
        } else {
            generate::sheet(rng, Limits::small(READING.format))
        };
        all_operations(&sheet, rng);
        all_operations(&damage(rng, READING.format, &sheet), rng);
    });
}

/// A file, '-' or nothing: the same bytes.
#[test]
fn a_sheet_is_a_file_or_standard_input() {
    let (name, sheet) = (example("two-tautology"), example_bytes("two-tautology"));
    let expected = answered(&["tidy"], &sheet);
    for arguments in [&["tidy", &name][..], &["tidy", "-"], &["tidy"]] {
        let ended = spawned(arguments, &sheet);
        assert_eq!((ended.status, &ended.output), (0, &expected), "{}", ended.message);
    }
    let named = answered(&["tidy", "--from", "narrow"], &NARROW_TRUE);
    assert_eq!(named, NARROW_TRUE);
}

/// AND of nothing, narrow.
const NARROW_TRUE: [u8; 7] = [0, 0, 1, 0, 5, 0, 0];

#[test]
fn wrong_use_is_never_ignored() {
    let name = example("equal-after");
    let calls: [&[&str]; 22] = [
        &[],
        &["--versions"],
        &["sheet", &name],
        &[&name],
        &["--help", "solve"],
        &["--version", "solve"],
        &["check", &name, &name],
        &["check", "--room", "5", &name],
        &["check", "-x", &name],
        &["check", "--from", "word", &name],
        &["check", "--from", "names", &name],
        &["check", "--from"],
        &["check", "--from", "narrow", "--from", "narrow", &name],
        &["settle", &name],
        &["settle", "1.5", &name],
        &["execute", "1", &name],
        &["part", &name],
        &["solve", "--room", "much", &name],
        &["draw", "--expand", "x", &name],
        &["convert", "--to", "svg", &name],
        &["convert", "--to", "names", &name],
        &["show", "no/such/file"],
    ];
    for arguments in calls {
        let ended = spawned(arguments, &[]);
        assert_eq!((ended.status, ended.output.len()), (2, 0), "{arguments:?}");
        assert!(ended.message.starts_with("plumanchor: "), "{}", ended.message);
        assert!(ended.message.ends_with("'plumanchor --help' tells more\n"), "{}", ended.message);
    }
}

#[test]
fn help_for_the_whole_and_for_each_command() {
    let whole = text(answered(&["--help"], &[]));
    let listed = whole.lines().filter_map(|line| line.strip_prefix("  ")?.split(' ').next());
    let listed: Vec<&str> = listed.filter(|name| !name.is_empty()).collect();
    for command in ["solve", "show", "explain", "draw", "convert", "check", "execute"] {
        assert!(listed.contains(&command), "{whole}");
    }
    for command in listed {
        let help = text(answered(&[command, "--help"], &[]));
        assert!(help.starts_with(&format!("Usage: plumanchor {command} ")), "{help}");
        assert_eq!(text(answered(&[command, "1", "--help"], &[])), help);
        assert!(help.lines().all(|line| line.len() <= 100), "{help}");
    }
}
