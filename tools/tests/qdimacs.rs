//! QDIMACS as people hand it in: the examples, refusals in the line, sheets and
//! lines as the reference has them, and texts of any length.

mod common;

use common::{answered, called, example, spawned, text, READING};
use outside::examples::text_examples;
use outside::generate::{self, cases, clause_set, damage_text, qdimacs_text, Limits};
use outside::reference::{Answer, Format, Reading};

/// The sheet that the reference reads, or the number that it refuses with.
fn reference(reading: Reading, text: &[u8]) -> Result<Vec<u8>, u8> {
    let mut output = vec![0; reading.format.longest_sheet()];
    match reading.qdimacs(text, &mut output) {
        Answer::Accepted(length) => Ok(output[..length].to_vec()),
        Answer::Refused(number, _) => Err(number),
    }
}

#[test]
fn the_examples() {
    for example in text_examples() {
        let file = format!("{}/../examples/{}.qdimacs", env!("CARGO_MANIFEST_DIR"), example.name);
        let ended = spawned(&["solve", "--from", "qdimacs", &file], &[]);
        assert_eq!((ended.status, text(ended.output)), (0, format!("{}\n", example.line)));
        let sheet = answered(&["convert", "--from", "qdimacs", &file], &[]);
        assert_eq!(answered(&["solve"], &sheet), format!("{}\n", example.line).into_bytes());
        let explained = text(answered(&["explain", "--from", "qdimacs", &file], &[]));
        assert_eq!(explained.lines().last(), Some(example.line));
    }
}

#[test]
fn refusals_are_told_in_the_line_and_in_words() {
    let nodes = format!("p cnf 1 5000\n{}", "1 0 ".repeat(5_000));
    for (text_given, number, words) in [
        ("", 15, "no header"),
        ("p cnf 1025 0\n", 15, "no header"),
        ("p cnf 1 1\n1\n", 16, "lists of whole numbers"),
        ("p cnf 1 1\n2 0\n", 17, "above the header's count"),
        ("p cnf 1 1\ne 1 1 0\n1 0\n", 6, "bound twice"),
        (&nodes, 2, "more nodes"),
    ] {
        for command in ["solve", "explain"] {
            let ended = called(&[command, "--from", "qdimacs"], text_given.as_bytes());
            assert_eq!((ended.status, text(ended.output)), (1, format!("refused 0 0 {number}\n")));
            let told = format!("plumanchor: refused {number}: ");
            assert!(ended.message.starts_with(&told) && ended.message.contains(words));
        }
        for command in ["check", "show", "convert", "tidy", "trial"] {
            let ended = called(&[command, "--from", "qdimacs"], text_given.as_bytes());
            assert_eq!((ended.status, ended.output.len()), (1, 0), "{command}");
            assert!(ended.message.contains(words), "{}", ended.message);
        }
    }
}

#[test]
fn sheets_and_lines_are_the_references() {
    cases(2_000, |rng| {
        let limits = Limits::small(Format::NARROW);
        let formula = clause_set(rng, limits);
        let mut given = qdimacs_text(rng, limits, &formula);
        if rng.one_in(2) {
            given = damage_text(rng, &given);
        }
        for (to, reading) in [("wide", Reading::WIDE), ("narrow", Reading::NARROW)] {
            let ended = called(&["convert", "--from", "qdimacs", "--to", to], &given);
            let status = ended.status;
            match reference(reading, &given) {
                Ok(sheet) => assert_eq!((status, ended.output), (0, sheet)),
                Err(number) => {
                    assert_eq!(status, 1);
                    assert!(ended.message.starts_with(&format!("plumanchor: refused {number}: ")));
                    let where_told = number == 2 || ended.message.contains(" (line ");
                    assert!(where_told, "{}", ended.message);
                }
            }
        }
        let line = match reference(READING, &given) {
            Ok(sheet) => READING.program_line(&sheet),
            Err(number) => format!("refused 0 0 {number}"),
        };
        let solved = called(&["solve", "--from", "qdimacs"], &given);
        assert_eq!(text(solved.output), format!("{line}\n"));
    });
}

#[test]
fn a_long_text_is_read_whole() {
    let comments = "c nothing to see here\n".repeat(200_000);
    let blanks = " \n".repeat(1_000_000);
    let good = format!("{comments}p cnf 2 2\na 1 0\ne 2 0\n1 2 0\n{blanks}-1 -2 0\n");
    assert_eq!(answered(&["solve", "--from", "qdimacs"], good.as_bytes()), b"true 0 1 0\n");
    let bad = called(&["solve", "--from", "qdimacs"], format!("{good}x").as_bytes());
    assert_eq!(text(bad.output), "refused 0 0 16\n");
}

/// Clauses as they are, and any other tree with a variable for each AND below an OR.
#[test]
fn sheets_as_texts() {
    let written = |name: &str| text(answered(&["convert", "--to", "qdimacs", &example(name)], &[]));
    let equal = "p cnf 4 5\na 2 0\ne 1 3 4 0\n3 4 0\n-3 1 0\n-3 2 0\n-4 -1 0\n-4 -2 0\n";
    assert_eq!(written("equal-after"), equal);
    assert_eq!(written("and-of-nothing"), "p cnf 0 0\n");
    assert_eq!(written("or-of-nothing"), "p cnf 0 1\n0\n");
    let file = format!("{}/../examples/press-line.qdimacs", env!("CARGO_MANIFEST_DIR"));
    let clauses = answered(&["convert", &file], &[]);
    let again = answered(&["convert", "--to", "qdimacs"], &clauses);
    assert_eq!(answered(&["convert", "--from", "qdimacs"], &again), clauses);
}

#[test]
fn texts_written_keep_the_truth() {
    let mut seen = [0; 2];
    cases(1_500, |rng| {
        let sheet = generate::sheet(rng, Limits::small(READING.format));
        let written = answered(&["convert", "--to", "qdimacs", "--from", "wide"], &sheet);
        let solved = |given: &[u8]| text(called(&["solve", "--renumber"], given).output);
        let lines = [&sheet, &written].map(|given| solved(given));
        let words = lines.each_ref().map(|line| line.split(' ').next().expect("a word"));
        if !words.contains(&"stopped") {
            assert_eq!(words[0], words[1], "{}", text(written.clone()));
            seen[usize::from(words[0] == "true")] += 1;
        }
    });
    assert!(seen.iter().all(|&count| count > 300), "{seen:?}");
}

/// Numbers above a sheet's limits, under an option, with the line of the same text in low ones.
#[test]
fn high_numbers_are_renumbered() {
    cases(500, |rng| {
        let sheet = READING.format.encode(&clause_set(rng, Limits::small(READING.format)));
        let low = text(answered(&["convert", "--to", "qdimacs", "--from", "wide"], &sheet));
        let (header, lists) = low.split_once('\n').expect("a header");
        let high: String = lists.split_inclusive([' ', '\n']).map(raised).collect();
        let clauses = header.rsplit(' ').next().expect("a count");
        let high = format!("p cnf 5000 {clauses}\n{high}");
        let solved = |given: &str| text(called(&["solve", "--renumber"], given.as_bytes()).output);
        assert_eq!(solved(&high).split(' ').next(), solved(&low).split(' ').next(), "{high}");
    });
}

/// A word with 2,000 added to the variable in it.
fn raised(word: &str) -> String {
    match word.trim_end().parse::<i64>() {
        Ok(number) if number != 0 => {
            let higher = number.signum() * (number.abs() + 2000);
            word.replacen(&number.to_string(), &higher.to_string(), 1)
        }
        _ => word.to_string(),
    }
}
