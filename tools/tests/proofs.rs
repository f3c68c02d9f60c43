//! Proofs that people can read: no fact is reached by a long chain of places, and no line is long.

use std::path::{Path, PathBuf};

const ROOT: &str = concat!(env!("CARGO_MANIFEST_DIR"), "/..");

/// Characters in a line, at most.
const LINE: usize = 200;

/// Places that a chain goes back, at most. A fact from further back has a helper of its own, typed
/// by the point of the code that it belongs to.
const BACK: usize = 3;

/// The files of antt in a folder and below it.
fn files(folder: &Path, found: &mut Vec<PathBuf>) {
    for entry in std::fs::read_dir(folder).expect("a folder") {
        let path = entry.expect("an entry").path();
        if path.is_dir() {
            files(&path, found);
        } else if path.extension().is_some_and(|extension| extension == "antt") {
            found.push(path);
        }
    }
}

/// Every proof file of every crate, with its text.
fn proofs() -> Vec<(String, String)> {
    let mut found = Vec::new();
    for entry in std::fs::read_dir(Path::new(ROOT).join("crates")).expect("crates") {
        let folder = entry.expect("a crate").path().join("proofs");
        if folder.is_dir() {
            files(&folder, &mut found);
        }
    }
    found.sort();
    let read = |path: &PathBuf| {
        let text = std::fs::read_to_string(path).expect("a proof");
        (path.strip_prefix(ROOT).expect("below the root").display().to_string(), text)
    };
    found.iter().map(read).collect()
}

/// A line without brackets around a path alone.
fn unbracketed(line: &str) -> String {
    let mut line = line.to_string();
    let bracketed = |line: &str| {
        line.match_indices('(').find_map(|(open, _)| {
            let inside = line[open + 1..].find(ends_path)?;
            line[open + 1 + inside..].starts_with(')').then_some((open, open + 1 + inside))
        })
    };
    while let Some((open, close)) = bracketed(&line) {
        line.remove(close);
        line.remove(open);
    }
    line
}

fn ends_path(letter: char) -> bool {
    letter.is_whitespace() || "(){},;".contains(letter)
}

/// How far a path goes back at once, at most.
fn back(path: &str) -> usize {
    let runs = path.split('.').collect::<Vec<_>>();
    let runs = runs.split(|name| *name != "before");
    runs.map(<[&str]>::len).max().unwrap_or(0)
}

/// The lines with a chain that is longer than it may be, each for every such chain.
fn long_chains(text: &str) -> Vec<usize> {
    let mut lines = Vec::new();
    for (number, line) in text.lines().enumerate() {
        let line = unbracketed(line);
        let long = line.split(ends_path).filter(|path| back(path) > BACK);
        lines.extend(long.map(|_| number + 1));
    }
    lines
}

#[test]
fn chains_are_told_by_their_length() {
    assert_eq!(long_chains("(f (c.before.before.before)).before"), []);
    assert_eq!(long_chains("c.before.before.before.fact.before"), []);
    assert_eq!(long_chains("x =\n  c.before.before.before.before.fact"), [2]);
    assert_eq!(long_chains("f ((c.before.before).before.before)"), [1]);
}

#[test]
fn a_fact_from_far_back_has_a_named_place() {
    let mut wrong = Vec::new();
    for (path, text) in proofs() {
        wrong.extend(long_chains(&text).iter().map(|line| format!("{path}:{line}")));
    }
    assert!(wrong.is_empty(), "more than {BACK} places back:\n{}", wrong.join("\n"));
}

#[test]
fn no_line_of_a_proof_is_long() {
    let mut wrong = Vec::new();
    for (path, text) in proofs() {
        let long = |line: &str| line.chars().count() > LINE;
        let numbers = text.lines().enumerate().filter(|(_, line)| long(line));
        wrong.extend(numbers.map(|(number, _)| format!("{path}:{}", number + 1)));
    }
    assert!(wrong.is_empty(), "more than {LINE} characters:\n{}", wrong.join("\n"));
}
