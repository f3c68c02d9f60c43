//! `docs/WRONG-PROGRAMS.md`: it names the must-fail edits of the repository, all of them and no
//! others, and has a row with at least two for each entry point. No edit is of a contract.

use std::collections::BTreeSet;
use std::path::Path;

const ROOT: &str = concat!(env!("CARGO_MANIFEST_DIR"), "/..");

fn page() -> String {
    let file = "docs/WRONG-PROGRAMS.md";
    std::fs::read_to_string(Path::new(ROOT).join(file)).expect(file)
}

/// What stands between backticks.
fn quoted(text: &str) -> impl Iterator<Item = &str> {
    text.split('`').skip(1).step_by(2)
}

/// The edits that a text names, each as CRATE/EDIT.
fn named(text: &str) -> BTreeSet<String> {
    let is_name = |word: &str| word.chars().all(|c| c == '_' || c.is_ascii_alphanumeric());
    let is_edit = |word: &&str| {
        word.split_once('/').is_some_and(|(name, edit)| is_name(name) && is_name(edit))
    };
    quoted(text).filter(is_edit).map(str::to_string).collect()
}

/// The edits that there are.
fn made() -> BTreeSet<String> {
    let mut edits = BTreeSet::new();
    for entry in std::fs::read_dir(Path::new(ROOT).join("crates")).expect("crates") {
        let folder = entry.expect("a crate").path();
        let Ok(files) = std::fs::read_dir(folder.join("must-fail")) else { continue };
        let name = folder.file_name().expect("a name").to_string_lossy();
        for file in files {
            let path = file.expect("an edit").path();
            edits.insert(format!("{name}/{}", path.file_stem().expect("a name").to_string_lossy()));
        }
    }
    edits
}

/// Whether an edit of code changes what a contract says, and not what the code does.
fn is_of_a_contract(edit: &str) -> bool {
    let (name, edit) = edit.split_once('/').expect("CRATE/EDIT");
    let folder = Path::new(ROOT).join("crates").join(name);
    let text = std::fs::read_to_string(folder.join(format!("must-fail/{edit}.edit"))).expect(edit);
    let file = text.lines().find_map(|line| line.strip_prefix("file: ")).expect("a file");
    let code = std::fs::read_to_string(folder.join(file)).expect(file);
    let clauses = || code.lines().map(str::trim_start).filter(|line| is_clause(line));
    let mut changed = text.lines().filter_map(|line| line.strip_prefix("old: "));
    changed.any(|old| clauses().any(|clause| clause.contains(old)))
}

/// Whether a line is a clause, which has a name where there are several of its kind.
fn is_clause(line: &str) -> bool {
    let head = line.split_once('{').map_or("", |clause| clause.0);
    ["ensures", "requires"].contains(&head.split_whitespace().next().unwrap_or(""))
}

/// The entry points whose contracts `believed.rs` reads.
fn entries() -> Vec<&'static str> {
    let (_, list) = include_str!("believed.rs").split_once("const ENTRIES").expect("the entries");
    let (list, _) = list.split_once("];").expect("their end");
    list.split('"').skip(1).step_by(2).collect()
}

#[test]
fn every_edit_is_named_and_no_other() {
    let (named, made) = (named(&page()), made());
    assert_eq!(Vec::from_iter(made.difference(&named)), Vec::<&String>::new(), "not named");
    assert_eq!(Vec::from_iter(named.difference(&made)), Vec::<&String>::new(), "not there");
}

#[test]
fn no_edit_is_of_a_contract() {
    let edits = made();
    let wrong = Vec::from_iter(edits.iter().filter(|edit| is_of_a_contract(edit)));
    assert_eq!(wrong, Vec::<&String>::new());
}

#[test]
fn every_entry_point_rules_out_two() {
    let page = page();
    assert!(!entries().is_empty());
    for entry in entries() {
        let mut rows = page.lines().filter(|row| quoted(row).any(|word| word == entry));
        let row = rows.next().unwrap_or_else(|| panic!("{entry} has no row"));
        assert!(named(row).len() >= 2, "{entry} has fewer than two edits");
    }
}
