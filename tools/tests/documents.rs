//! Documents name what is there: paths, names and the files that they are in, decisions by their
//! numbers, landing notes, the version.

mod common;

use common::{answered, text};
use std::collections::BTreeMap;
use std::path::Path;

const ROOT: &str = concat!(env!("CARGO_MANIFEST_DIR"), "/..");

/// Pages that speak of the repository as it is.
const PAGES: [&str; 9] = [
    "README.md",
    "CONTRIBUTING.md",
    "bindings/README.md",
    "docs/ARCHITECTURE.md",
    "docs/DECISIONS.md",
    "docs/BENCHMARKS.md",
    "docs/MANUAL.md",
    "docs/TOOL.md",
    "docs/landings/README.md",
];

/// The folders that a path in a document begins with.
const FOLDERS: [&str; 10] = [
    ".cargo/",
    ".ci/",
    "bindings/",
    "crates/",
    "docs/",
    "examples/",
    "include/",
    "install/",
    "tests/",
    "tools/",
];

fn read(path: &str) -> String {
    std::fs::read_to_string(Path::new(ROOT).join(path)).expect(path)
}

fn is_there(path: &str) -> bool {
    Path::new(ROOT).join(path).exists()
}

/// The pieces of a line of a document, by turns outside and inside of backquotes.
fn pieces(line: &str) -> Vec<&str> {
    line.split('`').collect()
}

/// Whether it is a path in this repository, whatever is there.
fn is_path(word: &str) -> bool {
    FOLDERS.iter().any(|folder| word.starts_with(folder)) && !word.contains(' ')
}

/// Whether a path has a part that stands for any: a star, or a word in capitals that is no file.
fn is_pattern(path: &str) -> bool {
    let in_capitals = |part: &str| {
        let word = part.split(['.', '-']).next().unwrap_or_default();
        !word.is_empty() && word.chars().all(|letter| letter.is_ascii_uppercase())
    };
    path.contains('*') || !is_there(path) && path.split('/').any(in_capitals)
}

/// Whether a text has a word, and not only as a part of another.
fn has_word(text: &str, word: &str) -> bool {
    let inside = |letter: char| letter.is_alphanumeric() || "_-'".contains(letter);
    text.match_indices(word).any(|(at, _)| {
        !text[..at].ends_with(inside) && !text[at + word.len()..].starts_with(inside)
    })
}

/// What a page names that isn't there.
fn missing(page: &str) -> Vec<String> {
    let mut missing = Vec::new();
    let folder = Path::new(page).parent().expect("a folder");
    for line in read(page).lines() {
        let pieces = pieces(line);
        for (at, word) in pieces.iter().enumerate().filter(|(at, _)| at % 2 == 1) {
            if is_path(word) && !is_pattern(word) && !is_there(word) {
                missing.push(format!("{page}: {word}"));
            }
            let is_file = is_path(word) && Path::new(ROOT).join(word).is_file();
            if is_file && pieces[at - 1] == " in " {
                let names = names_before(&pieces, at);
                let text = read(word);
                let lost = names.into_iter().filter(|name| !has_word(&text, name));
                missing.extend(lost.map(|name| format!("{page}: {name} in {word}")));
            }
        }
        for link in line.split("](").skip(1) {
            let target = link.split([')', '#']).next().unwrap_or_default();
            let is_outside = target.contains("://") || target.is_empty();
            if !is_outside && !Path::new(ROOT).join(folder).join(target).exists() {
                missing.push(format!("{page}: the link {target}"));
            }
        }
    }
    missing
}

/// The names that a line gives a file for: `a` in `FILE`, `a` and `b` in `FILE`, `a`, `b` in `FILE`.
fn names_before<'a>(pieces: &[&'a str], file: usize) -> Vec<&'a str> {
    let mut names = Vec::new();
    let mut at = file;
    while at >= 2 && (at == file || [" and ", ", "].contains(&pieces[at - 1])) {
        at -= 2;
        if is_path(pieces[at]) {
            break;
        }
        names.extend(pieces[at].rsplit("::").next());
    }
    names
}

#[test]
fn what_documents_name_is_there() {
    let missing: Vec<String> = PAGES.into_iter().flat_map(missing).collect();
    assert!(missing.is_empty(), "\n{}", missing.join("\n"));
}

#[test]
fn names_are_read_with_their_files() {
    let line = "`x` is, `a::b` and `c` in `tools/src`, `d` in `tools/tests`";
    let pieces = pieces(line);
    assert_eq!(names_before(&pieces, 7), ["c", "b"]);
    assert_eq!(names_before(&pieces, 11), ["d"]);
    assert!(has_word("in-last-block x", "in-last-block") && !has_word("in-last-block x", "block"));
    assert!(is_pattern("crates/C/src") && is_pattern("crates/x/must-fail/NAME.edit"));
    assert!(!is_pattern("docs/DECISIONS.md") && !is_pattern("crates/nowhere/src"));
}

/// The decisions below each heading, in their order.
fn decisions(page: &str) -> Vec<(&str, Vec<usize>)> {
    let mut sections = Vec::new();
    for line in page.lines() {
        if let Some(heading) = line.strip_prefix("## ") {
            sections.push((heading, Vec::new()));
        }
        let entry = line.split_once("**").and_then(|(_, entry)| entry.split_once(". "));
        if let Some(number) = entry.and_then(|(number, _)| number.parse().ok()) {
            sections.last_mut().expect("a heading").1.push(number);
        }
    }
    sections.retain(|section| !section.1.is_empty());
    sections
}

/// Every decision stands once, its subject's row has it, and one that is given up names a later one.
#[test]
fn decisions_have_one_number_each() {
    let page = read("docs/DECISIONS.md");
    let sections = decisions(&page);
    let mut numbers: Vec<usize> = sections.iter().flat_map(|section| section.1.clone()).collect();
    numbers.sort_unstable();
    assert!(numbers.iter().copied().eq(1..=numbers.len()), "{numbers:?}");
    for (heading, decided) in &sections {
        let decided: Vec<String> = decided.iter().map(usize::to_string).collect();
        let row = format!(") | {} |", decided.join(", "));
        let has_row =
            |line: &str| line.starts_with(&format!("| [{heading}](#")) && line.ends_with(&row);
        assert!(page.lines().any(has_row), "| [{heading}](..{row}");
    }
    let given_up = page.lines().filter_map(|line| {
        let (successor, rest) =
            line.strip_prefix("*Given up; its successor is ")?.split_once(".* **")?;
        Some((rest.split_once(". ")?.0.parse().ok()?, successor.parse().ok()?))
    });
    let given_up: BTreeMap<usize, usize> = given_up.collect();
    assert!(given_up.iter().all(|(number, successor)| number < successor));
    assert!(given_up.values().all(|successor| numbers.contains(successor)));
    let pairs: Vec<String> =
        given_up.iter().map(|(number, successor)| format!("{number} for {successor}")).collect();
    let list = format!("\nGiven up, each with its successor: {}.\n", pairs.join(", "));
    assert!(page.contains(&list), "{list}");
}

/// Every landing note has its row in the index, and a request that it belongs to.
#[test]
fn landings_are_in_the_index() {
    let folder = Path::new(ROOT).join("docs/landings");
    let names = std::fs::read_dir(folder)
        .expect("the notes")
        .map(|entry| entry.expect("a note").file_name().into_string().expect("a name"));
    let notes: BTreeMap<usize, String> =
        names.filter_map(|name| Some((name.split_once('-')?.0.parse().ok()?, name))).collect();
    assert!(notes.keys().copied().eq(1..=notes.len()), "{notes:?}");
    let page = read("docs/landings/README.md");
    let (by_request, by_number) = page.split_once("\n## By number\n").expect("two tables");
    let rows: Vec<&str> = by_number.lines().filter(|line| line.starts_with("| [")).collect();
    assert_eq!(rows.len(), notes.len());
    for ((number, name), row) in notes.iter().zip(rows) {
        let link = format!("[{number:02}]({name})");
        assert!(row.starts_with(&format!("| {link} |")), "{row}");
        let request = row.trim_end_matches(" |").rsplit("| ").next().expect("a request");
        let asked =
            |line: &str| line.starts_with(&format!("| {request} |")) && line.contains(&link);
        assert!(by_request.lines().any(asked), "{link} below {request}");
    }
}

#[test]
fn the_version_is_that_of_the_last_release() {
    let page = read("CHANGELOG.md");
    let headings: Vec<&str> = page.lines().filter_map(|line| line.strip_prefix("## ")).collect();
    assert_eq!(headings[0], "Unreleased");
    let version = headings[1].split_once(" - ").expect("a number and a date").0;
    assert_eq!(version, env!("CARGO_PKG_VERSION"));
    assert_eq!(text(answered(&["--version"], &[])), format!("plumanchor {version}\n"));
}
