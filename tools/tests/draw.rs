//! `draw`: pictures are well-formed, and every row is in exactly one box that
//! says what it is, or how much it folds.

mod common;
#[path = "common/xml.rs"]
mod xml;

use common::{answered, called, example, example_bytes, text, READING};
use outside::generate::{self, cases, formula, tidy_formula, Limits};
use outside::reference::{raw_expansion, Format, Row};
use outside::with_deep_stack;
use std::ops::Range;
use std::process::Command;
use xml::Element;

const FORMAT: Format = READING.format;

/// V and all rows.
fn rows_of(sheet: &[u8]) -> (usize, Vec<Row>) {
    let (v, n) = FORMAT.sizes(sheet).expect("sizes");
    let argument = |at| FORMAT.number_at(sheet, FORMAT.argument_at(v + n, at)).expect("a row");
    (v, (0..v + n).map(|at| (sheet[FORMAT.header() + at], argument(at))).collect())
}

/// The node rows of a box, by its id.
fn range(id: &str) -> Option<Range<usize>> {
    let (first, last) = id.strip_prefix("nodes-")?.split_once('-')?;
    Some(first.parse().ok()?..last.parse::<usize>().ok()? + 1)
}

/// Every node row is in one of the ranges.
fn assert_whole(mut ranges: Vec<Range<usize>>, nodes: usize) {
    ranges.sort_by_key(|range| range.start);
    let ends: Vec<usize> = ranges.iter().map(|range| range.end).collect();
    let starts: Vec<usize> = ranges.iter().map(|range| range.start).collect();
    assert_eq!(starts[0], 0);
    assert_eq!(starts[1..], ends[..ends.len() - 1]);
    assert_eq!(ends.last(), Some(&nodes));
}

fn literal((kind, x): Row) -> String {
    format!("{}{x}", if kind == 4 { "not " } else { "" })
}

/// What a box must say of its rows, if it shows so many of them.
fn box_texts(rows: &[Row], texts: usize) -> Vec<String> {
    match rows {
        [(5, 0)] => vec!["AND of nothing".into(), "true".into()],
        [(6, 0)] => vec!["OR of nothing".into(), "false".into()],
        [(5, _)] => vec!["AND".into()],
        [(6, _)] => vec!["OR".into()],
        _ if rows.iter().all(|row| row.0 < 5) && texts >= rows.len() => {
            rows.iter().copied().map(literal).collect()
        }
        _ => {
            let shown = texts - 1;
            let literals = rows.iter().take(shown).copied().map(literal);
            literals.chain([format!("... {} more", rows.len() - shown)]).collect()
        }
    }
}

fn group_texts(group: &Element) -> Vec<String> {
    let texts = group.all().into_iter().filter(|element| element.name == "text");
    texts.map(|element| element.text.clone()).collect()
}

/// A picture of a sheet that is read, its boxes held against the rows.
fn picture(sheet: &[u8], options: &[&str]) -> Vec<Range<usize>> {
    let svg = text(answered(&[&["draw"], options].concat(), sheet));
    let picture = xml::read(&svg);
    assert_eq!(picture.name, "svg");
    assert!(picture.all().iter().all(|element| element.name != "script"));
    let (v, rows) = rows_of(sheet);
    let mut ranges = Vec::new();
    for group in picture.all() {
        let id = group.attribute("id").unwrap_or_default();
        if let Some(range) = range(id) {
            let texts = group_texts(group);
            let nodes = &rows[v..][range.clone()];
            assert_eq!(texts, box_texts(nodes, texts.len()), "{id}");
            ranges.push(range);
        } else if id == "prefix" {
            assert_prefix(&group_texts(group), &rows[..v]);
        }
    }
    assert_whole(ranges.clone(), rows.len() - v);
    ranges
}

fn assert_prefix(texts: &[String], rows: &[Row]) {
    let mut said = Vec::new();
    for (at, row) in rows.iter().enumerate() {
        if at == 0 || rows[at - 1].0 != row.0 {
            said.push(if row.0 == 1 { "exists".to_string() } else { "for all".to_string() });
        }
        said.push(row.1.to_string());
    }
    match texts.last().filter(|last| last.starts_with("... ")) {
        None => assert_eq!(texts, said),
        Some(last) => {
            let shown = &texts[..texts.len() - 1];
            assert_eq!(shown, &said[..shown.len()]);
            let names = shown.iter().filter(|word| word.parse::<usize>().is_ok()).count();
            assert_eq!(*last, format!("... {} more", rows.len() - names));
        }
    }
}

#[test]
fn pictures_are_well_formed_and_whole() {
    cases(25, |rng| {
        picture(&generate::sheet(rng, Limits::small(FORMAT)), &[]);
    });
    for name in ["press-line", "and-of-nothing", "one-tautology"] {
        picture(&example_bytes(name), &[]);
    }
    let lone_literal = FORMAT.sheet_of(1, &[(1, 1), (4, 1)]);
    assert_eq!(picture(&lone_literal, &[]), std::slice::from_ref(&(0..1)));
}

#[test]
fn large_sheets_are_folded() {
    with_deep_stack(|| {
        cases(6, |rng| {
            let ranges = picture(&generate::sheet(rng, Limits::full(FORMAT)), &[]);
            assert!(ranges.len() <= 120, "{}", ranges.len());
        });
        let deepest = FORMAT.encode(&generate::deep_formula(3, FORMAT.most_nodes));
        assert!(picture(&deepest, &[]).len() <= 120);
        assert!(picture(&deepest, &["--most", "3"]).len() <= 6);
    });
    // One operator with as many literals as may be.
    let widest = FORMAT.encode(&generate::wide_formula(FORMAT.most_nodes));
    assert_eq!(picture(&widest, &[]).len(), 2);
}

/// The same on Graphviz's language, where no program is started for a picture.
#[test]
fn every_row_is_in_one_box() {
    let whole = |sheet: &[u8], most: usize| {
        let dot = text(answered(&["draw", "--to", "dot", "--most", &most.to_string()], sheet));
        let ids = dot.split("[id=\"").skip(1).filter_map(|rest| rest.split('"').next());
        assert_whole(ids.filter_map(range).collect(), rows_of(sheet).1.len() - rows_of(sheet).0);
    };
    cases(3000, |rng| {
        let sheet = generate::sheet(rng, Limits::small(FORMAT));
        whole(&sheet, rng.below(40));
    });
    with_deep_stack(|| {
        cases(40, |rng| {
            let sheet = FORMAT.encode(&formula(rng, Limits::full(FORMAT)));
            whole(&sheet, rng.below(4000));
        });
    });
}

/// The marked rows are those that the reference copies: E of them.
#[test]
fn the_relevant_subtree_is_marked() {
    let mut marked = 0;
    cases(2000, |rng| {
        let formula = tidy_formula(rng, Limits::small(FORMAT));
        let sheet = FORMAT.encode(&formula);
        for x in READING.rules.innermost_block(&formula) {
            let number = x.to_string();
            let dot = text(answered(&["draw", "--to", "dot", "--expand", &number], &sheet));
            let expansion = raw_expansion(&formula, x);
            let (e, raw) = (expansion.e, expansion.raw_rows);
            let copied = format!("{e} {}", if e == 1 { "row" } else { "rows" });
            let caption = format!("; expanding {x} copies the {copied} marked: {raw} raw rows\"");
            assert!(dot.contains(&caption), "{caption}");
            // Nothing is marked exactly if there is nothing to copy.
            assert_eq!(dot.contains("c00000"), e > 0);
            marked += e;
        }
    });
    assert!(marked > 5000, "{marked}");
    picture(&example_bytes("press-line"), &["--expand", "4"]);
    let refused = called(&["draw", "--expand", "1"], &example_bytes("press-line"));
    assert!(refused.status == 1 && refused.message.contains("refused 11"), "{refused:?}");
}

#[test]
fn without_graphviz_the_package_is_named() {
    let call = |arguments: &[&str]| {
        let mut tool = Command::new(env!("CARGO_BIN_EXE_plumanchor-tool"));
        tool.args(arguments).env("PATH", "").output().expect("the tool")
    };
    let name = example("press-line");
    let missing = call(&["draw", &name]);
    assert_eq!((missing.status.code(), missing.stdout.len()), (Some(2), 0));
    let message = text(missing.stderr);
    assert!(message.contains("graphviz") && message.contains("--to dot"), "{message}");
    assert_eq!(call(&["draw", "--to", "dot", &name]).status.code(), Some(0));
    assert_eq!(called(&["draw", "--to", "png"], &example_bytes("press-line")).status, 2);
}
