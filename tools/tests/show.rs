//! `show`: what it writes can be read back, to the same bytes.

mod common;

use common::{answered, called, example, example_bytes, spawned, text, READING};
use outside::generate::{cases, deep_formula, formula, Limits, Rng};
use outside::reference::Row;
use outside::with_deep_stack;

fn shown(sheet: &[u8]) -> String {
    text(answered(&["show"], sheet))
}

/// The lines of a shown sheet, those that end with a comma joined with the next.
fn whole_lines(text: &str) -> Vec<String> {
    let mut lines: Vec<String> = Vec::new();
    for line in text.lines() {
        assert!(line.len() <= 96, "{line}");
        match lines.last_mut().filter(|last| last.ends_with(',')) {
            Some(last) => *last += &format!(" {}", line.trim_start()),
            None => lines.push(line.to_string()),
        }
    }
    lines
}

/// The sheet that a text of `show` speaks of.
fn read_back(text: &str) -> Vec<u8> {
    let mut lines = whole_lines(text).into_iter().filter(|line| !line.is_empty()).peekable();
    let sizes = lines.next().expect("sizes");
    let mut rows: Vec<Row> = Vec::new();
    while let Some(line) = lines.next_if(|line| starts_block(line)) {
        let (kind, list) = match line.strip_prefix("for all ") {
            Some(list) => (2, list),
            None => (1, line.strip_prefix("exists ").expect("a block")),
        };
        rows.extend(list.split(", ").map(|word| (kind, word.parse().expect("a number"))));
    }
    let v = rows.len();
    let mut above: Vec<usize> = Vec::new();
    lines.for_each(|line| read_nodes(&line, &mut above, &mut rows));
    let said = sizes.replace("s", "");
    assert_eq!(said, format!("{v} variable, {} node", rows.len() - v));
    READING.format.sheet_of(v, &rows)
}

fn starts_block(line: &str) -> bool {
    line.starts_with("for all ") || line.starts_with("exists ")
}

/// Adds a line's nodes; `above` has the row of the last operator of each depth.
fn read_nodes(line: &str, above: &mut Vec<usize>, rows: &mut Vec<Row>) {
    let words = line.trim_start();
    let (depth, words) = match words.strip_prefix('[').and_then(|rest| rest.split_once("] ")) {
        Some((depth, words)) => (depth.parse().expect("a depth"), words),
        None => ((line.len() - words.len()) / 2, words),
    };
    above.truncate(depth);
    let mut push = |row: Row, above: &[usize]| {
        if let Some(&parent) = above.last() {
            rows[parent].1 += 1;
        }
        rows.push(row);
        rows.len() - 1
    };
    let (operator, literals) = match words.split_once(' ') {
        _ if words == "AND of nothing (true)" => (Some(5), ""),
        _ if words == "OR of nothing (false)" => (Some(6), ""),
        _ if words == "AND" => (Some(5), ""),
        _ if words == "OR" => (Some(6), ""),
        Some(("AND", literals)) => (Some(5), literals),
        Some(("OR", literals)) => (Some(6), literals),
        _ => (None, words),
    };
    if let Some(kind) = operator {
        let row = push((kind, 0), above);
        above.push(row);
    }
    for word in literals.split(", ").filter(|word| !word.is_empty()) {
        let negated = word.strip_prefix("not ");
        let x = negated.unwrap_or(word).parse().expect("a variable");
        push((if negated.is_some() { 4 } else { 3 }, x), above);
    }
}

fn comes_back(rng: &mut Rng, limits: Limits) {
    let sheet = READING.format.encode(&formula(rng, limits));
    assert_eq!(read_back(&shown(&sheet)), sheet);
}

#[test]
fn what_is_shown_can_be_read_back() {
    cases(3000, |rng| comes_back(rng, Limits::small(READING.format)));
    cases(500, |rng| comes_back(rng, Limits::medium(READING.format)));
    with_deep_stack(|| {
        cases(20, |rng| comes_back(rng, Limits::full(READING.format)));
        let deepest = READING.format.encode(&deep_formula(3, READING.format.most_nodes));
        assert_eq!(read_back(&shown(&deepest)), deepest);
    });
}

#[test]
fn a_formula_as_people_write_it() {
    let expected = "4 variables, 23 nodes\n\nfor all 1\nexists 2\nfor all 3\nexists 4\n\n\
                    AND\n  OR not 1, 2\n  OR 1, not 2\n  OR 1, 3, not 4\n  OR 1, not 3, 4\n  \
                    OR not 1, 3, 4\n  OR not 1, not 3, not 4\n";
    assert_eq!(shown(&example_bytes("press-line")), expected);
    assert_eq!(
        shown(&example_bytes("or-of-nothing")),
        "0 variables, 1 node\n\nOR of nothing (false)\n"
    );
    // Mixed children keep their order.
    let rows = [(2, 1), (5, 4), (3, 1), (6, 2), (4, 1), (5, 0), (3, 1), (4, 1)];
    let sheet = READING.format.sheet_of(1, &rows);
    let expected = "1 variable, 7 nodes\n\nfor all 1\n\n\
                    AND\n  1\n  OR\n    not 1\n    AND of nothing (true)\n  1, not 1\n";
    assert_eq!(shown(&sheet), expected);
}

#[test]
fn names_from_a_file_or_a_circuit() {
    let circuit = b"#QCIR-G14\nforall(signal)\nexists(valve)\noutput(g)\ng = xor(signal, valve)\n";
    let of_circuit = text(answered(&["show", "--from", "qcir"], circuit));
    assert!(of_circuit.contains("for all signal\nexists valve\n"), "{of_circuit}");
    let names = text(answered(&["convert", "--from", "qcir", "--to", "names"], circuit));
    assert_eq!(names, "1 signal\n2 valve\n");
    let file = std::env::temp_dir().join(format!("plumanchor-names-{}", std::process::id()));
    std::fs::write(&file, names).expect("a file");
    let sheet = answered(&["convert", "--from", "qcir"], circuit);
    let named = answered(&["show", "--names", file.to_str().expect("a path")], &sheet);
    assert_eq!(text(named), of_circuit);
    std::fs::write(&file, "1 signal\n1 valve\n").expect("a file");
    let twice = called(&["show", "--names", file.to_str().expect("a path")], &sheet);
    assert!(twice.status == 2 && twice.message.contains("line 2"), "{twice:?}");
    std::fs::remove_file(file).expect("the file");
}

/// The number, what it means, and the row at fault with its kind and argument.
#[test]
fn a_refused_sheet_is_explained() {
    let format = READING.format;
    let (length, v) = (format.longest_sheet(), format.most_variables);
    let good = [(2, 2), (1, 1), (6, 2), (3, 1), (4, 2)];
    let with = |at: usize, row: Row| {
        let mut rows = good;
        rows[at] = row;
        format.sheet_of(2, &rows)
    };
    let refused = [
        (vec![1; 3], "refused 1: the sheet is shorter than its two sizes".to_string()),
        (
            format.sheet_of(v + 1, &vec![(1, 1); v + 2]),
            format!("refused 2: a size is outside its limits (V = {}, at most {v}; N = 1", v + 1),
        ),
        (with(1, (3, 1)), "(row 1, counted from 0: kind 3, the literal 1)".to_string()),
        (with(1, (1, v + 1)), format!("(row 1, counted from 0: kind 1, exists {})", v + 1)),
        (
            with(1, (2, 2)),
            "refused 6: the row binds a number that is bound already (row 1".to_string(),
        ),
        (with(3, (4, 9)), "(row 3, counted from 0: kind 4, the literal not 9)".to_string()),
        (with(3, (9, 1)), "(row 3, counted from 0: kind 9, argument 1)".to_string()),
        (with(2, (6, 1)), "the tree has ended before the row (row 4, counted".to_string()),
        (with(2, (5, 3)), "refused 8: the rows end before the tree does".to_string()),
    ];
    for (sheet, part) in refused {
        let ended = called(&["show"], &sheet);
        assert_eq!((ended.status, ended.output.len()), (1, 0));
        assert!(ended.message.contains(&part), "{} lacks {part}", ended.message);
    }
    let cut = spawned(&["show", &example("cut-short")], &[]);
    assert_eq!(cut.status, 1);
    assert!(
        cut.message.contains("refused 3") && cut.message.contains("ask for"),
        "{}",
        cut.message
    );
    let all = called(&["show"], &vec![0; length + 1]);
    assert!(all.message.contains("refused 2"), "{}", all.message);
}
