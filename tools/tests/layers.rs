//! `crates.txt`: every crate lists the crates that it names, each of them
//! above its own line, and no others. The picture of `docs/ARCHITECTURE.md` is made of it:
//! `docs/pictures/crates.dot`, and `crates.svg` beside it by Graphviz.

#[path = "common/xml.rs"]
mod xml;

use std::collections::BTreeSet;
use std::path::{Path, PathBuf};
use std::process::Command;

const ROOT: &str = concat!(env!("CARGO_MANIFEST_DIR"), "/..");

/// How many letters of a section's heading stand on a line of the picture, about.
const HEADING: usize = 32;

/// A line: a crate, the heading that it stands under, what it lists, and the comment behind it.
struct Line {
    name: String,
    section: String,
    listed: Vec<String>,
    comment: String,
}

fn lines() -> Vec<Line> {
    let mut section = String::new();
    let mut lines = Vec::new();
    for line in read("crates.txt").lines().filter(|line| !line.is_empty()) {
        if let Some(heading) = line.strip_prefix("# ") {
            section = heading.to_string();
            continue;
        }
        let (entry, comment) = line.split_once('#').unwrap_or((line, ""));
        let (name, listed) = entry.split_once(':').expect("NAME: what it names");
        lines.push(Line {
            // Behind the name of a static library stands the word for it.
            name: name.split_whitespace().next().expect("a name").to_string(),
            section: section.clone(),
            listed: listed.split_whitespace().map(str::to_string).collect(),
            comment: comment.to_string(),
        });
    }
    lines
}

fn read(path: &str) -> String {
    std::fs::read_to_string(Path::new(ROOT).join(path)).expect(path)
}

/// All that the crate's code, definitions and proofs say.
fn text_of(name: &str) -> String {
    let mut folders: Vec<PathBuf> = ["src", "specs", "proofs"]
        .map(|part| Path::new(ROOT).join("crates").join(name).join(part))
        .into();
    let mut text = String::new();
    while let Some(folder) = folders.pop() {
        let Ok(entries) = std::fs::read_dir(folder) else { continue };
        for entry in entries {
            let path = entry.expect("an entry").path();
            if path.is_dir() {
                folders.push(path);
            } else if path.extension().is_some_and(|end| end == "rt" || end == "antt") {
                text += &std::fs::read_to_string(path).expect("a file of the crate");
            }
        }
    }
    text
}

/// Whether a text names a crate: as the first word of a path of Rattle, or as a library of antt.
fn names(text: &str, other: &str) -> bool {
    let path = format!("{other}::");
    let first =
        |at: usize| !text[..at].ends_with(|c: char| c == ':' || c == '_' || c.is_alphanumeric());
    let library = format!("Rattle.{other}.");
    text.match_indices(&path).any(|(at, _)| first(at)) || text.contains(&library)
}

#[test]
fn crates_list_what_they_name() {
    let lines = lines();
    for (i, line) in lines.iter().enumerate() {
        let text = text_of(&line.name);
        for listed in &line.listed {
            let lower = lines[..i].iter().any(|other| other.name == *listed);
            assert!(lower, "{}: {listed} is not a crate above it", line.name);
            let told = line.comment.contains(&format!(" {listed}: "));
            assert!(
                told || names(&text, listed),
                "{} lists {listed} and never names it",
                line.name
            );
        }
        for other in
            lines.iter().filter(|other| other.name != line.name && names(&text, &other.name))
        {
            assert!(
                line.listed.contains(&other.name),
                "{} names {} and doesn't list it",
                line.name,
                other.name
            );
        }
    }
}

/// A heading on several lines, for a label of Graphviz.
fn wrapped(heading: &str) -> String {
    let mut text = String::new();
    let mut length = 0;
    for word in heading.split(' ') {
        if length > 0 {
            text += if length + word.len() > HEADING { "\\l" } else { " " };
            length = if length + word.len() > HEADING { 0 } else { length + 1 };
        }
        text += word;
        length += word.len();
    }
    text + "\\l"
}

/// For each crate what it uses, lower ones first, without what it reaches through another of them.
fn used_directly(lines: &[Line]) -> Vec<Vec<&str>> {
    let mut reached: Vec<BTreeSet<&str>> = Vec::new();
    let mut direct = Vec::new();
    for line in lines {
        let listed: Vec<usize> =
            (0..reached.len()).filter(|at| line.listed.contains(&lines[*at].name)).collect();
        let through: BTreeSet<&str> =
            listed.iter().flat_map(|at| reached[*at].iter().copied()).collect();
        let named = listed.iter().map(|at| lines[*at].name.as_str());
        direct.push(named.clone().filter(|name| !through.contains(name)).collect());
        reached.push(named.chain(through.iter().copied()).collect());
    }
    direct
}

/// The crates by their sections, with an arrow to each crate that one uses directly.
fn picture(lines: &[Line]) -> String {
    let mut text = String::from(
        "digraph crates {\n\
         graph [newrank=true, nodesep=0.15, ranksep=0.35, fontname=\"Helvetica\", fontsize=12];\n\
         node [shape=box, height=0.3, style=filled, fillcolor=white, fontname=\"Helvetica\", fontsize=12];\n\
         edge [color=\"#777777\", arrowsize=0.6];\n",
    );
    for (at, section) in lines.chunk_by(|one, next| one.section == next.section).enumerate() {
        let heading = wrapped(&section[0].section);
        text += &format!("subgraph cluster_{at} {{\ngraph [label=\"{heading}\", labeljust=l, ");
        text += "style=filled, color=\"#eef2f6\"];\n";
        section.iter().for_each(|line| text += &format!("{};\n", line.name));
        text += "}\n";
    }
    for (line, used) in lines.iter().zip(used_directly(lines)) {
        used.iter().for_each(|other| text += &format!("{} -> {other};\n", line.name));
    }
    text + "}\n"
}

/// The boxes and arrows of a picture, as Graphviz calls them.
fn titles(svg: &str) -> BTreeSet<String> {
    let picture = xml::read(svg);
    let shown = picture.all().into_iter().filter(|element| {
        element.attribute("class").is_some_and(|class| class == "node" || class == "edge")
    });
    shown.map(|element| element.children[0].text.clone()).collect()
}

#[test]
fn the_picture_shows_the_crates() {
    let lines = lines();
    let made = picture(&lines);
    let folder = Path::new(ROOT).join("docs/pictures");
    if std::env::var_os("LAYERS_WRITE").is_some() {
        std::fs::write(folder.join("crates.dot"), &made).expect("the picture written");
        let mut dot = Command::new("dot");
        dot.current_dir(&folder).args(["-Tsvg", "-o", "crates.svg", "crates.dot"]);
        assert!(dot.status().expect("dot, of Debian's package graphviz").success());
    }
    let how = "LAYERS_WRITE=1 cargo test --release -p plumanchor-tool --test layers writes it";
    assert!(read("docs/pictures/crates.dot") == made, "docs/pictures/crates.dot is old: {how}");
    let boxes = lines.iter().map(|line| line.name.clone());
    let arrows = lines.iter().zip(used_directly(&lines)).flat_map(|(line, used)| {
        used.into_iter().map(|other| format!("{}->{other}", line.name)).collect::<Vec<_>>()
    });
    let expected: BTreeSet<String> = boxes.chain(arrows).collect();
    assert!(
        titles(&read("docs/pictures/crates.svg")) == expected,
        "docs/pictures/crates.svg is old: {how}"
    );
}

/// The table of `docs/ARCHITECTURE.md` has a row for each crate, and names each section once.
#[test]
fn the_layers_are_told() {
    let page = read("docs/ARCHITECTURE.md");
    let head = "| layer | crate | what it has |";
    let mut rows = page.lines().skip_while(|line| *line != head).skip(2);
    let mut section = String::new();
    for line in lines() {
        let told = match line.section == section {
            true => format!("| | `{}` | ", line.name),
            false => format!("| {} | `{}` | ", line.section, line.name),
        };
        let row = rows.next().expect("a row");
        assert!(row.starts_with(&told), "{row}\nand not\n{told}");
        section = line.section;
    }
    assert_eq!(rows.next(), Some(""));
}
