//! The tour in README.md and the examples of docs/MANUAL.md: what they show is
//! what the commands write.

mod common;
#[path = "common/xml.rs"]
mod xml;

use common::{answered, text};
use std::path::{Path, PathBuf};
use xml::Element;

const ROOT: &str = concat!(env!("CARGO_MANIFEST_DIR"), "/..");

/// The commands of a page, behind "$ ", each with the output shown below it.
fn shown(page: &str) -> Vec<(String, String)> {
    let text = std::fs::read_to_string(Path::new(ROOT).join(page)).expect("the page");
    let mut calls: Vec<(String, String)> = Vec::new();
    let mut open = false;
    for line in text.lines() {
        let inside = line.strip_prefix("    ").or(Some("").filter(|_| line.is_empty()));
        match (inside, inside.and_then(|inside| inside.strip_prefix("$ "))) {
            (_, Some(command)) => {
                calls.push((command.to_string(), String::new()));
                open = true;
            }
            (Some(inside), None) if open => {
                let output = &mut calls.last_mut().expect("a command").1;
                *output += &format!("{inside}\n");
            }
            _ => open = false,
        }
    }
    for call in &mut calls {
        let end = call.1.trim_end().len();
        call.1.truncate(end);
    }
    calls
}

/// The place of a file that a command names: one written on the way, or one of the repository.
fn place(word: &str, folder: &Path) -> String {
    let known = [folder.join(word), PathBuf::from(ROOT).join(word)];
    let found = known.iter().find(|path| path.is_file());
    found.map_or(word.to_string(), |path| path.to_str().expect("a path").to_string())
}

/// What a command writes, if not to a file.
fn output(command: &str, folder: &Path) -> Vec<u8> {
    let (command, file) = match command.split_once(" > ") {
        Some((command, file)) => (command, Some(file)),
        None => (command, None),
    };
    let words: Vec<String> = command.split(' ').map(|word| place(word, folder)).collect();
    let words: Vec<&str> = words.iter().map(String::as_str).collect();
    let output = match words.split_first().expect("a command") {
        (&"cat", files) => std::fs::read(files[0]).expect("a file"),
        (_, arguments) => answered(arguments, &[]),
    };
    match file {
        Some(file) => {
            std::fs::write(folder.join(file), output).expect("a file");
            Vec::new()
        }
        None => output,
    }
}

/// The boxes of a picture with what they say, wherever Graphviz puts them.
fn boxes(picture: &Element) -> Vec<(String, Vec<String>)> {
    let named =
        picture.all().into_iter().filter(|element| element.attribute("class") == Some("node"));
    let texts = |element: &Element| {
        let texts = element.all().into_iter().filter(|inner| inner.name == "text");
        texts.map(|inner| inner.text.clone()).collect()
    };
    named
        .map(|group| (group.attribute("id").unwrap_or_default().to_string(), texts(group)))
        .collect()
}

#[test]
fn the_pages_show_what_the_commands_write() {
    let folder = std::env::temp_dir().join(format!("plumanchor-readme-{}", std::process::id()));
    std::fs::create_dir_all(&folder).expect("a folder");
    for (page, least) in [("README.md", 5), ("docs/MANUAL.md", 10), ("examples/print-line.md", 6)] {
        let calls = shown(page);
        assert!(calls.len() >= least, "{page}");
        for (command, expected) in calls {
            let output = text(output(&command, &folder));
            assert_eq!(output.trim_end(), expected, "{page}: {command}");
        }
    }
    let read = |path: PathBuf| xml::read(&std::fs::read_to_string(path).expect("a picture"));
    let made = boxes(&read(folder.join("press.svg")));
    assert_eq!(made, boxes(&read(Path::new(ROOT).join("docs/pictures/press-line.svg"))));
    assert!(made.len() > 10);
    std::fs::remove_dir_all(folder).expect("the folder");
}
