//! The functions of the library are declared in C and in Rust as they are in Rattle: names, kinds
//! of parameters in their order, and what is returned.

mod common;

use common::{output, read, root};
use std::collections::BTreeMap;
use std::process::Command;

/// For each function its parameters, by the kinds of `DECLARED`, and what it returns at the end.
type Functions = BTreeMap<String, Vec<String>>;

/// The Rattle source of all crates for C.
fn rattle_sources() -> String {
    let crates = output(Command::new(root("install/archive")).arg("--crates"), "");
    let folders = crates.lines().map(|name| root(&format!("crates/{name}/src")));
    let files = folders.flat_map(|folder| std::fs::read_dir(folder).expect("the sources"));
    files
        .map(|entry| std::fs::read_to_string(entry.expect("a source").path()).expect("text"))
        .collect()
}

/// Those of the Rattle source. A slice is lent as a pointer and a length.
fn in_rattle() -> Functions {
    let sources = rattle_sources();
    let entries = sources.split("pub extern \"C\" fn ").skip(1);
    let function = |entry| {
        let (name, mut kinds, behind) = signature(entry, ") -> ", of_rattle);
        kinds.push(behind.split_whitespace().next().expect("what is returned").to_string());
        (name, kinds)
    };
    entries.map(function).collect()
}

/// The kind of a parameter `name: type`.
fn of_rattle(parameter: &str) -> &'static str {
    let (_, kind) = parameter.split_once(": ").expect(parameter);
    match kind {
        "&[u8]" => "bytes",
        "&mut [u8]" => "output",
        "&[u32]" => "words",
        "&[usize]" => "numbers",
        "&mut [usize]" => "answers",
        "usize" => "number",
        _ => panic!("no kind for {parameter}"),
    }
}

/// Those of the header: a pointer has its length behind it.
fn in_c() -> Functions {
    let header = read("include/plumanchor.h");
    let mut functions = Functions::new();
    for returned in ["uint64_t", "size_t"] {
        for entry in header.split(&format!("\n{returned} plumanchor_")).skip(1) {
            let (name, kinds, _) = signature(entry, ");", of_c);
            let returned = if returned == "size_t" { "usize" } else { "u64" };
            let kinds = lengths_taken(kinds).chain([returned.to_string()]).collect();
            functions.insert(format!("plumanchor_{name}"), kinds);
        }
    }
    functions
}

/// The kind of a parameter, of which a pointer is to have a number behind it.
fn of_c(parameter: &str) -> &'static str {
    let (kind, _) = parameter.rsplit_once([' ', '*']).expect(parameter);
    match (kind.trim_end(), parameter.contains('*')) {
        ("const uint8_t", true) => "bytes",
        ("uint8_t", true) => "output",
        ("const uint32_t", true) => "words",
        ("const size_t", true) => "numbers",
        ("size_t", true) => "answers",
        ("size_t", false) => "number",
        _ => panic!("no kind for {parameter}"),
    }
}

/// The kinds without the lengths behind pointers.
fn lengths_taken(kinds: Vec<String>) -> impl Iterator<Item = String> {
    let mut taken = Vec::new();
    let mut kinds = kinds.into_iter();
    while let Some(kind) = kinds.next() {
        if kind != "number" {
            assert_eq!(kinds.next().as_deref(), Some("number"), "a length behind {kind}");
        }
        taken.push(kind);
    }
    taken.into_iter()
}

/// The name that a text begins with, the kinds of its parameters up to the mark that closes their
/// list, and what stands behind it.
fn signature<'a>(
    text: &'a str,
    close: &str,
    kind: impl Fn(&str) -> &'static str,
) -> (String, Vec<String>, &'a str) {
    let (name, rest) = text.split_once('(').expect("parameters");
    let (list, behind) = rest.split_once(close).expect("their end");
    let parameters =
        list.split(',').map(|one| one.split_whitespace().collect::<Vec<_>>().join(" "));
    let kinds = parameters.filter(|one| !one.is_empty()).map(|one| kind(&one).to_string());
    (name.to_string(), kinds.collect(), behind)
}

/// Those of this crate.
fn in_rust() -> Functions {
    let function = |&(name, kinds, returned): &(&str, &[&str], &str)| {
        (name.to_string(), kinds.iter().chain([&returned]).map(|kind| kind.to_string()).collect())
    };
    plumanchor::DECLARED.iter().map(function).collect()
}

#[test]
fn functions_are_declared_as_they_are() {
    let functions = in_rattle();
    assert!(functions.len() > 30);
    assert_eq!(in_c(), functions);
    assert_eq!(in_rust(), functions);
}
