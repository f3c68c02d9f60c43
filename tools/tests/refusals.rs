//! The names and numbers of refusals: code, definitions, the C header and the
//! Rust declarations have the same.

use std::path::Path;

const ROOT: &str = concat!(env!("CARGO_MANIFEST_DIR"), "/..");

/// The names in capitals and the numbers of a file, from its lines of a name and a number with
/// these marks before and between.
fn refusals(file: &str, before: &str, between: &str) -> Vec<(String, u8)> {
    refusals_in(&read(file), before, between)
}

fn read(file: &str) -> String {
    std::fs::read_to_string(Path::new(ROOT).join(file)).expect(file)
}

/// The same of a text.
fn refusals_in(text: &str, before: &str, between: &str) -> Vec<(String, u8)> {
    let named = |line: &str| {
        let (name, rest) = line.trim_start().strip_prefix(before)?.split_once(between)?;
        let digits = rest.split(|letter: char| !letter.is_ascii_digit()).next()?;
        Some((name.to_uppercase().replace('-', "_"), digits.parse().ok()?))
    };
    text.lines().filter_map(named).collect()
}

/// A variant's name in capitals: `TooShort` is `TOO_SHORT`.
fn in_capitals(variant: &str) -> String {
    let mut name = String::new();
    for letter in variant.chars() {
        if letter.is_ascii_uppercase() && !name.is_empty() {
            name.push('_');
        }
        name.push(letter.to_ascii_uppercase());
    }
    name
}

/// The variants of `Refusal`, in their order, and the numbers that its method gives them.
fn refusals_in_code() -> Vec<(String, u8)> {
    let numbered = |line: &str| {
        let (pattern, number) = line.trim().strip_prefix("Refusal::")?.split_once(" => ")?;
        let variant = pattern.split('(').next()?;
        Some((in_capitals(variant), number.strip_suffix(',')?.parse().ok()?))
    };
    read("crates/rows/src/refusals.rt").lines().filter_map(numbered).collect()
}

#[test]
fn refusals_have_one_name_and_one_number() {
    let code = refusals_in_code();
    assert!(code.iter().map(|refusal| refusal.1).eq(1..=29));
    assert_eq!(refusals("crates/sheet/specs/Refusals.antt", "", " = "), code);
    let header = read("include/plumanchor.h");
    let (_, below) = header.split_once("PLUMANCHOR_ACCEPTED = 0,\n").expect("the refusals");
    let (listed, _) = below.split_once("};").expect("their end");
    assert_eq!(refusals_in(listed, "PLUMANCHOR_", " = "), code);
    assert_eq!(refusals("bindings/rust/src/refusal.rs", "", " = "), code);
}
