//! The test program's stored files are those of the list of cases, and their
//! lines of Solve on document 01's formulas are the ones in its list.

use outside::formulas::{all, four_cubes, sheet, tried_by_hand};
use outside::reference::{Format, Quantifier};
use outside::{stored, with_deep_stack};
use std::fs;

/// Both formats, each with the length of the four cubes' raw sheet.
const FORMATS: [(Format, usize); 2] = [(Format::NARROW, 88), (Format::WIDE, 148)];

fn read(name: &str) -> Vec<u8> {
    let folder = concat!(env!("CARGO_MANIFEST_DIR"), "/../../crates/cases");
    fs::read(format!("{folder}/{name}")).expect("a stored file")
}

#[test]
fn stored_cases_are_current() {
    with_deep_stack(|| {
        let cases = stored::cases();
        assert!(read("stdin") == stored::input(&cases), "stdin is not current");
        assert!(read("stdout") == stored::lines(&cases).into_bytes(), "stdout is not current");
    });
}

#[test]
fn stored_lines_of_the_formulas_tried() {
    for (format, _) in FORMATS {
        let longest = format.longest_sheet();
        for (formula, line) in tried_by_hand() {
            assert_eq!(stored_line(format, &format.encode(&formula), longest, longest), line);
        }
    }
}

#[test]
fn stored_lines_of_the_four_cubes() {
    for (format, room) in FORMATS {
        let sheet = sheet(format, &all(Quantifier::ForAll, 2), four_cubes());
        assert_eq!(stored_line(format, &sheet, room, room), "true 0 1 0");
        for (first, second) in [(room, room - 1), (room - 1, room), (room - 1, room - 1)] {
            assert_eq!(stored_line(format, &sheet, first, second), "stopped 0 0 1");
        }
    }
}

/// The program's line in the stored one for Solve with buffers of these lengths.
fn stored_line(format: Format, sheet: &[u8], first: usize, second: usize) -> String {
    let stored = String::from_utf8(read("stdout")).expect("text");
    let wanted = stored::Call::solve(first, second);
    let (wanted, name) =
        if format == Format::WIDE { (wanted.on_wide(), "wide solve ") } else { (wanted, "solve ") };
    let cases = with_deep_stack(stored::cases);
    let calls = cases.iter().flat_map(|case| case.calls.iter().map(|call| (&case.sheet, call)));
    let mut lines = calls.zip(stored.lines());
    let (_, line) = lines
        .find(|((of, call), _)| of.as_slice() == sheet && **call == wanted)
        .expect("a stored call");
    let words = line.strip_prefix(name).expect("a line of Solve").split(' ');
    words.take(4).collect::<Vec<_>>().join(" ")
}
