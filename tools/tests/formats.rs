//! Sheets of both formats: carried over and brought back as by the reference,
//! solved as what they are carried over to.

mod common;

use common::{answered, called, example, example_bytes, spawned, text};
use outside::examples::narrow_examples;
use outside::generate::{self, cases, damage, Limits};
use outside::reference::{bring_back, widen, Answer, Format, Reading};

const TO_WIDE: [&str; 5] = ["convert", "--from", "narrow", "--to", "wide"];
const TO_NARROW: [&str; 5] = ["convert", "--from", "wide", "--to", "narrow"];

/// What a conversion writes and what the reference does, or the number refused with.
fn agree(
    arguments: &[&str],
    sheet: &[u8],
    reference: fn(&[u8], &mut [u8]) -> Answer<usize>,
) -> Result<Vec<u8>, u8> {
    let mut output = vec![0; Format::WIDE.longest_sheet()];
    let expected = match reference(sheet, &mut output) {
        Answer::Accepted(length) => Ok(output[..length].to_vec()),
        Answer::Refused(number, _) => Err(number),
    };
    let ended = called(arguments, sheet);
    match &expected {
        Ok(carried) => assert_eq!((ended.status, &ended.output), (0, carried), "{}", ended.message),
        Err(number) => {
            let told = format!("plumanchor: refused {number}: ");
            assert_eq!((ended.status, ended.output.len()), (1, 0));
            assert!(ended.message.starts_with(&told), "{}", ended.message);
        }
    }
    expected
}

#[test]
fn conversions_are_the_references() {
    let (mut carried, mut beyond) = (0, 0);
    cases(2000, |rng| {
        let narrow = generate::sheet(rng, Limits::small(Format::NARROW));
        let wide = generate::sheet(rng, Limits::small(Format::WIDE));
        for sheet in [damage(rng, Format::NARROW, &narrow), narrow] {
            if let Ok(widened) = agree(&TO_WIDE, &sheet, widen) {
                assert_eq!(answered(&TO_NARROW, &widened), sheet);
                carried += 1;
            }
        }
        for sheet in [damage(rng, Format::WIDE, &wide), wide] {
            beyond += u32::from(agree(&TO_NARROW, &sheet, bring_back) == Err(24));
        }
    });
    assert!(carried > 2000 && beyond > 200, "{carried} {beyond}");
}

#[test]
fn a_narrow_sheet_is_solved_as_the_wide_one() {
    cases(1000, |rng| {
        let mut sheet = generate::sheet(rng, Limits::small(Format::NARROW));
        if rng.one_in(3) {
            sheet = damage(rng, Format::NARROW, &sheet);
        }
        let mut widened = vec![0; Format::WIDE.longest_sheet()];
        let line = match widen(&sheet, &mut widened) {
            Answer::Accepted(length) => Reading::WIDE.program_line(&widened[..length]),
            Answer::Refused(number, _) => format!("refused 0 0 {number}"),
        };
        for command in ["solve", "explain"] {
            let ended = called(&[command, "--from", "narrow"], &sheet);
            let told = text(ended.output);
            assert_eq!(told.lines().last(), Some(line.as_str()), "{command}");
            assert_eq!(ended.status, u8::from(line.starts_with("refused")));
        }
    });
}

#[test]
fn narrow_examples_have_their_lines() {
    for known in narrow_examples() {
        let name = example(&format!("narrow/{}", known.name));
        let ended = spawned(&["solve", "--from", "narrow", &name], &[]);
        assert_eq!((ended.status, text(ended.output)), (0, format!("{}\n", known.line)));
        let wide = answered(&["convert", "--from", "narrow", &name], &[]);
        assert_eq!(wide, example_bytes(known.name));
        assert_eq!(answered(&["convert", "--to", "narrow"], &wide), known.sheet);
    }
}

/// A quote of each format, which is told by the sizes, and the other format's bytes refused.
#[test]
fn quotes_of_both_formats() {
    let (narrow, wide) = (example_bytes("narrow/equal-after"), example_bytes("equal-after"));
    assert_eq!(answered(&["quote", "1", "--from", "narrow"], &narrow), b"15\n");
    assert_eq!(answered(&["quote", "1"], &wide), b"15\n");
    assert_eq!(answered(&["quote", "1", "--from", "wide"], &wide), b"15\n");
    assert_eq!(answered(&["quote", "1"], &narrow), b"15\n");
    assert_eq!(called(&["quote", "1", "--from", "wide"], &narrow).status, 1);
    assert_eq!(called(&["quote", "1", "--from", "narrow"], &wide).status, 1);
}

#[test]
fn what_no_narrow_sheet_has_is_told() {
    let sheet = Format::WIDE.sheet_of(1, &[(1, 257), (3, 257)]);
    let ended = called(&["convert", "--to", "narrow"], &sheet);
    let told = "plumanchor: refused 24: a size or a variable's number is above the narrow limits\n";
    assert_eq!((ended.status, ended.message.as_str()), (1, told));
}
