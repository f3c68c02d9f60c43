//! Check, Trial and Part against the independent reading: answer for answer,
//! place for place. A disagreement prints the sheet in hexadecimal.

use differential::compare::{cases, limit_sheets};
use differential::Library;
use outside::generate::{self, Limits, Rng};
use outside::reference::Format;
use outside::with_deep_stack;

/// Part at every node of a small sheet, and around both ends of a large one.
fn agree_on_part(library: &Library, sheet: &[u8]) {
    let nodes = library.reading.format.check(sheet).map_or(0, |(_, nodes)| nodes);
    let small = 0..nodes.min(60);
    let around_the_end = nodes.saturating_sub(3)..nodes + 3;
    for node in small.chain(around_the_end).chain([65_536, usize::MAX]) {
        library.agree_on_part(sheet, node);
    }
}

/// Bytes that are a sheet only by chance.
fn noise(rng: &mut Rng, format: Format) -> Vec<u8> {
    let length = rng.below(40);
    let bytes = generate::dirty(rng, length);
    // Small sizes and the right length, so that the rows are reached.
    let rows = bytes.len().saturating_sub(format.header()) / format.bytes_to_a_row();
    if rows == 0 || !rng.one_in(2) {
        return bytes;
    }
    let variables = rng.below(rows);
    let mut sheet = Vec::new();
    format.push_number(variables, &mut sheet);
    format.push_number(rows - variables, &mut sheet);
    let (kinds, arguments) = bytes[format.header()..format.sheet_length(0, rows)].split_at(rows);
    sheet.extend(kinds.iter().map(|kind| kind % 8));
    sheet.extend(arguments);
    sheet
}

#[test]
fn check_on_a_million_byte_strings() {
    cases(200_000, |library, rng| {
        let format = library.reading.format;
        let _ = library.agree_on_check(&noise(rng, format));
        let sheet = generate::sheet(rng, Limits::small(format));
        let _ = library.agree_on_check(&sheet);
        for _ in 0..3 {
            let _ = library.agree_on_check(&generate::damage(rng, format, &sheet));
        }
    });
}

#[test]
fn sheets_at_and_past_the_limits() {
    with_deep_stack(|| {
        limit_sheets(|library, sheet| {
            let few = library.agree_on_check(sheet).map_or(true, |(v, _)| v < 2);
            agree_on_part(library, sheet);
            if few {
                library.agree_on_trial(sheet);
            }
        });
    });
}

#[test]
fn full_size_sheets() {
    with_deep_stack(|| {
        cases(300, |library, rng| {
            let format = library.reading.format;
            let sheet = generate::sheet(rng, Limits::full(format));
            let damaged = generate::damage(rng, format, &sheet);
            for sheet in [sheet, damaged] {
                let _ = library.agree_on_check(&sheet);
                agree_on_part(library, &sheet);
            }
        });
    });
}

#[test]
fn trial_and_part_on_thousands_of_sheets() {
    cases(20_000, |library, rng| {
        let format = library.reading.format;
        let sheet = generate::sheet(rng, Limits::small(format));
        let damaged = generate::damage(rng, format, &sheet);
        for sheet in [sheet, damaged] {
            library.agree_on_trial(&sheet);
            agree_on_part(library, &sheet);
        }
    });
}
