//! A stopped run carried over: stopped runs of both formats, at many buffer
//! lengths, go on as one wide run from the first sheet on; any other states, with
//! counts up to the largest; refusals around every limit.

use differential::compare::{agree_on_resume, hexadecimal};
use differential::{Library, NARROW, WIDE};
use outside::generate::{self, cases, damage, Limits, Rng};
use outside::reference::{Counts, Format, SolveAnswer};
use outside::with_deep_stack;

/// A run that stopped: its counts and the sheet reached.
struct Stop {
    counts: Counts,
    reached: Vec<u8>,
}

/// Solve's stop, in buffers of which the shorter has `room` bytes.
fn stop(rng: &mut Rng, library: &Library, sheet: &[u8], room: usize) -> Option<Stop> {
    let format = library.reading.format;
    let rooms = if rng.one_in(2) { (room, room + rng.below(50)) } else { (room + 9, room) };
    let (mut first, mut second) = (generate::dirty(rng, rooms.0), generate::dirty(rng, rooms.1));
    let SolveAnswer::Stopped { settled, expanded, .. } =
        library.solve(sheet, &mut first, &mut second)
    else {
        return None;
    };
    let (started, _) = format.sizes(sheet).expect("a good sheet");
    let (left, nodes) = format.sizes(&first).expect("the sheet reached");
    first.truncate(format.sheet_length(left, nodes));
    Some(Stop { counts: Counts { started, settled, expanded }, reached: first })
}

/// In buffers twice as long as the shorter one was, at least, all is as in one
/// wide run from the first sheet on. Says whether the run made a further step.
fn goes_on(rng: &mut Rng, library: &Library, sheet: &[u8], room: usize) -> Option<bool> {
    let narrow = library.reading.format == Format::NARROW;
    let Stop { counts, reached } = stop(rng, library, sheet, room)?;
    let rooms = (2 * room + rng.below(2) * rng.below(3000), 2 * room + rng.below(2));
    let before = [generate::dirty(rng, rooms.0), generate::dirty(rng, rooms.1)];
    let resumed = agree_on_resume(counts, &reached, narrow, [&before[0], &before[1]]);
    let formula = library.reading.format.parse(sheet).expect("a good sheet");
    let whole = WIDE.agree_on_solve(&Format::WIDE.encode(&formula), [&before[0], &before[1]]);
    assert!(resumed == whole, "{:?} {:?}: {}", resumed.answer, whole.answer, hexadecimal(sheet));
    Some(resumed.answer.counts() != Some((counts.settled, counts.expanded)))
}

#[test]
fn stopped_runs_go_on() {
    let (mut stops, mut further) = (0, 0);
    for library in [&NARROW, &WIDE] {
        let format = library.reading.format;
        cases(6_000, |rng| {
            let sheet = generate::sheet(rng, Limits { format, variables: 8, nodes: 40 });
            for room in [sheet.len(), sheet.len() + rng.below(80)] {
                if let Some(on) = goes_on(rng, library, &sheet, room) {
                    stops += 1;
                    further += u32::from(on);
                }
            }
        });
    }
    assert!(stops > 1000 && further > 300, "{stops} {further}");
    with_deep_stack(|| {
        cases(40, |rng| {
            let sheet = generate::sheet(rng, Limits::full(Format::NARROW));
            let room = sheet.len() + rng.below(200);
            goes_on(rng, &NARROW, &sheet, room);
        });
    });
}

/// Counts that add up with `left`, or nearly, or any.
fn counts(rng: &mut Rng, left: usize) -> Counts {
    let any = |rng: &mut Rng| match rng.below(4) {
        0 => rng.below(5),
        1 => usize::MAX - rng.below(3),
        2 => 65_536 + rng.below(70_000),
        _ => rng.word() as usize,
    };
    let (settled, expanded) = (any(rng), any(rng));
    let sum = settled.wrapping_add(expanded).wrapping_add(left);
    match rng.below(4) {
        0 => Counts { started: any(rng), settled, expanded },
        1 => Counts { started: sum.wrapping_add(1), settled, expanded },
        2 => Counts { started: sum, settled, expanded },
        _ => {
            let (settled, expanded) = (rng.below(100_000), rng.below(100_000));
            Counts { started: settled + expanded + left, settled, expanded }
        }
    }
}

#[test]
fn any_other_state_and_every_refusal() {
    let mut seen = [0; 26];
    for format in [Format::NARROW, Format::WIDE] {
        cases(15_000, |rng| {
            let whole = generate::sheet(rng, Limits::small(format));
            let sheet = if rng.one_in(3) { damage(rng, format, &whole) } else { whole };
            let (left, nodes) = format.sizes(&sheet).unwrap_or((0, 0));
            let needed = Format::WIDE.sheet_length(left.min(2000), nodes.min(9000));
            let rooms = [0; 2].map(|_| generate::length_around(rng, Format::WIDE, needed));
            let before = rooms.map(|room| generate::dirty(rng, room));
            let counts = counts(rng, left);
            let narrow = (format == Format::NARROW) != rng.one_in(20);
            let outcome = agree_on_resume(counts, &sheet, narrow, [&before[0], &before[1]]);
            seen[match outcome.answer {
                SolveAnswer::Refused(number, _) => usize::from(number),
                _ => 0,
            }] += 1;
        });
    }
    for number in [0, 1, 2, 3, 4, 5, 6, 7, 8, 13, 25] {
        assert!(seen[number] > 100, "{seen:?}");
    }
}
