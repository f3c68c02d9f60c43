//! A whole list of steps (N2) against the independent reading and against the
//! single calls one after another: every answer, every record and every byte of
//! both buffers, over dirty arrays and buffers.

use differential::compare::hexadecimal;
use differential::steps::{follow, Records};
use differential::NARROW;
use outside::generate::{self, Call, Limits, Rng};
use outside::reference::{Answer, Formula, Operation, Reading, Step};
use outside::with_deep_stack;

const READINGS: [Reading; 2] = [Reading::NARROW, Reading::WIDE];

fn cases(count: u64, mut test: impl FnMut(&Reading, &mut Rng)) {
    for reading in &READINGS {
        generate::cases(count, |rng| test(reading, rng));
    }
}

/// A settle or expand call, likely accepted on `formula`.
fn step(rng: &mut Rng, reading: &Reading, formula: &Formula) -> (Operation, usize) {
    let Call { operation, variable, .. } = generate::call(rng, reading, formula);
    match operation {
        Operation::Settle => (Operation::Settle, variable),
        _ => (Operation::Expand, variable),
    }
}

/// Dirty arrays for `count` steps, each chosen by the sheet that the steps
/// before it leave in outputs of `room` bytes.
fn records(rng: &mut Rng, reading: &Reading, sheet: &[u8], count: usize, room: usize) -> Records {
    let mut held = sheet.to_vec();
    let mut records =
        Records { operations: vec![], variables: vec![], numbers: vec![], values: vec![] };
    for _ in 0..count {
        let formula = reading.format.parse(&held);
        let (operation, variable) = match &formula {
            Ok(formula) => step(rng, reading, formula),
            Err(_) => (Operation::Settle, rng.below(300)),
        };
        let settles = operation == Operation::Settle;
        records.operations.push(if settles { 0 } else { rng.between(1, 255) as u8 });
        records.variables.push(variable);
        let mut output = vec![0; room];
        if let Answer::Accepted(length) = reading.step(operation, &held, variable, &mut output) {
            held = output[..length].to_vec();
        }
    }
    let longer = |rng: &mut Rng| if rng.one_in(2) { 0 } else { rng.below(3) };
    let (more, other) = (longer(rng), longer(rng));
    records.operations.extend((0..longer(rng)).map(|_| 1));
    records.variables.extend(0..longer(rng));
    records.numbers = (0..count + more).map(|_| rng.word() as usize).collect();
    records.values = (0..count + other).map(|_| rng.word() as usize).collect();
    records
}

/// Two dirty buffers, the shorter of `room` bytes.
fn buffers(rng: &mut Rng, room: usize) -> [Vec<u8>; 2] {
    let other = room + if rng.one_in(3) { 0 } else { rng.below(50) };
    let both = [generate::dirty(rng, room), generate::dirty(rng, other)];
    let [short, long] = both;
    if rng.one_in(2) {
        [short, long]
    } else {
        [long, short]
    }
}

/// One list on the proved operations and on the reading, with equal arrays and
/// buffers before it; answers with the filled records.
fn agree(
    rng: &mut Rng,
    reading: &Reading,
    sheet: &[u8],
    count: usize,
    room: usize,
) -> (Answer<usize>, Vec<Step>) {
    let before = records(rng, reading, sheet, count, room);
    let [mut first, mut second] = buffers(rng, room);
    let [mut their_first, mut their_second] = [first.clone(), second.clone()];
    let singles = (reading.format == NARROW.reading.format)
        .then(|| by_single_calls(rng, sheet, &before.steps(), room));

    let mut mine = before.clone();
    let answer = follow(reading.format, sheet, &mut mine, &mut first, &mut second);
    let mut theirs = before.clone();
    let mut steps = before.steps();
    let expected = reading.steps(sheet, &mut steps, &mut their_first, &mut their_second);
    if expected.accepted().is_some() {
        theirs.write(&steps);
        if let Some(singles) = singles {
            assert_eq!(steps, singles, "the single calls on {}", hexadecimal(sheet));
        }
    }
    let told = || format!("{before:?} on {}", hexadecimal(sheet));
    assert_eq!(answer, expected, "{}", told());
    assert_eq!(mine, theirs, "{}", told());
    assert!(first == their_first && second == their_second, "{}", told());
    (answer, if answer.accepted().is_some() { steps } else { vec![] })
}

/// The records by the proved single calls, each with a dirty output.
fn by_single_calls(rng: &mut Rng, sheet: &[u8], steps: &[Step], room: usize) -> Vec<Step> {
    let mut held = sheet.to_vec();
    let mut filled = steps.to_vec();
    for step in &mut filled {
        let mut output = generate::dirty(rng, room);
        step.answer = NARROW.step(step.operation, &held, step.variable, &mut output);
        if let Answer::Accepted(length) = step.answer {
            held = output[..length].to_vec();
        }
    }
    filled
}

/// Room around the sheet's length or around what a call needs.
fn room(rng: &mut Rng, reading: &Reading, formula: &Formula, sheet: &[u8]) -> usize {
    let (operation, x) = step(rng, reading, formula);
    let needed = reading.format.least_output(operation, formula, x);
    let exact = rng.pick(&[sheet.len(), needed, needed.max(sheet.len())]);
    generate::length_around(rng, reading.format, exact)
}

#[test]
fn lists_of_steps_on_small_sheets() {
    let mut answers = [0; 20];
    let mut wholes = [0; 20];
    let mut lengths = [0; 61];
    cases(2_500, |reading, rng| {
        let formula = generate::tidy_formula(rng, Limits::small(reading.format));
        let sheet = reading.format.encode(&formula);
        let (count, room) = (rng.below(61), room(rng, reading, &formula, &sheet));
        let (answer, steps) = agree(rng, reading, &sheet, count, room);
        wholes[answer.number()] += 1;
        lengths[count] += 1;
        steps.iter().for_each(|step| answers[step.answer.number()] += 1);
    });
    for number in [0, 10, 11, 12, 13] {
        assert!(answers[number] > 1_000, "{answers:?}");
    }
    assert!(wholes[0] > 2_000 && wholes[13] > 200, "{wholes:?}");
    assert!(lengths.iter().all(|&count| count > 5), "{lengths:?}");
}

/// A sheet that isn't tidy is taken, and each record says 9; a damaged one is
/// refused, and nothing changes.
#[test]
fn lists_of_steps_on_untidy_and_damaged_sheets() {
    let mut seen = [0; 20];
    let mut untidy = 0;
    cases(3_000, |reading, rng| {
        let formula = generate::formula(rng, Limits::small(reading.format));
        let sheet = reading.format.encode(&formula);
        let (count, wide) = (rng.below(12), room(rng, reading, &formula, &sheet));
        let (_, steps) = agree(rng, reading, &sheet, count, wide);
        let nines = steps.iter().filter(|step| step.answer.number() == 9).count();
        assert!(nines == 0 || nines == steps.len(), "{steps:?}");
        untidy += usize::from(nines > 1);
        let damaged = generate::damage(rng, reading.format, &sheet);
        let (answer, _) = agree(rng, reading, &damaged, count, wide);
        seen[answer.number()] += 1;
    });
    assert!(untidy > 400, "{untidy}");
    for number in 1..=8 {
        assert!(seen[number] > 8, "{seen:?}");
    }
}

/// Every length from 0 to past all that a step can ask for.
#[test]
fn lists_of_steps_over_every_length() {
    cases(25, |reading, rng| {
        let formula = generate::tidy_formula(rng, Limits::small(reading.format));
        let sheet = reading.format.encode(&formula);
        for room in 0..sheet.len() * 2 + 20 {
            agree(rng, reading, &sheet, 8, room);
        }
    });
}

/// Lists around one, two and three times the records that the code lends to its
/// walk at once.
#[test]
fn lists_of_steps_in_parts() {
    const PART: usize = 64;
    let mut answers = [[0; 20]; 3];
    cases(150, |reading, rng| {
        let formula = generate::tidy_formula(rng, Limits::small(reading.format));
        let sheet = reading.format.encode(&formula);
        let wide = sheet.len() * 2 + rng.below(400);
        let count = rng.between(1, 3) * PART + rng.below(5) - 2;
        let (_, steps) = agree(rng, reading, &sheet, count, wide);
        for (i, step) in steps.iter().enumerate() {
            answers[(i / PART).min(2)][step.answer.number()] += 1;
        }
    });
    for part in answers {
        assert!(part.iter().sum::<usize>() > 500, "{answers:?}");
    }
    // Small sheets soon have no variable left: what is accepted behind the
    // first part is tested on larger ones.
    assert!(answers[0][0] > 300, "{answers:?}");
}

/// Accepted steps on both sides of every part's end: the sheet held is handed on.
#[test]
fn steps_on_full_sheets_in_parts() {
    with_deep_stack(|| {
        let mut accepted = [0; 3];
        cases(4, |reading, rng| {
            let formula = generate::tidy_formula(rng, Limits::full(reading.format));
            let sheet = reading.format.encode(&formula);
            let (_, steps) = agree(rng, reading, &sheet, 150, reading.format.longest_sheet());
            for (i, step) in steps.iter().enumerate() {
                accepted[i / 64] += usize::from(step.answer.number() == 0);
            }
        });
        assert!(accepted.iter().all(|&count| count > 20), "{accepted:?}");
    });
}

#[test]
fn fifty_steps_on_full_sheets() {
    with_deep_stack(|| {
        let mut accepted = 0;
        cases(6, |reading, rng| {
            let formula = generate::tidy_formula(rng, Limits::full(reading.format));
            let sheet = reading.format.encode(&formula);
            let (_, steps) = agree(rng, reading, &sheet, 50, reading.format.longest_sheet());
            accepted += steps.iter().filter(|step| step.answer.number() == 0).count();
        });
        assert!(accepted > 50, "{accepted}");
    });
}
