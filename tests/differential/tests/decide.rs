//! Decide, Split and Join against the independent reading: answers, counts and
//! every byte of the buffers, over budgets, stacks and buffers around each limit
//! and of any contents; and against truth by brute force and a solver from outside.

use differential::compare::{cases, hexadecimal, limit_sheets};
use differential::{Library, LIBRARIES};
use outside::formulas::{formula, lit};
use outside::generate::{self, damage, dirty, length_around, Family, Limits, Rng};
use outside::reference::*;
use outside::{depqbf, truth, with_deep_stack};
use DecideAnswer::{Ended, NoPlace, Spent};
use Quantifier::Exists;

/// A formula that has something to split: parities, clauses, or any.
fn any_formula(rng: &mut Rng, limits: Limits) -> Formula {
    match rng.below(3) {
        0 => generate::formula(rng, limits),
        1 => generate::alternating_formula(rng, Family::Parity, limits),
        _ => generate::alternating_formula(rng, Family::Clauses, limits),
    }
}

/// Decide on both in buffers of these lengths; answered, all are zeros, refused, as they were.
fn agree_in(
    rng: &mut Rng,
    library: &Library,
    sheet: &[u8],
    budget: usize,
    lengths: [usize; 3],
) -> DecideAnswer {
    let before = lengths.map(|length| dirty(rng, length));
    let outcome = library.agree_on_decide(sheet, budget, before.each_ref().map(|one| &one[..]));
    match outcome.answer {
        DecideAnswer::Refused(..) => assert!(outcome.buffers == before, "{}", hexadecimal(sheet)),
        _ => assert!(outcome.buffers.iter().flatten().all(|&byte| byte == 0)),
    }
    outcome.answer
}

#[test]
fn searches_in_little_room() {
    let (mut seen, mut several) = ([0; 4], 0);
    cases(8_000, |library, rng| {
        let format = library.reading.format;
        let given = any_formula(rng, Limits { variables: 7, ..Limits::small(format) });
        let whole = format.encode(&given);
        let sheet = if rng.one_in(6) { damage(rng, format, &whole) } else { whole };
        let room = match rng.below(8) {
            0 => rng.below(sheet.len() + 1),
            1 | 2 => sheet.len() + rng.below(sheet.len().max(1)),
            3 => sheet.len() + rng.below(12),
            _ => sheet.len(),
        };
        let (places, budget) = (rng.below(6), rng.pick(&[0, 1, 2, 3, 5, 20, 1_000, usize::MAX]));
        let stack = (places * room + rng.below(3)).saturating_sub(rng.below(2));
        let mut lengths = [room, room + rng.below(2), stack];
        if rng.one_in(2) {
            lengths.swap(0, 1);
        }
        seen[match agree_in(rng, library, &sheet, budget, lengths) {
            DecideAnswer::Refused(..) => 0,
            Spent { .. } => 1,
            NoPlace { .. } => 2,
            Ended { verdict, runs } => {
                let decided = format.parse(&sheet).expect("a good sheet");
                assert_eq!(verdict, truth::is_true(&decided), "{}", hexadecimal(&sheet));
                several += usize::from(runs > 3);
                3
            }
        }] += 1;
    });
    assert!(seen.iter().all(|&count| count > 500) && several > 50, "{seen:?} {several}");
}

/// Every budget up to what a search takes, and every number of places.
#[test]
fn every_budget_and_every_place() {
    let mut ended = 0;
    cases(150, |library, rng| {
        let format = library.reading.format;
        let given = any_formula(rng, Limits { variables: 6, ..Limits::small(format) });
        let sheet = format.encode(&given);
        let room = sheet.len();
        let enough = agree_in(rng, library, &sheet, 1 << 20, [room, room, 8 * room]);
        let Ended { runs, .. } = enough else {
            panic!("{enough:?} of {}", hexadecimal(&sheet));
        };
        for budget in 0..=runs + 1 {
            for places in 0..4 {
                let stack = (places * room).saturating_sub(rng.below(2));
                let lengths = [room, room, stack];
                let answer = agree_in(rng, library, &sheet, budget, lengths);
                ended += usize::from(matches!(answer, Ended { .. }));
            }
        }
    });
    assert!(ended > 500, "{ended}");
}

/// Larger sheets in the room of the program: as depqbf says, where both come to an end.
#[test]
fn larger_sheets_and_a_solver_from_outside() {
    let (mut compared, mut split) = (0, 0);
    cases(40, |library, rng| {
        let format = library.reading.format;
        let limits = Limits { format, variables: 40, nodes: 300 };
        let family = rng.pick(&[Family::Clauses, Family::Parity, Family::Tidy]);
        let given = generate::alternating_formula(rng, family, limits);
        let sheet = format.encode(&given);
        let room = rng.pick(&[sheet.len(), sheet.len() + 100, format.longest_sheet()]);
        let answer = agree_in(rng, library, &sheet, 60, [room, room, 40 * room]);
        if let (Ended { verdict, runs }, Some(said)) = (answer, depqbf::verdict(&given)) {
            assert_eq!(verdict, said, "{}", hexadecimal(&sheet));
            compared += 1;
            split += usize::from(runs > 1);
        }
    });
    assert!(compared > 10 && split > 3, "{compared} {split}");
}

#[test]
fn limit_sheets_are_decided() {
    with_deep_stack(|| {
        let mut rng = Rng::new(generate::run_seed());
        limit_sheets(|library, sheet| {
            let longest = library.reading.format.longest_sheet();
            for room in [sheet.len() - 1, sheet.len(), longest] {
                agree_in(&mut rng, library, sheet, 3, [room, room, 2 * room]);
            }
        });
    });
}

#[test]
fn splits_of_small_sheets() {
    let mut numbers = [0; 23];
    cases(15_000, |library, rng| {
        let format = library.reading.format;
        let given = generate::formula(rng, Limits { variables: 6, ..Limits::small(format) });
        let whole = format.encode(&given);
        let sheet = if rng.one_in(4) { damage(rng, format, &whole) } else { whole };
        let highest = if rng.one_in(8) { 256 } else { 2 };
        let values: Vec<u8> = (0..rng.below(8)).map(|_| rng.below(highest) as u8).collect();
        let left = given.prefix.len().saturating_sub(values.len());
        let exact = format.sheet_length(left, given.matrix.rows());
        let room = length_around(rng, format, exact);
        let before = dirty(rng, room);
        let outcome = library.agree_on_split(&sheet, &values, &before);
        if outcome.sheet().is_none() {
            assert!(outcome.output() == before, "{}", hexadecimal(&sheet));
        }
        numbers[outcome.answer.number()] += 1;
    });
    for number in [0, 1, 2, 3, 4, 5, 6, 7, 8, 13, 21, 22] {
        assert!(numbers[number] > 50, "{numbers:?}");
    }
}

#[test]
fn splits_at_the_limits() {
    with_deep_stack(|| {
        let mut rng = Rng::new(generate::run_seed());
        limit_sheets(|library, sheet| {
            let format = library.reading.format;
            let (v, n) = format.check(sheet).unwrap_or((0, 1));
            for count in [0, 1, v / 2, v, v + 1] {
                let values: Vec<u8> = (0..count).map(|_| rng.below(2) as u8).collect();
                let exact = format.sheet_length(v.saturating_sub(count), n);
                for room in [0, exact - 1, exact, exact + 1] {
                    let before = dirty(&mut rng, room);
                    library.agree_on_split(sheet, &values, &before);
                }
            }
        });
    });
}

#[test]
fn joins_of_any_answers() {
    let (mut known, mut numbers) = ([0; 3], [0; 30]);
    cases(20_000, |library, rng| {
        let format = library.reading.format;
        let given = generate::formula(rng, Limits { format, variables: 7, nodes: 6 });
        let whole = format.encode(&given);
        let sheet = if rng.one_in(6) { damage(rng, format, &whole) } else { whole };
        let k = rng.below(given.prefix.len() + 2);
        let count = match rng.below(10) {
            0 => rng.below(40),
            1 => (1_usize << k) - 1,
            2 => (1 << k) + 1,
            _ => 1 << k,
        };
        let (often, highest) = (rng.pick(&[2, 4, 100]), if rng.one_in(8) { 256 } else { 2 });
        let answer = |rng: &mut Rng| if rng.one_in(often) { 2 } else { rng.below(highest) as u8 };
        let answers: Vec<u8> = (0..count).map(|_| answer(rng)).collect();
        match library.agree_on_join(&sheet, k, &answers) {
            Answer::Accepted(verdict) => known[verdict.map_or(2, usize::from)] += 1,
            Answer::Refused(number, _) => numbers[usize::from(number)] += 1,
        }
    });
    assert!(known.iter().all(|&count| count > 1_000), "{known:?}");
    assert!([22, 28, 29].iter().all(|&number| numbers[number] > 500), "{numbers:?}");
}

/// As many rows as no list of answers is long enough for, and the longest that is tried.
#[test]
fn joins_of_many_rows() {
    for library in &LIBRARIES {
        let most = library.reading.format.most_variables;
        let rows: Vec<Binding> = (1..=most).map(|x| (Exists, x)).collect();
        let sheet = library.reading.format.encode(&formula(&rows, lit(1)));
        for k in [0, 1, 31, 32, 63, 64, 65, 128, most, most + 1, 1 << 32, usize::MAX] {
            for count in [0, 1, 2] {
                library.agree_on_join(&sheet, k, &vec![1; count]);
            }
        }
        let mut answers = vec![0; 1 << 16];
        assert_eq!(library.agree_on_join(&sheet, 16, &answers), Answer::Accepted(Some(false)));
        answers[54_321] = 2;
        assert_eq!(library.agree_on_join(&sheet, 16, &answers), Answer::Accepted(None));
        answers[12_345] = 1;
        assert_eq!(library.agree_on_join(&sheet, 16, &answers), Answer::Accepted(Some(true)));
    }
}

/// The sheets of Split, decided one by one and joined: as the sheet itself, if each is known.
#[test]
fn the_same_work_spread() {
    let mut verdicts = [0; 3];
    cases(1_000, |library, rng| {
        let format = library.reading.format;
        let given = any_formula(rng, Limits { variables: 6, ..Limits::small(format) });
        let sheet = format.encode(&given);
        let k = rng.below(given.prefix.len().min(4) + 1);
        let answers = (0..1_usize << k).map(|list| {
            if rng.one_in(8) {
                return 2;
            }
            let values: Vec<u8> = (0..k).map(|at| (list >> (k - 1 - at) & 1) as u8).collect();
            let outcome = library.agree_on_split(&sheet, &values, &dirty(rng, sheet.len()));
            let half = outcome.sheet().expect("no longer than the sheet");
            let room = half.len();
            match agree_in(rng, library, half, 20, [room, room, 4 * room]) {
                Ended { verdict, .. } => u8::from(verdict),
                _ => 2,
            }
        });
        let answers: Vec<u8> = answers.collect();
        let Answer::Accepted(joined) = library.agree_on_join(&sheet, k, &answers) else {
            panic!("as many answers as lists: {}", hexadecimal(&sheet));
        };
        if let Some(verdict) = joined {
            assert_eq!(verdict, truth::is_true(&given), "{}", hexadecimal(&sheet));
        }
        verdicts[joined.map_or(2, usize::from)] += 1;
    });
    assert!(verdicts.iter().all(|&count| count > 100), "{verdicts:?}");
}
