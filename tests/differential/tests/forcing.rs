//! Force against the independent reading, against every assignment tried, and
//! in whole plays. A disagreement prints the sheet in hexadecimal and both answers.

use differential::compare::{cases, hexadecimal};
use differential::force::Panel;
use differential::{Library, LIBRARIES};
use outside::generate::{self, Limits, Rng};
use outside::reference::*;
use outside::{truth, with_deep_stack};

/// Force on both, with equal buffers of any contents.
fn agree_in(
    rng: &mut Rng,
    library: &Library,
    sheet: &[u8],
    values: &[u8],
    rooms: (usize, usize),
) -> Panel {
    let before = [generate::dirty(rng, rooms.0), generate::dirty(rng, rooms.1)];
    let outcome = library.agree_on_force(sheet, values, [&before[0], &before[1]]);
    match outcome.answer {
        Answer::Refused(..) => assert!(outcome.buffers == before, "{}", hexadecimal(sheet)),
        Answer::Accepted(_) => {
            let clear = |buffer: &Vec<u8>| buffer.iter().all(|&byte| byte == 0);
            assert!(outcome.buffers.iter().all(clear), "{}", hexadecimal(sheet));
        }
    }
    outcome.answer
}

fn values_of(given: &[bool]) -> Vec<u8> {
    given.iter().map(|&value| u8::from(value)).collect()
}

/// Values for so many rows, now and then one that is none.
fn random_values(rng: &mut Rng, count: usize) -> Vec<u8> {
    let mut values: Vec<u8> = (0..count).map(|_| rng.between(0, 1) as u8).collect();
    if count > 0 && rng.between(0, 9) == 0 {
        values[rng.between(0, count - 1)] = rng.between(2, 255) as u8;
    }
    values
}

/// The truth of a formula whose first variables have values, by trying every
/// assignment of the others.
fn holds_under(formula: &Formula, given: &[bool]) -> bool {
    let mut assignment = vec![false; formula.highest_variable() + 1];
    for (&(_, x), &value) in formula.prefix.iter().zip(given) {
        assignment[x] = value;
    }
    fn turns(rest: &[Binding], matrix: &Node, assignment: &mut [bool]) -> bool {
        let Some((&(quantifier, x), rest)) = rest.split_first() else {
            return truth::holds(matrix, assignment);
        };
        let [with_zero, with_one] = [false, true].map(|value| {
            assignment[x] = value;
            turns(rest, matrix, assignment)
        });
        match quantifier {
            Quantifier::Exists => with_zero || with_one,
            Quantifier::ForAll => with_zero && with_one,
        }
    }
    turns(&formula.prefix[given.len()..], &formula.matrix, &mut assignment)
}

/// Every list of fewer values than there are rows.
fn beginnings(rows: usize) -> Vec<Vec<bool>> {
    let of = |count: usize| {
        (0..1u32 << count).map(move |bits| (0..count).map(|at| bits >> at & 1 == 1).collect())
    };
    (0..rows).flat_map(of).collect()
}

#[test]
fn every_beginning_of_values() {
    let mut outcomes = [0; 4];
    cases(1_500, |library, rng| {
        let format = library.reading.format;
        let variables = rng.between(1, 5);
        let formula = generate::formula(rng, Limits { format, variables, nodes: 40 });
        let sheet = format.encode(&formula);
        let room = format.longest_sheet();
        for given in beginnings(formula.prefix.len()) {
            let values = values_of(&given);
            let answer = agree_in(rng, library, &sheet, &values, (room, room));
            let Answer::Accepted((turn, forced)) = answer else {
                panic!("{answer:?}: {}", hexadecimal(&sheet));
            };
            assert_eq!(turn, formula.prefix[given.len()].0);
            for value in [false, true] {
                let wins = holds_under(&formula, &[&given[..], &[value]].concat()) == turn.wants();
                assert_eq!(forced.allows(value), wins, "{given:?} {}", hexadecimal(&sheet));
            }
            if given.is_empty() {
                // With no value given the panel says what the verdict says.
                let won = truth::is_true(&formula) == turn.wants();
                assert_eq!(forced != Forced::Neither, won, "{}", hexadecimal(&sheet));
            }
            outcomes[usize::from(forced.allows(false)) + 2 * usize::from(forced.allows(true))] += 1;
        }
    });
    assert!(outcomes.iter().all(|&count| count > 500), "{outcomes:?}");
}

#[test]
fn random_and_damaged_sheets() {
    let mut refused = [0; 23];
    cases(8_000, |library, rng| {
        let format = library.reading.format;
        let sheet = generate::sheet(rng, Limits::small(format));
        let damaged = generate::damage(rng, format, &sheet);
        let (v, _) = format.sizes(&sheet).expect("a sheet");
        for sheet in [sheet, damaged] {
            let rooms = (
                generate::length_around(rng, format, sheet.len()),
                generate::length_around(rng, format, 2 * sheet.len()),
            );
            let count = rng.between(0, v + 1);
            let values = random_values(rng, count);
            if let Answer::Refused(number, _) = agree_in(rng, library, &sheet, &values, rooms) {
                refused[usize::from(number)] += 1;
            }
        }
    });
    for number in [1, 2, 3, 4, 5, 6, 7, 8, 13, 21, 22] {
        assert!(refused[number] > 50, "{refused:?}");
    }
}

/// 21 comes before 22 and 22 before 13, whatever the buffers.
#[test]
fn refusals_in_their_order() {
    cases(300, |library, rng| {
        let format = library.reading.format;
        let formula = generate::formula(rng, Limits::small(format));
        let sheet = format.encode(&formula);
        let v = formula.prefix.len();
        let short = sheet.len() - 1;
        let mut answer = |values: &[u8], rooms| agree_in(rng, library, &sheet, values, rooms);
        assert_eq!(answer(&[vec![2], vec![0; v]].concat(), (short, 0)), Answer::Refused(21, 0));
        assert_eq!(answer(&vec![1; v], (short, 0)), Answer::Refused(22, 0));
        assert_eq!(answer(&vec![1; v + 3], (9_999, 9_999)), Answer::Refused(22, 0));
        if v > 0 {
            let values = vec![0; v - 1];
            assert_eq!(answer(&values, (short, 9_999)), Answer::Refused(13, 0));
            assert_eq!(answer(&values, (9_999, short)), Answer::Refused(13, 0));
            let fits = answer(&values, (sheet.len(), sheet.len()));
            assert!(matches!(fits, Answer::Accepted(_)), "{fits:?}");
        }
    });
}

/// Buffers in which a run stops, so that the outcome names the variable of
/// value 0's run, or of value 1's if that one alone stops.
#[test]
fn runs_that_stop() {
    let mut stopped = 0;
    cases(2_500, |library, rng| {
        let format = library.reading.format;
        let limits = Limits { format, variables: 8, nodes: 60 };
        let formula = generate::formula(rng, limits);
        let sheet = format.encode(&formula);
        if formula.prefix.is_empty() {
            return;
        }
        let count = rng.between(0, formula.prefix.len() - 1);
        let values: Vec<u8> = (0..count).map(|_| rng.between(0, 1) as u8).collect();
        let rooms = (sheet.len(), sheet.len() + rng.between(0, 20));
        let answer = agree_in(rng, library, &sheet, &values, rooms);
        stopped += u32::from(matches!(answer, Answer::Accepted((_, Forced::Stopped(_)))));
    });
    assert!(stopped > 100, "{stopped}");
}

/// One side follows the panel and the other plays anything. From a true sheet
/// exists reaches a true leaf, from a false one for all a false leaf.
#[test]
fn plays_by_the_panel_are_won() {
    let mut verdicts = [0; 2];
    cases(1_500, |library, rng| {
        let format = library.reading.format;
        let variables = rng.between(1, 7);
        let formula = generate::formula(rng, Limits { format, variables, nodes: 60 });
        let sheet = format.encode(&formula);
        let verdict = truth::is_true(&formula);
        let room = format.longest_sheet();
        let mut given = Vec::new();
        while given.len() < formula.prefix.len() {
            let answer = agree_in(rng, library, &sheet, &values_of(&given), (room, room));
            let Answer::Accepted((turn, forced)) = answer else {
                panic!("{answer:?}: {}", hexadecimal(&sheet));
            };
            let mut value = rng.between(0, 1) == 1;
            if turn.wants() == verdict && !forced.allows(value) {
                value = !value;
                assert!(forced.allows(value), "{given:?} {}", hexadecimal(&sheet));
            }
            given.push(value);
        }
        assert_eq!(holds_under(&formula, &given), verdict, "{given:?} {}", hexadecimal(&sheet));
        verdicts[usize::from(verdict)] += 1;
    });
    assert!(verdicts.iter().all(|&count| count > 500), "{verdicts:?}");
}

#[test]
fn largest_sheets() {
    with_deep_stack(|| {
        let mut rng = Rng::new(generate::run_seed());
        for library in &LIBRARIES {
            let format = library.reading.format;
            let room = format.longest_sheet();
            for limit in generate::limit_sheets(format) {
                // A refused sheet may claim billions of variables.
                let v = format.check(&limit.sheet).map_or(0, |(v, _)| v);
                for count in [0, v.saturating_sub(1), v] {
                    let values: Vec<u8> = (0..count).map(|at| (at % 2) as u8).collect();
                    agree_in(&mut rng, library, &limit.sheet, &values, (room, room));
                }
            }
        }
    });
}
