//! Decide, Split and Join as the independent reading has them: by hand, against
//! truth by brute force, against the search made of single calls, and against a
//! solver from outside.

use outside::depqbf;
use outside::examples::examples;
use outside::formulas::{and, clause, cube, formula, lit, or};
use outside::generate::{self, cases, dirty, length_around, Family, Limits, Rng};
use outside::literature::LITERATURE;
use outside::reference::*;
use outside::truth;
use DecideAnswer::{Ended, NoPlace, Spent};
use Quantifier::{Exists, ForAll};

const READINGS: [Reading; 2] = [Reading::NARROW, Reading::WIDE];

/// Exists 1, for all 2, .. and so on alternately: the parity of all is odd, in
/// all its cubes. The last variable decides, and nothing settles before.
fn odd(variables: usize) -> Formula {
    let row = |var: usize| (if var % 2 == 1 { Exists } else { ForAll }, var);
    let prefix: Vec<Binding> = (1..=variables).map(row).collect();
    let cubes = (0..1_u32 << variables).filter(|bits| bits.count_ones() % 2 == 1);
    let signed = |bits: u32, var: usize| {
        let var = var as i32;
        if bits >> (var - 1) & 1 == 1 {
            var
        } else {
            -var
        }
    };
    let cube_of = |bits| cube(&(1..=variables).map(|var| signed(bits, var)).collect::<Vec<_>>());
    formula(&prefix, or(cubes.map(cube_of).collect()))
}

#[test]
fn by_hand() {
    for reading in READINGS {
        // Without room no expansion fits, and what is left of one variable settles. 1 is split,
        // its half 2 twice, and true for value 0 is enough for 1.
        let decide = |places, budget| reading.decide_formula(&odd(3), 0, places, budget);
        assert_eq!(decide(2, 100), Ended { verdict: true, runs: 4 });
        assert_eq!(decide(2, 4), Ended { verdict: true, runs: 4 });
        assert_eq!(decide(2, 3), Spent { runs: 3 });
        assert_eq!(decide(2, 0), Spent { runs: 0 });
        assert_eq!(decide(0, 100), NoPlace { runs: 1 });
        assert_eq!(decide(1, 100), NoPlace { runs: 2 });
        assert_eq!(decide(1, 2), NoPlace { runs: 2 });
        assert_eq!(decide(1, 1), Spent { runs: 1 });
        // Neither value of 1 is one for both of 2.
        let two = |places| reading.decide_formula(&odd(2), 0, places, 100);
        assert_eq!(two(1), Ended { verdict: false, runs: 3 });
        assert_eq!(two(0), NoPlace { runs: 1 });
        // With room for the expansion Solve alone decides.
        let room = reading.format.longest_sheet();
        let solved = reading.decide_formula(&odd(3), room, 0, 1);
        assert_eq!(solved, Ended { verdict: true, runs: 1 });
    }
}

/// What the proofs of `Decide/Examples.antt` compute from the definitions, where
/// nothing fits.
#[test]
fn as_computed_in_the_definitions() {
    let clauses = || and(vec![clause(&[1, 2]), clause(&[-1, 2]), clause(&[-1, -2])]);
    let of_two = |quantifier| formula(&[(quantifier, 1), (Exists, 2)], clauses());
    let rows = [(Exists, 3), (Exists, 1), (Exists, 2)];
    let settled_first = formula(&rows, and(vec![lit(3), clauses()]));
    for (given, places, budget, answer) in [
        (of_two(Exists), 1, 2, Ended { verdict: true, runs: 2 }),
        (of_two(ForAll), 1, 3, Ended { verdict: false, runs: 3 }),
        (settled_first, 1, 2, Ended { verdict: true, runs: 2 }),
        (of_two(Exists), 0, 2, NoPlace { runs: 1 }),
        (of_two(Exists), 1, 1, Spent { runs: 1 }),
    ] {
        let decided = Reading::NARROW.decide_formula(&given, 0, places, budget);
        assert_eq!(decided, answer, "{given:?}");
    }
}

/// Solve stops at the crowded example, whose valve is in every guard.
#[test]
fn the_crowded_example() {
    let reading = Reading::WIDE;
    let crowded = examples().into_iter().find(|example| example.name == "crowded").unwrap();
    let room = reading.format.longest_sheet();
    let decide = |places: usize| {
        let (mut first, mut second, mut stack) =
            (vec![1; room], vec![1; room], vec![1; places * room]);
        reading.decide(&crowded.sheet, 100, &mut first, &mut second, &mut stack)
    };
    assert_eq!(decide(0), NoPlace { runs: 1 });
    assert_eq!(decide(1), NoPlace { runs: 2 });
    assert_eq!(decide(2), Ended { verdict: false, runs: 3 });
    assert_eq!(decide(12), decide(2));
    assert_eq!(depqbf::verdict(&reading.format.parse(&crowded.sheet).unwrap()), Some(false));
}

/// A formula that has something to split: parities, clauses, or any.
fn any_formula(rng: &mut Rng, limits: Limits) -> Formula {
    match rng.below(3) {
        0 => generate::formula(rng, limits),
        1 => generate::alternating_formula(rng, Family::Parity, limits),
        _ => generate::alternating_formula(rng, Family::Clauses, limits),
    }
}

/// Room in which many runs stop: for the sheet itself, and little more or none.
fn tight_room(rng: &mut Rng, sheet: &[u8]) -> usize {
    match rng.below(3) {
        0 => sheet.len(),
        1 => sheet.len() + rng.below(12),
        _ => sheet.len() + rng.below(sheet.len().max(1)),
    }
}

#[test]
fn verdicts_runs_and_bounds() {
    let (mut verdicts, mut several, mut early, mut stops) = ([0; 2], 0, 0, [0; 2]);
    for reading in READINGS {
        cases(6_000, |rng| {
            let limits = Limits { variables: 7, ..Limits::small(reading.format) };
            let given = any_formula(rng, limits);
            let sheet = reading.format.encode(&given);
            let room = match rng.below(3) {
                0 => tight_room(rng, &sheet),
                _ => rng.below(sheet.len()),
            };
            let variables = given.prefix.len();
            let (truth, power) = (truth::is_true(&given), 1 << variables);
            // As many places as variables but one and 2 to the variables runs always decide.
            let enough = variables.saturating_sub(1);
            let decided = reading.decide_formula(&given, room, enough, power);
            let Ended { verdict, runs } = decided else {
                panic!("{decided:?} of {given:?} in {room}");
            };
            assert_eq!(verdict, truth, "{given:?} in {room}");
            assert!((1..=power).contains(&runs));
            // More changes nothing, and less is a verdict with the same runs or none.
            let more = (enough + rng.below(9), power + rng.below(99));
            assert_eq!(reading.decide_formula(&given, room, more.0, more.1), decided);
            assert_eq!(reading.decide_formula(&given, room, enough, runs), decided);
            assert_eq!(
                reading.decide_formula(&given, room, enough, runs - 1),
                Spent { runs: runs - 1 }
            );
            let (places, budget) = (rng.below(enough + 1), rng.below(runs + 2));
            match reading.decide_formula(&given, room, places, budget) {
                Spent { runs: used } => {
                    assert_eq!(used, budget);
                    stops[0] += 1;
                }
                NoPlace { runs: used } => {
                    assert!(used <= budget && used > 0);
                    stops[1] += 1;
                }
                other => assert_eq!(other, decided),
            }
            // Where Solve ends there is one run.
            if room >= sheet.len() {
                let solved = reading.solve(&sheet, &mut vec![0; room], &mut vec![0; room]);
                let ended = matches!(solved, SolveAnswer::Ended { .. });
                assert_eq!(runs == 1, ended, "{given:?} in {room}");
                assert_eq!(reading.decide_formula(&given, room, 0, 1) == decided, ended);
            }
            verdicts[usize::from(verdict)] += 1;
            several += usize::from(runs > 3);
            early += usize::from(runs > 1 && runs % 2 == 0);
        });
    }
    assert!(verdicts.iter().all(|&count| count > 2_000), "{verdicts:?}");
    assert!(several > 200 && early > 200, "{several} {early}");
    assert!(stops.iter().all(|&count| count > 100), "{stops:?}");
}

/// The search made of calls on bytes: Solve, and Split of what it reached.
fn by_calls(reading: Reading, sheet: &[u8], room: usize, places: usize) -> (Option<bool>, usize) {
    let (mut first, mut second) = (vec![0; room], vec![0; room]);
    match reading.solve(sheet, &mut first, &mut second) {
        SolveAnswer::Ended { verdict, .. } => (Some(verdict), 1),
        SolveAnswer::Refused(number, _) => panic!("refused with {number}"),
        SolveAnswer::Stopped { .. } if places == 0 => (None, 1),
        SolveAnswer::Stopped { .. } => {
            let reached = reading.format.front(&first).to_vec();
            let half = |value: u8| {
                let mut output = vec![0xa5; room];
                let length = reading.split(&reached, &[value], &mut output).accepted();
                output.truncate(length.expect("a half is no longer"));
                by_calls(reading, &output, room, places - 1)
            };
            let stops_at = reading.format.parse(&reached).unwrap().prefix[0].0 == Exists;
            let (zero, runs) = half(0);
            if zero.is_none() || zero == Some(stops_at) {
                return (zero, 1 + runs);
            }
            let (one, more) = half(1);
            (one, 1 + runs + more)
        }
    }
}

#[test]
fn decide_is_its_single_calls() {
    let mut seen = [0; 4];
    for reading in READINGS {
        let format = reading.format;
        cases(8_000, |rng| {
            let limits = Limits { variables: 6, ..Limits::small(format) };
            let whole = format.encode(&any_formula(rng, limits));
            let sheet = if rng.one_in(6) { generate::damage(rng, format, &whole) } else { whole };
            let room =
                if rng.one_in(6) { rng.below(sheet.len() + 1) } else { tight_room(rng, &sheet) };
            let (wanted, budget) = (rng.below(5), rng.pick(&[0, 1, 2, 5, 20, 1_000]));
            let stack = (wanted * room + rng.below(3)).saturating_sub(rng.below(2));
            let lengths = [room, room + rng.below(2), stack];
            let before = lengths.map(|length| dirty(rng, length));
            let [mut first, mut second, mut waiting] = before.clone();
            let answer = reading.decide(&sheet, budget, &mut first, &mut second, &mut waiting);
            let refusal = match format.check(&sheet) {
                Err(refusal) => Some(refusal),
                Ok(_) if room < sheet.len() => Some((13, 0)),
                Ok(_) => None,
            };
            let after = [first, second, waiting];
            if let Some((number, place)) = refusal {
                assert_eq!(answer, DecideAnswer::Refused(number, place));
                assert_eq!(after, before);
                seen[0] += 1;
                return;
            }
            assert!(after.iter().flatten().all(|&byte| byte == 0));
            let places = (0..=wanted + 1).rev().find(|places| places * room <= stack);
            let (verdict, runs) = by_calls(reading, &sheet, room, places.expect("0 at least"));
            let (expected, at) = match verdict {
                _ if runs > budget => (Spent { runs: budget }, 1),
                None => (NoPlace { runs }, 2),
                Some(verdict) => (Ended { verdict, runs }, 3),
            };
            assert_eq!(answer, expected);
            seen[at] += 1;
        });
    }
    assert!(seen.iter().all(|&count| count > 500), "{seen:?}");
}

#[test]
fn split_puts_values_in() {
    let mut numbers = [0; 23];
    for reading in READINGS {
        let format = reading.format;
        cases(8_000, |rng| {
            let given = generate::formula(rng, Limits { variables: 6, ..Limits::small(format) });
            let whole = format.encode(&given);
            let sheet = if rng.one_in(6) { generate::damage(rng, format, &whole) } else { whole };
            let highest = if rng.one_in(8) { 3 } else { 2 };
            let values: Vec<u8> = (0..rng.below(8)).map(|_| rng.below(highest) as u8).collect();
            let left = given.prefix.len().saturating_sub(values.len());
            let exact = format.sheet_length(left, given.matrix.rows());
            let room = length_around(rng, format, exact);
            let before = dirty(rng, room);
            let mut output = before.clone();
            let answer = reading.split(&sheet, &values, &mut output);
            let expected = match format.parse(&sheet) {
                Err((number, _)) => number.into(),
                Ok(_) if values.contains(&2) => 21,
                Ok(formula) if formula.prefix.len() < values.len() => 22,
                Ok(formula) => {
                    let rest = formula.prefix.len() - values.len();
                    let least = format.sheet_length(rest, formula.matrix.rows());
                    if room < least {
                        13
                    } else {
                        0
                    }
                }
            };
            assert_eq!(answer.number(), expected);
            numbers[expected] += 1;
            let Some(length) = answer.accepted() else {
                assert_eq!(output, before);
                return;
            };
            assert!(output[length..].iter().all(|&byte| byte == 0));
            let formula = format.parse(&sheet).unwrap();
            let half = format.parse(&output[..length]).expect("a good sheet");
            assert_eq!(half.prefix, formula.prefix[values.len()..]);
            assert_eq!(half.matrix.rows(), formula.matrix.rows(), "it isn't tidied");
            // The part of the table that has these values.
            let table = truth::table(&formula);
            let part = table.len() >> values.len();
            let at = values.iter().fold(0, |at, &value| 2 * at + usize::from(value));
            assert_eq!(truth::table(&half), table[part * at..part * (at + 1)]);
        });
    }
    for number in [0, 13, 21, 22] {
        assert!(numbers[number] > 400, "{numbers:?}");
    }
}

/// What Force says is what Solve says of the two sheets that Split writes.
#[test]
fn split_is_what_force_judges() {
    let mut seen = [0; 4];
    for reading in READINGS {
        cases(2_000, |rng| {
            let given = any_formula(rng, Limits { variables: 6, ..Limits::small(reading.format) });
            if given.prefix.is_empty() {
                return;
            }
            let sheet = reading.format.encode(&given);
            let room = tight_room(rng, &sheet);
            let values: Vec<u8> =
                (0..rng.below(given.prefix.len())).map(|_| rng.below(2) as u8).collect();
            let turn = given.prefix[values.len()].0;
            let said = [0, 1].map(|value| {
                let mut half = vec![0xa5; room];
                let values = [&values[..], &[value]].concat();
                let length = reading.split(&sheet, &values, &mut half).accepted().expect("room");
                reading.solve(&half[..length], &mut vec![0; room], &mut vec![0; room])
            });
            let wins = said.map(|answer| match answer {
                SolveAnswer::Ended { verdict, .. } => Ok(verdict == (turn == Exists)),
                SolveAnswer::Stopped { variable, .. } => Err(variable),
                SolveAnswer::Refused(number, _) => panic!("refused with {number}"),
            });
            let (expected, at) = match wins {
                [Err(variable), _] | [_, Err(variable)] => (Forced::Stopped(variable), 0),
                [Ok(false), Ok(false)] => (Forced::Neither, 1),
                [Ok(true), Ok(true)] => (Forced::Both, 2),
                [Ok(true), Ok(false)] => (Forced::Zero, 3),
                [Ok(false), Ok(true)] => (Forced::One, 3),
            };
            let forced = reading.force(&sheet, &values, &mut vec![0; room], &mut vec![0; room]);
            assert_eq!(forced, Answer::Accepted((turn, expected)));
            seen[at] += 1;
        });
    }
    assert!(seen.iter().all(|&count| count > 100), "{seen:?}");
}

/// A formula over these rows that is true exactly where the answers are.
fn with_answers(rows: &[Binding], answers: &[bool]) -> Formula {
    let cube_at = |at: usize| {
        let place = rows.len();
        let literals = rows
            .iter()
            .enumerate()
            .map(|(row, &(_, var))| Node::Lit { positive: at >> (place - 1 - row) & 1 == 1, var });
        and(literals.collect())
    };
    let cubes = (0..answers.len()).filter(|&at| answers[at]).map(cube_at);
    formula(rows, or(cubes.collect()))
}

/// Known exactly if all the unknown answers, whatever they are, give it.
#[test]
fn join_against_every_way_to_turn_out() {
    let mut seen = [0; 3];
    for reading in READINGS {
        cases(8_000, |rng| {
            let limits = Limits { format: reading.format, variables: 5, nodes: 4 };
            let given = generate::formula(rng, limits);
            let sheet = reading.format.encode(&given);
            let k = rng.below(given.prefix.len().min(4) + 1);
            let often = rng.pick(&[2, 3, 8, 1_000]);
            let mut unknown = Vec::new();
            let answers: Vec<u8> = (0..1 << k)
                .map(|at| {
                    if rng.one_in(often) && unknown.len() < 7 {
                        unknown.push(at);
                        2
                    } else {
                        rng.below(2) as u8
                    }
                })
                .collect();
            let verdicts = (0..1_u32 << unknown.len()).map(|bits| {
                let mut known: Vec<bool> = answers.iter().map(|&answer| answer == 1).collect();
                for (bit, &at) in unknown.iter().enumerate() {
                    known[at] = bits >> bit & 1 == 1;
                }
                truth::is_true(&with_answers(&given.prefix[..k], &known))
            });
            let verdicts: Vec<bool> = verdicts.collect();
            let alike = verdicts.iter().all(|&verdict| verdict == verdicts[0]);
            let expected = alike.then_some(verdicts[0]);
            assert_eq!(reading.join(&sheet, k, &answers), Answer::Accepted(expected), "{given:?}");
            seen[expected.map_or(2, usize::from)] += 1;
        });
    }
    assert!(seen.iter().all(|&count| count > 1_300), "{seen:?}");
}

#[test]
fn refusals_of_join() {
    for reading in READINGS {
        let given = formula(&[(Exists, 1), (ForAll, 2)], lit(1));
        let sheet = reading.format.encode(&given);
        let join = |k, answers: &[u8]| reading.join(&sheet, k, answers);
        assert_eq!(join(3, &[9]), Answer::Refused(22, 0));
        assert_eq!(join(usize::MAX, &[9]), Answer::Refused(22, 0));
        for answers in [&[9, 9, 9][..], &[], &[0; 5], &[0; 8]] {
            assert_eq!(join(2, answers), Answer::Refused(28, 0));
        }
        assert_eq!(join(2, &[0, 1, 3, 0]), Answer::Refused(29, 0));
        assert_eq!(join(2, &[0, 2, 1, 1]), Answer::Accepted(Some(true)));
        assert_eq!(join(2, &[0, 2, 2, 1]), Answer::Accepted(None));
        assert_eq!(join(2, &[0, 2, 2, 0]), Answer::Accepted(Some(false)));
        assert_eq!(join(0, &[2]), Answer::Accepted(None));
        assert_eq!(reading.join(&sheet[..3], 3, &[]), Answer::Refused(1, 0));
        // As many rows as no list of answers is long enough for.
        let rows: Vec<Binding> = (1..=200).map(|var| (Exists, var)).collect();
        let long = reading.format.encode(&formula(&rows, lit(1)));
        assert_eq!(reading.join(&long, 64, &[0; 1]), Answer::Refused(28, 0));
        assert_eq!(reading.join(&long, 200, &[]), Answer::Refused(28, 0));
    }
}

/// The sheets of Split, solved one by one in little room, and joined.
#[test]
fn the_same_work_spread() {
    let (mut known, mut open) = (0, 0);
    for reading in READINGS {
        let format = reading.format;
        cases(2_000, |rng| {
            let given = any_formula(rng, Limits { variables: 7, ..Limits::small(format) });
            let sheet = format.encode(&given);
            let k = rng.below(given.prefix.len().min(4) + 1);
            let room = sheet.len() + rng.below(4);
            let answer = |at: usize| {
                let values: Vec<u8> = (0..k).map(|row| (at >> (k - 1 - row) & 1) as u8).collect();
                let mut half = vec![0; room];
                let length = reading.split(&sheet, &values, &mut half).accepted().expect("room");
                match reading.solve(&half[..length], &mut vec![0; room], &mut vec![0; room]) {
                    SolveAnswer::Ended { verdict, .. } => u8::from(verdict),
                    _ => 2,
                }
            };
            let answers: Vec<u8> = (0..1 << k).map(answer).collect();
            match reading.join(&sheet, k, &answers) {
                Answer::Accepted(Some(verdict)) => {
                    assert_eq!(verdict, truth::is_true(&given), "{given:?}");
                    known += usize::from(k > 1);
                }
                Answer::Accepted(None) => open += 1,
                Answer::Refused(number, _) => panic!("refused with {number}"),
            }
        });
    }
    assert!(known > 500 && open > 120, "{known} {open}");
}

/// Larger ones, where Solve stops: what the search says, a solver from outside says.
#[test]
fn a_solver_from_outside_says_the_same() {
    let (mut verdicts, mut longest) = ([0; 2], 0);
    let mut compare = |formula: &Formula, room: usize| {
        let decided = Reading::WIDE.decide_formula(formula, room, formula.prefix.len(), 300);
        if let (Ended { verdict, runs: 2.. }, Some(theirs)) = (decided, depqbf::verdict(formula)) {
            assert_eq!(verdict, theirs, "{formula:?} in {room}");
            verdicts[usize::from(verdict)] += 1;
        }
        if let Ended { runs, .. } | Spent { runs } | NoPlace { runs } = decided {
            longest = longest.max(runs);
        }
    };
    cases(150, |rng| {
        let limits = Limits { format: Format::WIDE, variables: 16, nodes: 120 };
        let given = any_formula(rng, limits);
        compare(&given, Format::WIDE.encode(&given).len() + rng.below(60));
    });
    for family in LITERATURE {
        for n in 2..5 {
            let given = family.formula(n);
            compare(&given, Format::WIDE.encode(&given).len());
        }
    }
    assert!(verdicts.iter().all(|&count| count > 10) && longest > 50, "{verdicts:?} {longest}");
}
