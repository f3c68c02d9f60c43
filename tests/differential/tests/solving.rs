//! Solve against the independent reading, against Trial and against a solver
//! from outside. A disagreement prints the sheet in hexadecimal and both answers.

use differential::compare::{cases, hexadecimal, limit_sheets};
use differential::{Library, LIBRARIES, WIDE};
use outside::formulas::tried_by_hand;
use outside::generate::{self, Family, Limits, Rng};
use outside::reference::*;
use outside::{depqbf, with_deep_stack};

/// Solve on both, with equal buffers of any contents.
fn agree_in(rng: &mut Rng, library: &Library, sheet: &[u8], rooms: (usize, usize)) -> SolveAnswer {
    let before = [generate::dirty(rng, rooms.0), generate::dirty(rng, rooms.1)];
    let outcome = library.agree_on_solve(sheet, [&before[0], &before[1]]);
    if let Some((settled, expanded)) = outcome.answer.counts() {
        let left = check_buffers(&library.reading, sheet, &outcome.buffers);
        let started = library.reading.format.parse(sheet).expect("a sheet that was not refused");
        assert_eq!(settled + expanded + left, started.prefix.len());
    }
    outcome.answer
}

/// The sheet reached is good and tidy, the second buffer is clear. Answers with
/// the variables left.
fn check_buffers(reading: &Reading, sheet: &[u8], [first, second]: &[Vec<u8>; 2]) -> usize {
    let front = reading.format.front(first);
    let reached = reading.format.parse(front).expect("the sheet reached is a good one");
    assert!(reading.rules.is_tidy(&reached.matrix), "{}", hexadecimal(sheet));
    let mut behind = first[front.len()..].iter().chain(second);
    assert!(behind.all(|&byte| byte == 0), "{}", hexadecimal(sheet));
    reached.prefix.len()
}

/// In the program's buffers.
fn agree_in_full(rng: &mut Rng, library: &Library, sheet: &[u8]) -> SolveAnswer {
    let longest = library.reading.format.longest_sheet();
    agree_in(rng, library, sheet, (longest, longest))
}

/// The lengths at which Solve's answer may change: the sheet's own, and those
/// of the raw sheets on the way.
fn critical_lengths(reading: &Reading, formula: &Formula) -> Vec<usize> {
    let Reading { format, rules } = reading;
    let mut lengths = vec![format.encode(formula).len()];
    let mut held = rules.tidy_formula(formula);
    loop {
        held = match rules.next_move(&held) {
            Move::End(_) => return lengths,
            Move::Settle(x, value) => rules.settle_formula(&held, x, value),
            Move::Expand(x) => {
                lengths.push(format.least_output(Operation::Expand, &held, x));
                if raw_rows(&held, x) > format.most_nodes {
                    return lengths;
                }
                rules.expand_formula(&held, x)
            }
        };
    }
}

/// Pairs of equal and of unequal lengths around one limit.
fn pairs_around(rng: &mut Rng, limit: usize) -> Vec<(usize, usize)> {
    let longer = limit + rng.between(1, 60);
    let short = limit - 1;
    vec![
        (limit, limit),
        (short, short),
        (limit, longer),
        (longer, limit),
        (short, longer),
        (longer, short),
        (limit + 1, limit),
    ]
}

#[test]
fn buffers_around_every_limit() {
    let mut stopped = 0;
    cases(4_000, |library, rng| {
        let format = library.reading.format;
        let formula = generate::formula(rng, Limits::small(format));
        let sheet = format.encode(&formula);
        for limit in critical_lengths(&library.reading, &formula) {
            for rooms in pairs_around(rng, limit) {
                let answer = agree_in(rng, library, &sheet, rooms);
                stopped += u32::from(matches!(answer, SolveAnswer::Stopped { .. }));
            }
        }
    });
    assert!(stopped > 2_000, "{stopped}");
}

#[test]
fn random_and_damaged_sheets() {
    let mut refused = [0; 15];
    cases(30_000, |library, rng| {
        let format = library.reading.format;
        let sheet = generate::sheet(rng, Limits::small(format));
        let damaged = generate::damage(rng, format, &sheet);
        for sheet in [sheet, damaged] {
            let rooms = (
                generate::length_around(rng, format, sheet.len()),
                generate::length_around(rng, format, 2 * sheet.len()),
            );
            if let SolveAnswer::Refused(number, _) = agree_in(rng, library, &sheet, rooms) {
                refused[usize::from(number)] += 1;
            }
        }
    });
    for number in [1, 2, 3, 4, 5, 6, 7, 8, 13] {
        assert!(refused[number] > 200, "{refused:?}");
    }
}

#[test]
fn formulas_tried_by_hand() {
    let mut rng = Rng::new(generate::run_seed());
    for library in &LIBRARIES {
        for (formula, line) in tried_by_hand() {
            let sheet = library.reading.format.encode(&formula);
            assert_eq!(line_of(&agree_in_full(&mut rng, library, &sheet)), line);
            for room in 0..120 {
                agree_in(&mut rng, library, &sheet, (room, room));
            }
        }
    }
}

#[test]
fn raw_sheet_of_the_four_cubes() {
    let mut rng = Rng::new(generate::run_seed());
    let (four_cubes, line) = &tried_by_hand()[3];
    for library in &LIBRARIES {
        let format = library.reading.format;
        let sheet = format.encode(four_cubes);
        let raw = format.sheet_length(1, 27);
        let mut line_in = |rooms| line_of(&agree_in(&mut rng, library, &sheet, rooms));
        assert_eq!(line_in((raw, raw)), *line);
        assert_eq!(line_in((raw, raw - 1)), "stopped 0 0 1");
        assert_eq!(line_in((raw - 1, raw)), "stopped 0 0 1");
    }
}

#[test]
fn large_sheets() {
    with_deep_stack(|| {
        let mut rng = Rng::new(generate::run_seed());
        limit_sheets(|library, sheet| {
            agree_in_full(&mut rng, library, sheet);
        });
        cases(40, |library, rng| {
            let format = library.reading.format;
            for limits in [Limits::medium(format), Limits::full(format)] {
                let sheet = generate::sheet(rng, limits);
                let first = generate::length_around(rng, format, sheet.len());
                agree_in(rng, library, &sheet, (first, format.longest_sheet() + 40));
                agree_in_full(rng, library, &sheet);
            }
        });
    });
}

/// Trial's verdict, of up to 20 variables, is Solve's.
fn agree_with_trial(rng: &mut Rng, library: &Library, formula: &Formula) -> Option<bool> {
    let sheet = library.reading.format.encode(formula);
    let SolveAnswer::Ended { verdict, .. } = agree_in_full(rng, library, &sheet) else {
        return None;
    };
    match library.trial(&sheet) {
        Answer::Accepted((tried, _)) => assert_eq!(tried, verdict, "{}", hexadecimal(&sheet)),
        refused => panic!("{refused:?}: {}", hexadecimal(&sheet)),
    }
    Some(verdict)
}

#[test]
fn verdicts_are_trials() {
    let mut verdicts = [0; 2];
    let mut count = |verdict: Option<bool>| {
        if let Some(verdict) = verdict {
            verdicts[usize::from(verdict)] += 1;
        }
    };
    cases(3_000, |library, rng| {
        let limits = Limits { format: library.reading.format, variables: 12, nodes: 120 };
        let formula = generate::formula(rng, limits);
        count(agree_with_trial(rng, library, &formula));
    });
    cases(60, |library, rng| {
        let family = rng.pick(&[Family::Clauses, Family::Tidy, Family::Parity]);
        let nodes = rng.between(60, 160);
        let limits = Limits { format: library.reading.format, variables: 20, nodes };
        let formula = generate::alternating_formula(rng, family, limits);
        count(agree_with_trial(rng, library, &formula));
    });
    assert!(verdicts.iter().all(|&count| count > 800), "{verdicts:?}");
}

#[test]
fn verdicts_are_those_of_a_solver_from_outside() {
    with_deep_stack(|| {
        // By Solve: false, true, stopped; of those with a verdict, how many depqbf decided.
        let mut answers = [0; 3];
        let (mut compared, mut expansions) = (0, 0);
        cases(2_000, |library, rng| {
            let formula = generate::solver_formula(rng, library.reading.format);
            let sheet = library.reading.format.encode(&formula);
            match agree_in_full(rng, library, &sheet) {
                SolveAnswer::Ended { verdict, expanded, .. } => {
                    answers[usize::from(verdict)] += 1;
                    expansions += expanded;
                    if let Some(theirs) = depqbf::verdict(&formula) {
                        assert_eq!(verdict, theirs, "{}", hexadecimal(&sheet));
                        compared += 1;
                    }
                }
                SolveAnswer::Stopped { .. } => answers[2] += 1,
                refused => panic!("{refused:?}: {}", hexadecimal(&sheet)),
            }
        });
        println!("false, true, stopped: {answers:?}; {compared} compared; {expansions} expansions");
        assert!(answers[0] > 1_000 && answers[1] > 1_000, "{answers:?}");
        assert!(answers[2] < 600, "{answers:?}");
        assert!(compared > 3_000, "{compared} compared");
    });
}

/// A formula that no narrow sheet holds: more variables than 256, and often more
/// nodes than 4,096.
fn beyond_narrow(rng: &mut Rng) -> Formula {
    let family = rng.pick(&[
        Family::Clauses,
        Family::LooseClauses,
        Family::Tidy,
        Family::Ladder,
        Family::Parity,
        Family::Untidy,
    ]);
    let Format { most_variables, most_nodes, .. } = Format::WIDE;
    let variables = rng.between(257, most_variables);
    let nodes = (variables * rng.between(3, 10)).min(most_nodes);
    generate::alternating_formula(rng, family, Limits { format: Format::WIDE, variables, nodes })
}

#[test]
fn verdicts_beyond_the_narrow_limits_are_those_of_a_solver_from_outside() {
    with_deep_stack(|| {
        // False and true; of them with more nodes than a narrow sheet has.
        let (mut compared, mut larger) = ([0; 2], 0);
        let longest = Format::WIDE.longest_sheet();
        generate::cases(150, |rng| {
            let formula = beyond_narrow(rng);
            let sheet = Format::WIDE.encode(&formula);
            let (mut first, mut second) =
                (generate::dirty(rng, longest), generate::dirty(rng, longest));
            if let SolveAnswer::Ended { verdict, .. } = WIDE.solve(&sheet, &mut first, &mut second)
            {
                if let Some(theirs) = depqbf::verdict(&formula) {
                    assert_eq!(verdict, theirs, "{}", hexadecimal(&sheet));
                    compared[usize::from(verdict)] += 1;
                    larger += usize::from(formula.matrix.rows() > Format::NARROW.most_nodes);
                }
            }
        });
        println!("false, true: {compared:?}; {larger} with more nodes");
        assert!(compared.iter().all(|&count| count > 20) && larger > 15, "{compared:?} {larger}");
    });
}
