//! Response, Strategy and Claim against the independent reading: answers and every byte of
//! the output, over damaged sheets and strategies, outputs of any contents and of
//! every length around the limits, and claims handed to a solver from outside.

use differential::compare::{cases, hexadecimal, limit_sheets};
use differential::Library;
use outside::formulas::{clause, formula, or};
use outside::generate::{self, damage, damage_strategy, dirty, length_around, Family, Limits, Rng};
use outside::literature::LITERATURE;
use outside::reference::*;
use outside::{cadical, truth, with_deep_stack};
use Quantifier::{Exists, ForAll};

/// A variable of the formula, or any other number.
fn variable(rng: &mut Rng, formula: &Formula) -> Variable {
    if formula.prefix.is_empty() || rng.one_in(8) {
        return rng.pick(&[0, 1, 2, 256, 257, 1024, 1025, 65_537, usize::MAX]);
    }
    rng.pick(&formula.prefix).1
}

/// The length of the raw sheet if the variable is bound, and else any.
fn least_output(format: Format, formula: &Formula, x: Variable) -> usize {
    let rows = match settle_value(formula, x) {
        Some(_) => 1,
        None if formula.quantifier(x).is_some() => raw_expansion(formula, x).e,
        None => 10,
    };
    format.sheet_length(formula.prefix.len().saturating_sub(1), rows)
}

/// Response with an output about as long as it needs; answers with the number.
fn agree_around(rng: &mut Rng, library: &Library, formula: &Formula, sheet: &[u8]) -> usize {
    let format = library.reading.format;
    let x = variable(rng, formula);
    let room = length_around(rng, format, least_output(format, formula, x));
    let before = dirty(rng, room);
    let outcome = library.agree_on_response(sheet, x, &before);
    match outcome.answer {
        Answer::Refused(..) => assert!(outcome.output() == before, "{}", hexadecimal(sheet)),
        Answer::Accepted(length) => assert!(format.check(&outcome.output()[..length]).is_ok()),
    }
    outcome.answer.number()
}

#[test]
fn responses_on_small_sheets() {
    let mut seen = [0; 14];
    cases(20_000, |library, rng| {
        let format = library.reading.format;
        let tidy = generate::tidy_formula(rng, Limits::small(format));
        let sheet = format.encode(&tidy);
        seen[agree_around(rng, library, &tidy, &sheet)] += 1;
        let damaged = damage(rng, format, &sheet);
        seen[agree_around(rng, library, &tidy, &damaged)] += 1;
        let untidy = generate::formula(rng, Limits::small(format));
        seen[agree_around(rng, library, &untidy, &format.encode(&untidy))] += 1;
    });
    let refusals = [0, 1, 2, 3, 4, 5, 6, 7, 8, 9, 10, 11, 13];
    assert!(refusals.iter().all(|&number| seen[number] > 200), "{seen:?}");
}

#[test]
fn responses_at_every_limit_of_the_output() {
    let mut written = 0;
    cases(3_000, |library, rng| {
        let format = library.reading.format;
        let given = generate::tidy_formula(rng, Limits::small(format));
        let sheet = format.encode(&given);
        for x in given.variables() {
            let exact = least_output(format, &given, x);
            for room in [0, exact - 1, exact, exact + 1] {
                let outcome = library.agree_on_response(&sheet, x, &dirty(rng, room));
                written += usize::from(outcome.sheet().is_some());
            }
        }
    });
    assert!(written > 10_000, "{written}");
}

#[test]
fn responses_on_large_sheets() {
    with_deep_stack(|| {
        let mut rng = Rng::new(generate::run_seed());
        limit_sheets(|library, sheet| {
            let format = library.reading.format;
            let given = format.parse(sheet).unwrap_or(formula(&[], or(vec![])));
            for _ in 0..4 {
                agree_around(&mut rng, library, &given, sheet);
            }
        });
        cases(150, |library, rng| {
            let format = library.reading.format;
            for limits in [Limits::medium(format), Limits::full(format)] {
                let given = generate::tidy_formula(rng, limits);
                agree_around(rng, library, &given, &format.encode(&given));
            }
        });
    });
}

/// The winner by the reading from outside, its pairs and their sheet; nothing of a run that stops
/// or whose strategy is too long.
fn winning(library: &Library, sheet: &[u8]) -> Option<(Quantifier, Vec<Pair>, Vec<u8>)> {
    let reading = library.reading;
    let [mut first, mut second, mut output] =
        [(); 3].map(|()| vec![0; reading.format.longest_sheet()]);
    let answer = reading.strategy(sheet, &mut first, &mut second, &mut output);
    let StrategyAnswer::Written { verdict, length, .. } = answer else {
        return None;
    };
    output.truncate(length);
    let pairs = pairs_of(&reading.format.parse(&output).expect("a good sheet").matrix);
    Some((Quantifier::winner(verdict), pairs.expect("pairs"), output))
}

fn kind(side: Quantifier) -> usize {
    if side == Exists {
        1
    } else {
        2
    }
}

/// The claim in an output of this length; refused, it stays as it was.
fn claim(
    rng: &mut Rng,
    library: &Library,
    sheet: &[u8],
    side: usize,
    strategy: &[u8],
    room: usize,
) -> Result<Formula, (u8, u8, usize)> {
    let before = dirty(rng, room);
    let outcome = library.agree_on_claim(sheet, side, strategy, &before);
    match outcome.answer {
        ClaimAnswer::Refused(which, number, place) => {
            assert!(outcome.buffers[0] == before, "{}", hexadecimal(sheet));
            Err((which, number, place))
        }
        ClaimAnswer::Written(length) => {
            let written = library.reading.format.parse(&outcome.buffers[0][..length]);
            Ok(written.expect("a good sheet"))
        }
    }
}

/// Strategies of winners and what somebody has made of them: refused, or their claim has the truth
/// that the side wants exactly if they win.
#[test]
fn strategies_and_damaged_ones() {
    let (mut won, mut numbers) = ([0; 2], [0; 28]);
    cases(5_000, |library, rng| {
        let format = library.reading.format;
        let given = generate::formula(rng, Limits { format, variables: 6, nodes: 30 });
        let sheet = format.encode(&given);
        let (side, mut pairs, bytes) = winning(library, &sheet).expect("a large buffer");
        let room = format.longest_sheet();
        let whole = claim(rng, library, &sheet, kind(side), &bytes, room).expect("a claim");
        assert_eq!(truth::is_true(&whole), side == Exists, "{}", hexadecimal(&sheet));
        let mut damaged = bytes;
        for _ in 0..rng.between(1, 2) {
            let strategy = damage_strategy(rng, &given.prefix, &pairs);
            pairs = pairs_of(&strategy.matrix).unwrap_or(pairs);
            damaged = format.encode(&strategy);
        }
        let side = if rng.one_in(10) { side.other() } else { side };
        match claim(rng, library, &sheet, kind(side), &damaged, room) {
            Err((which, number, _)) => {
                assert_eq!(which, 2, "{}", hexadecimal(&sheet));
                numbers[usize::from(number)] += 1;
            }
            Ok(claim) => {
                let read = pairs_of(&format.parse(&damaged).expect("a sheet").matrix);
                let wins = truth::wins(side, &given, &read.expect("pairs"));
                assert_eq!(truth::is_true(&claim) == (side == Exists), wins);
                won[usize::from(wins)] += 1;
            }
        }
    });
    assert!(numbers[26] > 1_500 && numbers[27] > 500, "{numbers:?}");
    assert!(won.iter().all(|&count| count > 300), "{won:?}");
}

/// Damaged bytes of either sheet, any number for the side, and outputs around the limit.
#[test]
fn damaged_bytes_of_claims() {
    let mut seen = [0; 4];
    cases(5_000, |library, rng| {
        let format = library.reading.format;
        let given = generate::formula(rng, Limits::small(format));
        let mut sheet = format.encode(&given);
        let (side, pairs, mut strategy) = winning(library, &sheet).expect("a large buffer");
        if rng.one_in(4) {
            sheet = damage(rng, format, &sheet);
        }
        if rng.one_in(4) {
            strategy = damage(rng, format, &strategy);
        }
        let copies: usize = pairs.iter().map(|pair| 4 + 2 * pair.function.rows()).sum();
        let rows = 1 + given.matrix.rows() + copies;
        let exact = format.sheet_length(given.prefix.len(), rows);
        let room = length_around(rng, format, exact);
        let side = match rng.below(8) {
            0 => rng.pick(&[0, 1, 2, 3, 257, usize::MAX]),
            _ => kind(side),
        };
        let answer = claim(rng, library, &sheet, side, &strategy, room);
        seen[answer.map_or_else(|refused| usize::from(refused.0), |_| 3)] += 1;
    });
    assert!(seen.iter().all(|&count| count > 500), "{seen:?}");
}

#[test]
fn claims_at_every_limit_of_the_output() {
    cases(1_000, |library, rng| {
        let format = library.reading.format;
        let given = generate::formula(rng, Limits::small(format));
        let sheet = format.encode(&given);
        let (side, _, strategy) = winning(library, &sheet).expect("a large buffer");
        let whole = claim(rng, library, &sheet, kind(side), &strategy, format.longest_sheet());
        let exact = format.encode(&whole.expect("a claim")).len();
        for room in [0, exact - 1, exact, exact + 1] {
            let answer = claim(rng, library, &sheet, kind(side), &strategy, room);
            assert_eq!(answer.is_ok(), room >= exact);
        }
    });
}

/// The deepest, the widest, and a function whose copies are too many rows for the format.
#[test]
fn claims_of_large_sheets() {
    with_deep_stack(|| {
        let mut rng = Rng::new(generate::run_seed());
        let (mut written, mut long) = (0, 0);
        let mut try_sheet = |rng: &mut Rng, library: &Library, sheet: &[u8]| {
            if let Some((side, _, strategy)) = winning(library, sheet) {
                let room = library.reading.format.longest_sheet();
                match claim(rng, library, sheet, kind(side), &strategy, room) {
                    Ok(_) => written += 1,
                    Err(refusal) => {
                        assert_eq!(refusal, (0, 13, 0));
                        long += 1;
                    }
                }
            }
        };
        limit_sheets(|library, sheet| try_sheet(&mut rng, library, sheet));
        cases(8, |library, rng| {
            let sheet = generate::sheet(rng, Limits::full(library.reading.format));
            try_sheet(rng, library, &sheet);
        });
        assert!(written > 20 && long > 10, "{written} {long}");
        for library in &differential::LIBRARIES {
            let format = library.reading.format;
            let prefix = [(ForAll, 1), (Exists, 2)];
            let sheet = format.encode(&formula(&prefix, clause(&[1, 2])));
            // The root, the matrix, and the pair's rows twice: 4 + 2 * (1 + 3 * copies).
            for copies in format.most_nodes / 6 - 4..format.most_nodes / 6 + 2 {
                let function = or((0..copies).map(|_| clause(&[1, -1])).collect());
                let strategy = strategy_formula(&prefix, &[Pair { variable: 2, function }]);
                let strategy = format.encode(&strategy);
                let fits = 1 + 3 + 4 + 2 * (1 + 3 * copies) <= format.most_nodes;
                let answer = claim(&mut rng, library, &sheet, 1, &strategy, 1 << 17);
                assert_eq!(answer.is_ok(), fits, "{copies}");
            }
        }
    });
}

/// Whether a solver from outside finds that the claim of the winner's strategy has the truth that
/// it should have; nothing if a run stops, doesn't fit or takes too long.
fn claimed_outside(rng: &mut Rng, library: &Library, given: &Formula) -> Option<bool> {
    let format = library.reading.format;
    let sheet = format.encode(given);
    let (side, _, strategy) = winning(library, &sheet)?;
    let claimed =
        claim(rng, library, &sheet, kind(side), &strategy, format.longest_sheet()).ok()?;
    let said = cadical::verdict(side.other(), &claimed)?;
    assert_eq!(said, side == Exists, "{}", hexadecimal(&sheet));
    Some(said)
}

#[test]
fn a_solver_from_outside_agrees_with_claims() {
    with_deep_stack(|| {
        let (mut verdicts, mut families) = ([0; 2], 0);
        cases(60, |library, rng| {
            let given = generate::solver_formula(rng, library.reading.format);
            let limits = Limits { format: library.reading.format, variables: 60, nodes: 600 };
            let other = generate::alternating_formula(rng, Family::Tidy, limits);
            for given in [given, other] {
                if let Some(verdict) = claimed_outside(rng, library, &given) {
                    verdicts[usize::from(verdict)] += 1;
                }
            }
        });
        let mut rng = Rng::new(generate::run_seed());
        for family in LITERATURE {
            let given = family.formula(3);
            families +=
                usize::from(claimed_outside(&mut rng, &differential::WIDE, &given).is_some());
        }
        assert!(verdicts.iter().all(|&count| count > 30), "{verdicts:?}");
        assert!(families > 3, "{families}");
    });
}

/// Strategy in buffers of these lengths, work buffers first; refused, they are as they were, and
/// unless it is written the output is all zeros.
fn agree_in(rng: &mut Rng, library: &Library, sheet: &[u8], lengths: [usize; 3]) -> StrategyAnswer {
    let before = lengths.map(|length| dirty(rng, length));
    let outcome = library.agree_on_strategy(sheet, before.each_ref().map(|one| &one[..]));
    match outcome.answer {
        StrategyAnswer::Refused(..) => assert!(outcome.buffers == before, "{}", hexadecimal(sheet)),
        StrategyAnswer::Written { length, .. } => {
            assert!(outcome.buffers[2][length..].iter().all(|&byte| byte == 0));
        }
        _ => assert!(outcome.buffers[2].iter().all(|&byte| byte == 0)),
    }
    outcome.answer
}

#[test]
fn runs_with_their_strategies() {
    let mut seen = [0; 4];
    cases(6_000, |library, rng| {
        let format = library.reading.format;
        let given = match rng.below(3) {
            0 => generate::formula(rng, Limits::small(format)),
            1 => generate::tidy_formula(rng, Limits::small(format)),
            _ => generate::alternating_formula(rng, Family::Clauses, Limits::small(format)),
        };
        let whole = format.encode(&given);
        let sheet = if rng.one_in(6) { damage(rng, format, &whole) } else { whole };
        let exact = winning(library, &sheet).map_or(100, |won| won.2.len());
        let room = match rng.below(4) {
            0 => length_around(rng, format, sheet.len()),
            1 => sheet.len() + rng.below(sheet.len() + 1),
            _ => format.longest_sheet(),
        };
        let lengths = [room, room + rng.below(2), length_around(rng, format, exact)];
        seen[match agree_in(rng, library, &sheet, lengths) {
            StrategyAnswer::Refused(..) => 0,
            StrategyAnswer::Stopped { .. } => 1,
            StrategyAnswer::Written { .. } => 2,
            StrategyAnswer::TooLong { .. } => 3,
        }] += 1;
    });
    assert!(seen.iter().all(|&count| count > 300), "{seen:?}");
}

#[test]
fn strategies_of_large_sheets() {
    with_deep_stack(|| {
        let mut rng = Rng::new(generate::run_seed());
        let mut written = 0;
        let mut try_sheet = |rng: &mut Rng, library: &Library, sheet: &[u8]| {
            let longest = library.reading.format.longest_sheet();
            let answer = agree_in(rng, library, sheet, [longest; 3]);
            written += usize::from(matches!(answer, StrategyAnswer::Written { .. }));
        };
        limit_sheets(|library, sheet| try_sheet(&mut rng, library, sheet));
        cases(5, |library, rng| {
            let format = library.reading.format;
            for limits in [Limits::medium(format), Limits::full(format)] {
                let sheet = generate::sheet(rng, limits);
                try_sheet(rng, library, &sheet);
            }
        });
        for family in LITERATURE {
            let sheet = Format::WIDE.encode(&family.formula(2));
            try_sheet(&mut rng, &differential::WIDE, &sheet);
        }
        assert!(written > 20, "{written}");
    });
}
