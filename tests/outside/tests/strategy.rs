//! Response, Strategy and Claim as the independent reading has them: by hand,
//! against every play of the other side, with strategies that somebody has
//! damaged, and with a solver from outside.

use outside::examples::{examples, narrow_examples};
use outside::formulas::{and, clause, cube, equal_pair, formula, lit, or};
use outside::generate::{self, cases, dirty, length_around, Family, Limits, Rng};
use outside::literature::LITERATURE;
use outside::reference::*;
use outside::{cadical, truth, with_deep_stack};
use Quantifier::{Exists, ForAll};

const READINGS: [Reading; 2] = [Reading::NARROW, Reading::WIDE];

fn pair(variable: Variable, function: Node) -> Pair {
    Pair { variable, function }
}

/// What Strategy leaves in buffers of these lengths, work buffers first.
fn strategy(reading: Reading, sheet: &[u8], rooms: [usize; 3]) -> (StrategyAnswer, [Vec<u8>; 3]) {
    let [mut first, mut second, mut output] = rooms.map(|room| vec![0xa5; room]);
    let answer = reading.strategy(sheet, &mut first, &mut second, &mut output);
    (answer, [first, second, output])
}

/// The winner and its pairs, with room enough; nothing of a run that stops.
fn winning(reading: Reading, sheet: &[u8]) -> Option<(Quantifier, Vec<Pair>, Vec<u8>)> {
    let (answer, [_, _, output]) = strategy(reading, sheet, [reading.format.longest_sheet(); 3]);
    let StrategyAnswer::Written { verdict, length, .. } = answer else {
        return None;
    };
    assert!(output[length..].iter().all(|&byte| byte == 0), "zeros behind the sheet");
    let written = reading.format.parse(&output[..length]).expect("a good sheet");
    let pairs = pairs_of(&written.matrix).expect("pairs");
    Some((if verdict { Exists } else { ForAll }, pairs, output[..length].to_vec()))
}

/// The claim, with room enough.
fn claim(
    reading: Reading,
    sheet: &[u8],
    side: Quantifier,
    pairs: &[u8],
) -> Result<Formula, (u8, u8, usize)> {
    let mut output = vec![0xa5; reading.format.longest_sheet()];
    match reading.claim(sheet, side, pairs, &mut output) {
        ClaimAnswer::Refused(which, number, place) => {
            assert!(output.iter().all(|&byte| byte == 0xa5));
            Err((which, number, place))
        }
        ClaimAnswer::Written(length) => {
            assert!(output[length..].iter().all(|&byte| byte == 0));
            Ok(reading.format.parse(&output[..length]).expect("a good sheet"))
        }
    }
}

/// Lift, 2, follows feed, 1; stop, 4, follows feed xor jam, 3.
#[test]
fn the_press_line() {
    for (reading, examples) in [(Reading::WIDE, examples()), (Reading::NARROW, narrow_examples())] {
        let example = examples.into_iter().find(|example| example.name == "press-line").unwrap();
        let (side, pairs, bytes) = winning(reading, &example.sheet).expect("a strategy");
        assert_eq!(side, Exists);
        let differ = and(vec![clause(&[1, 3]), clause(&[-1, -3])]);
        assert_eq!(pairs, [pair(4, differ), pair(2, lit(1))]);
        let prefix = [(ForAll, 1), (Exists, 2), (ForAll, 3), (Exists, 4)];
        assert_eq!(bytes, reading.format.encode(&strategy_formula(&prefix, &pairs)));
        for (feed, jam) in [(false, false), (false, true), (true, false), (true, true)] {
            let played = truth::play(&pairs, &[false, feed, !feed, jam, feed]);
            assert_eq!((played[2], played[4]), (feed, feed != jam));
        }
    }
    // With stop set before jam the press wins: jam is what makes stop wrong.
    let early = examples().into_iter().find(|example| example.name == "press-line-early").unwrap();
    let (side, pairs, _) = winning(Reading::WIDE, &early.sheet).expect("a strategy");
    assert_eq!((side, pairs.len()), (ForAll, 2));
    assert!(truth::wins(ForAll, &Format::WIDE.parse(&early.sheet).unwrap(), &pairs));
}

#[test]
fn responses_by_hand() {
    let six = [(Exists, 1), (ForAll, 2), (Exists, 3), (ForAll, 4), (ForAll, 5), (ForAll, 6)];
    let matrix = and(vec![
        clause(&[1, 4]),
        or(vec![lit(2), cube(&[4, 5]), and(vec![lit(-4), clause(&[2, 3])])]),
        clause(&[-1, -3, -5]),
    ]);
    let given = formula(&six, matrix);
    let rules = Rules::CURRENT;
    // Of 4 in two children of the root those two, with 0 put in.
    assert_eq!(rules.function_of(&given, 4), and(vec![lit(1), clause(&[2, 3])]));
    // 5 is relevant in two of three children.
    let of_5 = or(vec![lit(2), and(vec![lit(-4), clause(&[2, 3])])]);
    assert_eq!(rules.function_of(&given, 5), of_5);
    // What settles has a constant: 2 has one sign, 6 no literal.
    assert_eq!(rules.function_of(&given, 2), or(vec![]));
    assert_eq!(rules.function_of(&given, 6), or(vec![]));
    for reading in READINGS {
        let sheet = reading.format.encode(&given);
        let answer = |x, room| reading.response(&sheet, x, &mut vec![0; room]);
        let longest = reading.format.longest_sheet();
        for (x, number) in [(1, 11), (2, 0), (3, 11), (4, 0), (5, 0), (6, 0), (7, 10), (0, 10)] {
            assert_eq!(answer(x, longest).number(), number, "{x}");
        }
        // The rows of the two children and of the root; a constant has one.
        for (x, rows) in [(4, 1 + 3 + 10), (5, 1 + 10 + 4), (2, 1), (6, 1)] {
            let least = reading.format.sheet_length(5, rows);
            assert_eq!(answer(x, least - 1), Answer::Refused(13, 0), "{x}");
            assert!(answer(x, least).accepted().is_some(), "{x}");
        }
    }
    // A literal alone is its own subtree.
    let alone = formula(&[(ForAll, 2), (ForAll, 1)], or(vec![cube(&[1, 2]), cube(&[-1, 2])]));
    assert_eq!(rules.function_of(&alone, 1), lit(2));
}

#[test]
fn strategies_by_hand() {
    for reading in READINGS {
        let won = |formula: &Formula| {
            let won = winning(reading, &reading.format.encode(formula)).expect("a strategy");
            (won.0, won.1)
        };
        // No variable; a side without variables.
        assert_eq!(won(&formula(&[], and(vec![]))), (Exists, vec![]));
        assert_eq!(won(&formula(&[(Exists, 1)], or(vec![]))), (ForAll, vec![]));
        // Rows that are left get 0, in prefix order, behind those of the run.
        let rows = [(Exists, 9), (Exists, 8), (ForAll, 7), (Exists, 5)];
        let left = formula(&rows, clause(&[5, 7]));
        let pairs = vec![pair(5, and(vec![])), pair(9, or(vec![])), pair(8, or(vec![]))];
        assert_eq!(won(&left), (Exists, pairs));
        // Signal 2 comes after valve 1, and is what the valve is not.
        let after = formula(&[(Exists, 1), (ForAll, 2)], equal_pair());
        assert_eq!(won(&after), (ForAll, vec![pair(2, lit(-1))]));
        // 3 follows 2, which follows 1: the function of 3 names 2, whose pair comes later.
        let chain = formula(
            &[(ForAll, 1), (Exists, 2), (Exists, 3)],
            and(vec![clause(&[-1, 2]), clause(&[1, -2]), clause(&[-2, 3]), clause(&[2, -3])]),
        );
        assert_eq!(won(&chain), (Exists, vec![pair(3, lit(2)), pair(2, lit(1))]));
    }
}

/// What the proofs of `Strategy/Examples.antt` compute from the definitions, on
/// formulas and on bytes.
#[test]
fn as_computed_in_the_definitions() {
    let reading = Reading::NARROW;
    let encode = |formula: &Formula| reading.format.encode(formula);
    let example =
        |name| narrow_examples().into_iter().find(|example| example.name == name).unwrap();
    let press = example("press-line").sheet;
    let prefix = [(ForAll, 1), (Exists, 2), (ForAll, 3), (Exists, 4)];
    let differ = || and(vec![clause(&[1, 3]), clause(&[-1, -3])]);
    let padded = |formula: &Formula, room: usize| {
        let mut bytes = encode(formula);
        bytes.resize(room, 0);
        bytes
    };
    // Response: the least output, a byte less, and a constant of one row.
    let mut output = vec![255; 64];
    assert_eq!(reading.response(&press, 4, &mut output), Answer::Accepted(34));
    assert_eq!(output, padded(&formula(&prefix[..3], differ()), 64));
    assert_eq!(reading.response(&press, 4, &mut [255; 63]), Answer::Refused(13, 0));
    assert_eq!(reading.response(&press, 2, &mut [255; 64]), Answer::Refused(11, 0));
    let unit_first = encode(&formula(&[(Exists, 1), (ForAll, 2)], cube(&[1, 2])));
    let mut output = vec![255; 10];
    assert_eq!(reading.response(&unit_first, 1, &mut output), Answer::Accepted(10));
    assert_eq!(output, encode(&formula(&[(ForAll, 2)], and(vec![]))));
    // Strategy: the same.
    let of_press = |pairs: &[Pair]| encode(&strategy_formula(&prefix, pairs));
    let (answer, [_, _, output]) = strategy(reading, &press, [200, 200, 55]);
    let (verdict, settled, expanded) = (true, 0, 3);
    assert_eq!(answer, StrategyAnswer::Written { verdict, settled, expanded, length: 55 });
    assert_eq!(output, of_press(&[pair(4, differ()), pair(2, lit(1))]));
    let (answer, [_, _, output]) = strategy(reading, &press, [200, 200, 54]);
    assert_eq!(answer, StrategyAnswer::TooLong { verdict, settled, expanded, rows: 13 });
    assert_eq!(output, [0; 54]);
    // Claim: 2 plays 1 where both are equal.
    let equal = formula(&[(ForAll, 1), (Exists, 2)], equal_pair());
    let (sheet, plays_1) = (encode(&equal), strategy_formula(&equal.prefix, &[pair(2, lit(1))]));
    let plays_1 = encode(&plays_1);
    let mut output = vec![255; 54];
    assert_eq!(reading.claim(&sheet, Exists, &plays_1, &mut output), ClaimAnswer::Written(52));
    let claimed = or(vec![equal_pair(), cube(&[2, -1]), cube(&[-2, 1])]);
    assert_eq!(output, padded(&formula(&[(ForAll, 1), (ForAll, 2)], claimed), 54));
    let refused = |sheet: &[u8], side, strategy: &[u8], room| match reading.claim(
        sheet,
        side,
        strategy,
        &mut vec![0; room],
    ) {
        ClaimAnswer::Refused(which, number, place) => (which, number, place),
        ClaimAnswer::Written(length) => panic!("written in {length}"),
    };
    assert_eq!(refused(&sheet, Exists, &plays_1, 51), (0, 13, 0));
    assert_eq!(refused(&sheet, ForAll, &plays_1, 100), (2, 26, 0));
    assert_eq!(refused(&press, Exists, &plays_1, 100), (2, 26, 0));
    for (pairs, refusal) in [
        (vec![pair(4, differ())], (2, 26, 0)),
        (vec![pair(4, differ()), pair(2, lit(3))], (2, 27, 14)),
        (vec![pair(4, lit(4)), pair(2, lit(1))], (2, 27, 5)),
        (vec![pair(4, lit(4)), pair(2, lit(3))], (2, 27, 8)),
        (vec![pair(4, differ()), pair(2, lit(1))], (0, 13, 0)),
    ] {
        assert_eq!(refused(&press, Exists, &of_press(&pairs), 0), refusal, "{pairs:?}");
    }
    // The press line by equivalences, and a strategy with a larger function claimed.
    let follows = or(vec![cube(&[2, 1]), cube(&[-2, -1])]);
    let xor = || or(vec![cube(&[1, -3]), cube(&[-1, 3])]);
    let same = or(vec![cube(&[1, 3]), cube(&[-1, -3])]);
    let stops = or(vec![and(vec![lit(4), xor()]), and(vec![lit(-4), same])]);
    let nested = encode(&formula(&prefix, and(vec![follows, stops])));
    let (side, pairs, _) = winning(reading, &nested).expect("a strategy");
    assert_eq!((side, pairs), (Exists, vec![pair(4, xor()), pair(2, lit(1))]));
    let three = formula(&[(ForAll, 1), (ForAll, 2), (Exists, 3)], clause(&[3, -1, -2]));
    let claimed = or(vec![
        clause(&[3, -1, -2]),
        and(vec![lit(3), clause(&[-1, -2])]),
        and(vec![lit(-3), cube(&[1, 2])]),
    ]);
    let all = [(ForAll, 1), (ForAll, 2), (ForAll, 3)];
    assert_eq!(claim_formula(Exists, &three, &[pair(3, cube(&[1, 2]))]), formula(&all, claimed));
}

/// The assignment of a prefix that these bits say.
fn assignment(given: &Formula, bits: usize) -> Vec<bool> {
    let mut values = vec![false; given.highest_variable() + 1];
    for (at, row) in given.prefix.iter().enumerate() {
        values[row.1] = bits >> at & 1 == 1;
    }
    values
}

/// With its function for `x` the matrix is what the owner of `x` can make of it.
fn is_best(given: &Formula, x: Variable, function: &Node) -> bool {
    (0..1 << given.prefix.len()).all(|bits| {
        let mut values = assignment(given, bits);
        let answer = truth::holds(function, &values);
        let mut with = |value| {
            values[x] = value;
            truth::holds(&given.matrix, &values)
        };
        let (zero, one) = (with(false), with(true));
        let best = if given.quantifier(x) == Some(Exists) { zero | one } else { zero & one };
        with(answer) == best
    })
}

#[test]
fn responses_are_best_and_refusals_come_in_order() {
    let mut numbers = [0; 20];
    for reading in READINGS {
        let (format, rules) = (reading.format, reading.rules);
        cases(8_000, |rng| {
            let limits = Limits { variables: 6, ..Limits::small(format) };
            let given = if rng.one_in(5) {
                generate::formula(rng, limits)
            } else {
                generate::tidy_formula(rng, limits)
            };
            let sheet = format.encode(&given);
            let mut numbered = given.variables();
            numbered.extend([0, 1, 257, usize::MAX]);
            let x = rng.pick(&numbered);
            let settles = settle_value(&given, x).is_some();
            let bound = given.quantifier(x).is_some();
            let inside = rules.innermost_block(&given).contains(&x);
            let raw = if settles { 1 } else { copied_rows(&given, x) };
            let exact = format.sheet_length(given.prefix.len().saturating_sub(1), raw);
            let room = length_around(rng, format, exact);
            let before = dirty(rng, room);
            let mut output = before.clone();
            let answer = reading.response(&sheet, x, &mut output);
            let expected = [
                (9, !rules.is_tidy(&given.matrix)),
                (10, !bound),
                (11, !settles && !inside),
                (13, room < exact),
            ];
            let expected = expected.iter().find(|test| test.1).map_or(0, |test| test.0);
            assert_eq!(answer.number(), expected, "{x} of {given:?}");
            numbers[expected] += 1;
            let Answer::Accepted(length) = answer else {
                assert_eq!(output, before);
                return;
            };
            assert!(output[length..].iter().all(|&byte| byte == 0));
            let written = format.parse(&output[..length]).expect("a good sheet");
            let rest = given.prefix.iter().copied().filter(|row| row.1 != x);
            assert_eq!(written.prefix, rest.collect::<Vec<_>>());
            assert!(rules.is_tidy(&written.matrix));
            assert!(written.matrix.rows() <= given.matrix.rows());
            assert!(!written.matrix.variables().contains(&x));
            assert!(is_best(&given, x, &written.matrix), "{x} of {given:?}");
        });
    }
    for number in [0, 9, 10, 11, 13] {
        assert!(numbers[number] > 500, "{numbers:?}");
    }
}

/// E of an expansion: the rows of what is copied.
fn copied_rows(given: &Formula, x: Variable) -> usize {
    given.quantifier(x).map_or(1, |_| raw_expansion(given, x).e)
}

/// Every play of the other side is lost, and the claim says so.
#[test]
fn winners_win_every_play() {
    let (mut sides, mut read_others, mut left) = ([0; 2], 0, 0);
    for reading in READINGS {
        cases(8_000, |rng| {
            let limits = Limits { variables: 7, ..Limits::small(reading.format) };
            let given = generate::formula(rng, limits);
            let sheet = reading.format.encode(&given);
            let (side, pairs, bytes) = winning(reading, &sheet).expect("a large buffer");
            assert_eq!(side == Exists, truth::is_true(&given));
            assert!(truth::wins(side, &given, &pairs), "{given:?}");
            let rest = claim(reading, &sheet, side, &bytes).expect("a claim");
            assert_eq!(rest.prefix.len(), given.prefix.len());
            assert_eq!(truth::is_true(&rest), side == Exists, "{given:?}");
            // The same pairs are none of the other side's, but where nobody has a variable.
            if !given.prefix.is_empty() {
                let other = claim(reading, &sheet, side.other(), &bytes);
                assert_eq!(other.err(), Some((2, 26, 0)));
            }
            sides[usize::from(side == Exists)] += usize::from(!pairs.is_empty());
            let own = |v: &Variable| given.quantifier(*v) == Some(side);
            read_others +=
                usize::from(pairs.iter().any(|pair| pair.function.variables().iter().any(own)));
            left += usize::from(pairs.last().is_some_and(|last| last.function == or(vec![])));
        });
    }
    assert!(sides.iter().all(|&count| count > 2_000), "{sides:?}");
    assert!(read_others > 200 && left > 2_000, "{read_others} {left}");
}

/// Answer, work buffers and stops are Solve's, whatever the output's length.
#[test]
fn strategy_is_solve_with_an_output_beside_it() {
    let mut seen = [0; 4];
    for reading in READINGS {
        let format = reading.format;
        cases(6_000, |rng| {
            let whole = generate::sheet(rng, Limits::small(format));
            let sheet = if rng.one_in(6) { generate::damage(rng, format, &whole) } else { whole };
            let room = sheet.len().saturating_sub(2) + rng.below(2 * sheet.len() + 4);
            let wide = [room, room, format.longest_sheet()];
            let (answer, [_, _, full]) = strategy(reading, &sheet, wide);
            let exact = match answer {
                StrategyAnswer::Written { length, .. } => length,
                _ => 100,
            };
            let rooms = [room, room + rng.below(3), length_around(rng, format, exact)];
            let (answer, [first, second, output]) = strategy(reading, &sheet, rooms);
            let [mut solved_first, mut solved_second] =
                [rooms[0], rooms[1]].map(|room| vec![0xa5; room]);
            let solved = reading.solve(&sheet, &mut solved_first, &mut solved_second);
            assert_eq!(answer.solve_part(), solved);
            assert_eq!((first, second), (solved_first, solved_second));
            let zeros = || output.iter().all(|&byte| byte == 0);
            seen[match answer {
                StrategyAnswer::Refused(..) => {
                    assert!(output.iter().all(|&byte| byte == 0xa5));
                    0
                }
                StrategyAnswer::Stopped { .. } => {
                    assert!(zeros());
                    1
                }
                StrategyAnswer::Written { length, .. } => {
                    assert_eq!((length, &output[..length]), (exact, &full[..exact]));
                    assert!(output[length..].iter().all(|&byte| byte == 0));
                    2
                }
                StrategyAnswer::TooLong { rows, .. } => {
                    let (v, n) = format.sizes(&full).expect("a sheet");
                    assert_eq!((rows, format.sheet_length(v, n)), (n, exact));
                    assert!(output.len() < exact && zeros());
                    3
                }
            }] += 1;
        });
    }
    assert!(seen.iter().all(|&count| count > 300), "{seen:?}");
}

/// A function with the later pairs' functions in place of their variables.
fn composed(function: &Node, later: &[Pair]) -> Node {
    match function {
        Node::Lit { positive, var } => match later.iter().position(|pair| pair.variable == *var) {
            None => function.clone(),
            Some(at) => {
                let node = composed(&later[at].function, &later[at + 1..]);
                if *positive {
                    node
                } else {
                    negated(&node)
                }
            }
        },
        Node::Op { kind, children } => Node::Op {
            kind: *kind,
            children: children.iter().map(|child| composed(child, later)).collect(),
        },
    }
}

/// Whether a pair, with those behind it, reads what it may not.
fn is_at_fault(side: Quantifier, prefix: &[Binding], pairs: &[Pair]) -> bool {
    let place = prefix.iter().position(|row| row.1 == pairs[0].variable).expect("a bound variable");
    let read = composed(&pairs[0].function, &pairs[1..]).variables();
    let in_front = &prefix[..place];
    !read.iter().all(|var| in_front.contains(&(side.other(), *var)))
}

/// Whether the pairs are one for each variable of the side.
fn covers(side: Quantifier, prefix: &[Binding], pairs: &[Pair]) -> bool {
    let of = |x| pairs.iter().filter(|pair| pair.variable == x).count();
    prefix.iter().all(|&(quantifier, x)| of(x) == usize::from(quantifier == side))
}

/// A damaged strategy is refused for what is wrong with it, or its claim says
/// whether it still wins.
#[test]
fn damaged_strategies() {
    let (mut wins, mut loses, mut numbers, mut late) = (0, 0, [0; 28], 0);
    for reading in READINGS {
        let format = reading.format;
        cases(15_000, |rng| {
            let given = generate::formula(rng, Limits { format, variables: 6, nodes: 30 });
            let sheet = format.encode(&given);
            let (side, pairs, _) = winning(reading, &sheet).expect("a large buffer");
            let mut damaged = generate::damage_strategy(rng, &given.prefix, &pairs);
            if let (true, Some(pairs)) = (rng.one_in(3), pairs_of(&damaged.matrix)) {
                damaged = generate::damage_strategy(rng, &damaged.prefix, &pairs);
            }
            let bytes = format.encode(&damaged);
            let pairs = pairs_of(&damaged.matrix);
            match (claim(reading, &sheet, side, &bytes), pairs) {
                (Ok(claim), Some(pairs)) => {
                    let won = truth::wins(side, &given, &pairs);
                    assert_eq!(
                        truth::is_true(&claim) == (side == Exists),
                        won,
                        "{given:?} {damaged:?}"
                    );
                    assert_eq!(damaged.prefix, given.prefix);
                    assert!(covers(side, &given.prefix, &pairs));
                    *(if won { &mut wins } else { &mut loses }) += 1;
                }
                (Err((2, 27, place)), Some(pairs)) => {
                    let above = given.prefix.len() + 1;
                    let rows = |at: usize| damaged.matrix.children()[..at].iter().map(Node::rows);
                    let at = (0..pairs.len()).find(|&at| above + rows(at).sum::<usize>() == place);
                    let at = at.expect("the row of a pair");
                    let fault = |at: usize| is_at_fault(side, &given.prefix, &pairs[at..]);
                    assert!(
                        fault(at) && !(at + 1..pairs.len()).any(fault),
                        "{given:?} {damaged:?}"
                    );
                    late += usize::from(at > 0);
                    numbers[27] += 1;
                }
                (Err((2, 26, 0)), pairs) => {
                    let same = damaged.prefix == given.prefix;
                    let covered = pairs.is_some_and(|pairs| covers(side, &given.prefix, &pairs));
                    assert!(!(same && covered), "{given:?} {damaged:?}");
                    numbers[26] += 1;
                }
                (Err((2, 7, _)), _) => assert!(given.prefix.is_empty()),
                (other, pairs) => panic!("{other:?} with {pairs:?}"),
            }
        });
    }
    assert!(numbers[26] > 5_000 && numbers[27] > 2_500 && late > 500, "{numbers:?} {late}");
    assert!(wins > 2_500 && loses > 1_200, "{wins} {loses}");
}

/// Which sheet is refused, the output's 13 last, and an output that stays as it is.
#[test]
fn refusals_of_claims() {
    let mut seen = [0; 4];
    for reading in READINGS {
        let format = reading.format;
        cases(4_000, |rng| {
            let given = generate::formula(rng, Limits::small(format));
            let whole = format.encode(&given);
            let (side, pairs, bytes) = winning(reading, &whole).expect("a large buffer");
            let damaged = |rng: &mut Rng, bytes: &[u8]| match rng.below(4) {
                0 => generate::damage(rng, format, bytes),
                _ => bytes.to_vec(),
            };
            let (sheet, strategy) = (damaged(rng, &whole), damaged(rng, &bytes));
            let doubled: usize = pairs.iter().map(|pair| 4 + 2 * pair.function.rows()).sum();
            let rows = 1 + given.matrix.rows() + doubled;
            let exact = format.sheet_length(given.prefix.len(), rows);
            let room = length_around(rng, format, exact);
            let before = dirty(rng, room);
            let mut output = before.clone();
            let answer = reading.claim(&sheet, side, &strategy, &mut output);
            if !matches!(answer, ClaimAnswer::Written(_)) {
                assert_eq!(output, before);
            }
            let refused =
                |which, (number, place): Refusal| ClaimAnswer::Refused(which, number, place);
            if let Err(refusal) = format.check(&sheet) {
                assert_eq!(answer, refused(1, refusal));
                seen[0] += 1;
            } else if let Err(refusal) = format.check(&strategy) {
                assert_eq!(answer, refused(2, refusal));
                seen[1] += 1;
            } else if (&sheet, &strategy) == (&whole, &bytes) {
                let written = room >= exact;
                seen[if written { 2 } else { 3 }] += 1;
                assert_eq!(
                    answer,
                    if written { ClaimAnswer::Written(exact) } else { refused(0, (13, 0)) }
                );
            }
        });
    }
    assert!(seen.iter().all(|&count| count > 300), "{seen:?}");
}

/// The deepest, the widest and any others of full size: as Solve, and a claim
/// that is written or too long.
#[test]
fn sheets_of_full_size() {
    with_deep_stack(|| {
        let (mut written, mut claimed, mut long) = (0, 0, 0);
        for reading in READINGS {
            let format = reading.format;
            let mut try_sheet = |sheet: &[u8]| {
                let room = format.longest_sheet();
                let (answer, [first, second, output]) = strategy(reading, sheet, [room; 3]);
                let [mut solved_first, mut solved_second] = [room; 2].map(|room| vec![0xa5; room]);
                let solved = reading.solve(sheet, &mut solved_first, &mut solved_second);
                assert_eq!(answer.solve_part(), solved);
                assert_eq!((first, second), (solved_first, solved_second));
                let StrategyAnswer::Written { verdict, length, .. } = answer else {
                    return;
                };
                written += 1;
                let side = if verdict { Exists } else { ForAll };
                match claim(reading, sheet, side, &output[..length]) {
                    Ok(_) => claimed += 1,
                    Err(refusal) => {
                        assert_eq!(refusal, (0, 13, 0));
                        long += 1;
                    }
                }
            };
            generate::limit_sheets(format).iter().for_each(|limit| try_sheet(&limit.sheet));
            cases(8, |rng| try_sheet(&generate::sheet(rng, Limits::full(format))));
        }
        assert!(written > 30 && claimed > 20 && long > 10, "{written} {claimed} {long}");
    });
}

/// A strategy with too many rows for the format, though the output has room.
#[test]
fn strategies_past_the_rows_of_a_sheet() {
    let format = Format { most_nodes: 24, ..Format::NARROW };
    let reading = Reading { format, ..Reading::NARROW };
    let (mut written, mut long) = (0, 0);
    cases(2_000, |rng| {
        let given = generate::formula(rng, Limits { format, variables: 8, nodes: 24 });
        let (answer, [_, _, output]) = strategy(reading, &format.encode(&given), [1_000; 3]);
        match answer {
            StrategyAnswer::Written { length, .. } => {
                assert!(format.check(&output[..length]).is_ok());
                written += 1;
            }
            StrategyAnswer::TooLong { rows, .. } => {
                assert!(rows > 24 && output.iter().all(|&byte| byte == 0));
                long += 1;
            }
            _ => (),
        }
    });
    assert!(written > 1_000 && long > 50, "{written} {long}");
}

/// The same of a claim.
#[test]
fn claims_past_the_rows_of_a_sheet() {
    with_deep_stack(|| {
        let reading = Reading::NARROW;
        let format = reading.format;
        let function = or((0..600).map(|_| clause(&[1, -1])).collect());
        let given =
            formula(&[(ForAll, 1), (Exists, 2)], and(vec![clause(&[1, 2]), clause(&[-1, 2])]));
        let sheet = format.encode(&given);
        let pairs = [pair(2, function)];
        let strategy = format.encode(&strategy_formula(&given.prefix, &pairs));
        assert!(claim(reading, &sheet, Exists, &strategy).is_ok());
        let pairs = [pair(2, or((0..1_200).map(|_| clause(&[1, -1])).collect()))];
        let strategy = format.encode(&strategy_formula(&given.prefix, &pairs));
        let answer = reading.claim(&sheet, Exists, &strategy, &mut vec![0; 1 << 20]);
        assert_eq!(answer, ClaimAnswer::Refused(0, 13, 0));
    });
}

/// Solve's runs on larger sheets: the claim's clauses are satisfied by nothing.
fn claimed_outside(reading: Reading, given: &Formula) -> Option<bool> {
    let sheet = reading.format.encode(given);
    let (side, _, bytes) = winning(reading, &sheet)?;
    let claim = claim(reading, &sheet, side, &bytes).ok()?;
    let said = cadical::verdict(side.other(), &claim)?;
    assert_eq!(said, side == Exists, "{given:?}");
    Some(said)
}

#[test]
fn a_solver_from_outside_finds_no_play_that_beats_them() {
    with_deep_stack(|| {
        let (mut verdicts, mut families) = ([0; 2], [0; 5]);
        for reading in READINGS {
            cases(400, |rng| {
                let given = generate::solver_formula(rng, reading.format);
                if let Some(verdict) = claimed_outside(reading, &given) {
                    verdicts[usize::from(verdict)] += 1;
                }
            });
            for (family, count) in LITERATURE.iter().zip(&mut families) {
                for n in 1..5 {
                    *count += usize::from(claimed_outside(reading, &family.formula(n)).is_some());
                }
            }
        }
        for family in
            [Family::Clauses, Family::Tidy, Family::Parity, Family::Ladder, Family::Untidy]
        {
            cases(40, |rng| {
                for (variables, nodes) in [(20, 100), (40, 250), (80, 800), (160, 2500)] {
                    let limits = Limits { format: Format::WIDE, variables, nodes };
                    let given = generate::alternating_formula(rng, family, limits);
                    if let Some(verdict) = claimed_outside(Reading::WIDE, &given) {
                        verdicts[usize::from(verdict)] += 1;
                    }
                }
            });
        }
        assert!(verdicts.iter().all(|&count| count > 250), "{verdicts:?}");
        assert!(families.iter().all(|&count| count > 3), "{families:?}");
    });
}
