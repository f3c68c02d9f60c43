//! Universal variables one block out, as the independent reading has it: by hand,
//! against truth by brute force, in lists of calls, at the limits of numbers, and
//! against a solver from outside.

use outside::depqbf;
use outside::formulas::{and, clause, formula, lit, or};
use outside::generate::{self, call, cases, dirty, length_around, paired_formula, Limits, Rng};
use outside::reference::*;
use outside::truth;
use Quantifier::{Exists, ForAll};

const READINGS: [Reading; 2] = [Reading::NARROW, Reading::WIDE];

/// The step on a formula, with room enough.
fn stepped(reading: Reading, formula: &Formula, x: Variable) -> Result<(Formula, Copied), u8> {
    let sheet = reading.format.encode(formula);
    let mut output = vec![0xa5; reading.format.longest_sheet()];
    match reading.outer(&sheet, x, &mut output) {
        Answer::Refused(number, _) => {
            assert!(output.iter().all(|&byte| byte == 0xa5));
            Err(number)
        }
        Answer::Accepted(copied) => {
            assert!(output[copied.length..].iter().all(|&byte| byte == 0));
            let read = reading.format.parse(&output[..copied.length]).expect("a good sheet");
            Ok((read, copied))
        }
    }
}

/// For all 1, exists 2 and 3: 2 and 3 are equal, and 1 and 2 differ.
fn closure_needed() -> Formula {
    formula(
        &[(ForAll, 1), (Exists, 2), (Exists, 3)],
        and(vec![clause(&[-2, 3]), clause(&[2, -3]), clause(&[-1, -2]), clause(&[1, 2])]),
    )
}

#[test]
fn by_hand() {
    for reading in READINGS {
        // 2 stands beside 1, and 3 beside 2: both are copied, though 3 is no sibling of 1.
        let (read, copied) = stepped(reading, &closure_needed(), 1).expect("accepted");
        assert_eq!((copied.count, copied.lowest), (2, 2));
        let wanted = and(vec![
            clause(&[-2, 3]),
            clause(&[2, -3]),
            lit(2),
            clause(&[-4, 5]),
            clause(&[4, -5]),
            lit(-4),
        ]);
        let prefix = [(Exists, 2), (Exists, 3), (Exists, 4), (Exists, 5)];
        assert_eq!(read, formula(&prefix, wanted));
        assert!(truth::is_true(&read));
        // Only what 1 is linked with is copied; numbers by prefix order, 1 not among them.
        let linked = formula(
            &[(Exists, 9), (ForAll, 1), (ForAll, 3), (Exists, 7), (Exists, 2), (Exists, 4)],
            and(vec![
                clause(&[1, 7]),
                clause(&[-7, 4]),
                clause(&[2, 3]),
                clause(&[-2, -3]),
                clause(&[-1, 9]),
            ]),
        );
        let (read, copied) = stepped(reading, &linked, 1).expect("accepted");
        assert_eq!((copied.count, copied.lowest), (2, 4));
        let rows = [
            (Exists, 9),
            (ForAll, 3),
            (Exists, 7),
            (Exists, 2),
            (Exists, 4),
            (Exists, 5),
            (Exists, 6),
        ];
        assert_eq!(read.prefix, rows);
        // 3, behind 1 and universal too, is one block out as well; 9 and 7 are not.
        assert_eq!(stepped(reading, &linked, 3).expect("accepted").1.count, 1);
        for x in [9, 7, 2, 4] {
            assert_eq!(stepped(reading, &linked, x), Err(11), "{x}");
        }
        for x in [0, 5, 256, 257, usize::MAX] {
            assert_eq!(stepped(reading, &linked, x), Err(10), "{x}");
        }
    }
}

#[test]
fn where_it_is_allowed() {
    let matrix = and(vec![clause(&[1, 2]), clause(&[-1, -2])]);
    for (prefix, number) in [
        (vec![(ForAll, 1), (Exists, 2)], None),
        // Spare rows of any kind don't matter.
        (vec![(ForAll, 1), (Exists, 3), (ForAll, 4), (Exists, 2), (ForAll, 5)], None),
        (vec![(Exists, 2), (ForAll, 1)], Some(11)),
        (vec![(Exists, 1), (Exists, 2)], Some(11)),
        (vec![(ForAll, 1), (ForAll, 2)], Some(11)),
    ] {
        let given = formula(&prefix, matrix.clone());
        assert_eq!(stepped(Reading::NARROW, &given, 1).err(), number, "{prefix:?}");
    }
    // Two existential blocks with literals lie behind 1.
    let rows = [(ForAll, 1), (Exists, 2), (ForAll, 3), (Exists, 4)];
    let far = formula(&rows, and(vec![clause(&[1, 2]), clause(&[3, 4]), clause(&[-3, -2])]));
    assert_eq!(stepped(Reading::NARROW, &far, 1).err(), Some(11));
    assert_eq!(stepped(Reading::NARROW, &far, 3).err(), None);
    // Without a literal only the row goes; a literal alone depends on nothing.
    let absent = formula(&[(ForAll, 3), (ForAll, 1), (Exists, 2)], matrix.clone());
    let (read, copied) = stepped(Reading::NARROW, &absent, 3).expect("accepted");
    assert_eq!((copied.count, copied.lowest), (0, 0));
    assert_eq!(read, formula(&[(ForAll, 1), (Exists, 2)], matrix));
    let alone = formula(&[(ForAll, 1), (Exists, 2)], or(vec![lit(1), lit(2)]));
    let (read, copied) = stepped(Reading::NARROW, &alone, 1).expect("accepted");
    assert_eq!((copied.count, read), (0, formula(&[(Exists, 2)], lit(2))));
}

#[test]
fn refusals_in_their_order() {
    let reading = Reading::NARROW;
    let untidy = formula(&[(ForAll, 1)], and(vec![and(vec![])]));
    assert_eq!(stepped(reading, &untidy, 7), Err(9));
    // All numbers in use: 18 as soon as something is copied, and before 13.
    let full = |spare: usize| {
        let mut given = closure_needed();
        given.prefix.splice(0..0, (4..4 + spare).map(|var| (Exists, var)));
        given
    };
    for (spare, number) in [(253, Some(18)), (252, Some(18)), (251, None)] {
        let given = full(spare);
        assert_eq!(stepped(reading, &given, 1).err(), number, "{spare}");
        let sheet = reading.format.encode(&given);
        let answer = reading.outer(&sheet, 1, &mut [0; 4]);
        assert_eq!(answer.number(), number.map_or(13, usize::from));
        assert_eq!(stepped(Reading::WIDE, &given, 1).err(), None);
    }
    let (read, _) = stepped(reading, &full(251), 1).expect("accepted");
    assert_eq!(read.prefix[read.prefix.len() - 2..], [(Exists, 255), (Exists, 256)]);
    // The raw rows, and the copied quantifier rows in the length alone.
    for reading in READINGS {
        let sheet = reading.format.encode(&closure_needed());
        let exact = reading.format.sheet_length(2 + 2, 13 + 13 + 1);
        for room in exact - 9..exact + 9 {
            let answer = reading.outer(&sheet, 1, &mut vec![0; room]);
            assert_eq!(answer.number(), if room < exact { 13 } else { 0 });
        }
    }
}

/// A formula for the step: paired, or any tidy one.
fn outer_formula(rng: &mut Rng, format: Format, variables: usize) -> Formula {
    let limits = Limits { variables, ..Limits::small(format) };
    if rng.one_in(4) {
        generate::tidy_formula(rng, limits)
    } else {
        paired_formula(rng, limits)
    }
}

#[test]
fn truth_is_kept() {
    let (mut accepted, mut copied_some, mut verdicts, mut closures) = (0, 0, [0; 2], 0);
    for reading in READINGS {
        cases(3_000, |rng| {
            let given = outer_formula(rng, reading.format, 7);
            let is_true = truth::is_true(&given);
            for x in given.variables() {
                let Ok((read, copied)) = stepped(reading, &given, x) else {
                    continue;
                };
                assert!(reading.rules.is_tidy(&read.matrix));
                assert_eq!(read.prefix.len(), given.prefix.len() - 1 + copied.count);
                assert_eq!(truth::is_true(&read), is_true, "{x} of {given:?}");
                accepted += 1;
                copied_some += usize::from(copied.count > 1);
                verdicts[usize::from(is_true)] += 1;
                closures += usize::from(first_stage_differs(&given, x, copied.count));
            }
        });
    }
    assert!(accepted > 5_000 && copied_some > 2_000, "{accepted} {copied_some}");
    assert!(closures > 200 && verdicts.iter().all(|&count| count > 500), "{closures} {verdicts:?}");
}

/// Whether the variables beside `x` alone are fewer than those copied.
fn first_stage_differs(formula: &Formula, x: Variable, count: usize) -> bool {
    let children = formula.matrix.children().iter();
    let beside = children.map(Node::variables).filter(|variables| variables.contains(&x));
    let beside: std::collections::BTreeSet<Variable> = beside.flatten().collect();
    let block = block_behind(formula, x).expect("an accepted step");
    block.iter().filter(|var| beside.contains(var)).count() < count
}

/// Lists that mix all kinds of calls: truth is kept, and variables left and
/// accepted calls are those at the start and the copies made.
#[test]
fn lists_of_all_kinds_of_calls() {
    let (mut outer_calls, mut other_calls, mut refused) = (0, 0, 0);
    for reading in READINGS {
        let format = reading.format;
        cases(1_500, |rng| {
            let first = outer_formula(rng, format, 7);
            let mut held = format.encode(&first);
            let (mut accepted, mut copies) = (0, 0);
            for _ in 0..10 {
                let here = format.parse(&held).expect("the sheet held");
                let next = if rng.one_in(2) {
                    let x = if here.prefix.is_empty() { 1 } else { rng.pick(&here.prefix).1 };
                    let room = length_around(rng, format, held.len() * 2 + 40);
                    let mut output = dirty(rng, room);
                    let answer = reading.outer(&held, x, &mut output);
                    answer.accepted().map(|copied| {
                        outer_calls += 1;
                        copies += copied.count;
                        output[..copied.length].to_vec()
                    })
                } else {
                    let call = call(rng, &reading, &here);
                    let mut output = dirty(rng, call.room);
                    let answer = reading.step(call.operation, &held, call.variable, &mut output);
                    answer.accepted().map(|length| {
                        other_calls += 1;
                        output[..length].to_vec()
                    })
                };
                match next {
                    Some(sheet) => {
                        held = sheet;
                        accepted += 1;
                    }
                    None => refused += 1,
                }
                if held.len() > 2_000 {
                    break;
                }
            }
            let last = format.parse(&held).expect("the sheet held");
            assert_eq!(last.prefix.len() + accepted, first.prefix.len() + copies);
            assert!(reading.rules.is_tidy(&last.matrix));
            if let Some(verdict) = verdict(&last.matrix) {
                assert_eq!(verdict, truth::is_true(&first), "{first:?}");
            } else if last.prefix.len() <= 12 {
                assert_eq!(truth::is_true(&last), truth::is_true(&first), "{first:?}");
            }
        });
    }
    assert!(outer_calls > 1_000 && other_calls > 1_000 && refused > 1_000);
}

#[test]
fn verdicts_before_and_after() {
    let mut compared = 0;
    for reading in READINGS {
        cases(60, |rng| {
            let limits = Limits { format: reading.format, variables: 24, nodes: 150 };
            let given = paired_formula(rng, limits);
            let candidates = given.variables();
            let outer = candidates.into_iter().find(|&x| block_behind(&given, x).is_some());
            let Some(Ok((read, _))) = outer.map(|x| stepped(reading, &given, x)) else {
                return;
            };
            let (before, after) = (depqbf::verdict(&given), depqbf::verdict(&read));
            assert!(before == after || before.is_none() || after.is_none(), "{given:?}");
            compared += usize::from(before.is_some() && before == after);
        });
    }
    assert!(compared > 50, "{compared}");
}
