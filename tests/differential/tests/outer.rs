//! Outer against the independent reading: truth and verdicts before and after,
//! outputs of any contents and of every length around the limit, damaged sheets,
//! sheets with every number in use, and lists that mix all kinds of calls.

use differential::compare::{cases, hexadecimal, limit_sheets};
use differential::{Library, LIBRARIES};
use outside::formulas::{clause, formula};
use outside::generate::{self, damage, dirty, length_around, paired_formula, Limits, Rng};
use outside::reference::*;
use outside::{depqbf, truth, with_deep_stack};
use Quantifier::{Exists, ForAll};

/// A formula for the step: clauses of two literals, or any tidy one.
fn outer_formula(rng: &mut Rng, limits: Limits) -> Formula {
    match rng.below(6) {
        0 => generate::tidy_formula(rng, limits),
        1 => generate::spare_formula(rng, limits),
        _ => paired_formula(rng, limits),
    }
}

/// The length of the raw sheet if the step is allowed, and else any.
fn exact_room(library: &Library, formula: &Formula, x: Variable) -> usize {
    let format = library.reading.format;
    let step = block_behind(formula, x)
        .and_then(|block| format.outer_expansion(formula, x, &block))
        .map(|step| format.sheet_length(step.raw.prefix.len(), step.raw.matrix.rows()));
    step.unwrap_or(100)
}

fn variable(rng: &mut Rng, formula: &Formula) -> Variable {
    let universal: Vec<Variable> =
        formula.prefix.iter().filter(|row| row.0 == ForAll).map(|row| row.1).collect();
    match rng.below(8) {
        0 => rng.pick(&[0, 1, 2, 256, 257, 1024, 1025, 65_537, usize::MAX]),
        1 if !formula.prefix.is_empty() => rng.pick(&formula.prefix).1,
        _ if !universal.is_empty() => rng.pick(&universal),
        _ => 1,
    }
}

#[test]
fn small_sheets_and_their_truth() {
    let (mut numbers, mut copied) = ([0; 20], 0);
    cases(12_000, |library, rng| {
        let format = library.reading.format;
        let given = outer_formula(rng, Limits { variables: 7, ..Limits::small(format) });
        let sheet = format.encode(&given);
        let x = variable(rng, &given);
        let exact = exact_room(library, &given, x);
        let room = length_around(rng, format, exact);
        let before = dirty(rng, room);
        let outcome = library.agree_on_outer(&sheet, x, &before);
        numbers[outcome.answer.number()] += 1;
        match outcome.answer {
            Answer::Refused(..) => assert_eq!(outcome.buffers[0], before),
            Answer::Accepted(step) => {
                let read = format.parse(&outcome.buffers[0][..step.length]).expect("a good sheet");
                assert_eq!(
                    truth::is_true(&read),
                    truth::is_true(&given),
                    "{}",
                    hexadecimal(&sheet)
                );
                copied += usize::from(step.count > 1);
            }
        }
    });
    assert!([0, 10, 11, 13].iter().all(|&number| numbers[number] > 500), "{numbers:?}");
    assert!(copied > 1_000, "{copied}");
}

#[test]
fn every_length_around_the_limit() {
    cases(300, |library, rng| {
        let format = library.reading.format;
        let given = outer_formula(rng, Limits { variables: 6, nodes: 24, format });
        let sheet = format.encode(&given);
        let x = variable(rng, &given);
        let exact = exact_room(library, &given, x);
        for room in exact.saturating_sub(20)..exact + 20 {
            library.agree_on_outer(&sheet, x, &dirty(rng, room));
        }
    });
}

#[test]
fn damaged_sheets_and_untidy_ones() {
    cases(6_000, |library, rng| {
        let format = library.reading.format;
        let given = generate::formula(rng, Limits::small(format));
        let whole = format.encode(&given);
        let x = variable(rng, &given);
        library.agree_on_outer(&whole, x, &dirty(rng, 600));
        library.agree_on_outer(&damage(rng, format, &whole), x, &dirty(rng, 600));
    });
}

/// As many spare rows in front as leave just enough numbers, or one too few.
#[test]
fn every_number_in_use() {
    let mut numbers = [0; 20];
    cases(400, |library, rng| {
        let format = library.reading.format;
        let mut given = paired_formula(rng, Limits { format, variables: 9, nodes: 60 });
        let used = given.variables();
        let mut spare: Vec<Variable> =
            (1..=format.most_variables).filter(|var| !used.contains(var)).collect();
        rng.shuffle(&mut spare);
        spare.truncate(spare.len() - rng.below(6));
        given.prefix.splice(0..0, spare.into_iter().map(|var| (Exists, var)));
        let sheet = format.encode(&given);
        let x = variable(rng, &given);
        let room = rng.pick(&[0, format.longest_sheet()]);
        numbers[library.agree_on_outer(&sheet, x, &dirty(rng, room)).answer.number()] += 1;
    });
    assert!(numbers[18] > 100 && numbers[0] > 50, "{numbers:?}");
}

#[test]
fn large_sheets_and_the_limits() {
    with_deep_stack(|| {
        let (mut accepted, mut copied) = (0, 0);
        cases(60, |library, rng| {
            let format = library.reading.format;
            for (variables, nodes) in [(40, 400), (200, 2_000), (200, 4_000)] {
                let given = outer_formula(rng, Limits { format, variables, nodes });
                let sheet = format.encode(&given);
                for _ in 0..3 {
                    let x = variable(rng, &given);
                    let before = dirty(rng, format.longest_sheet());
                    if let Answer::Accepted(step) =
                        library.agree_on_outer(&sheet, x, &before).answer
                    {
                        accepted += 1;
                        copied += step.count;
                    }
                }
            }
        });
        assert!(accepted > 100 && copied > 1_000, "{accepted} {copied}");
        limit_sheets(|library, sheet| {
            for x in [0, 1, 2, 256, 1024] {
                let room = library.reading.format.longest_sheet();
                library.agree_on_outer(sheet, x, &vec![165; room]);
            }
        });
    });
}

/// A chain of two-literal clauses: the closure takes as many turns as it has links.
#[test]
fn long_chains() {
    for library in &LIBRARIES {
        let format = library.reading.format;
        for links in [1, 2, 60, 126, 127, 128] {
            let mut prefix = vec![(ForAll, 1)];
            prefix.extend((2..=links + 1).map(|var| (Exists, var)));
            let link = |at: i32, sign: i32| clause(&[sign * at, -sign * (at + 1)]);
            let clauses = (1..=links as i32).flat_map(|at| [link(at, 1), link(at, -1)]);
            let given = formula(&prefix, Node::and(clauses.collect()));
            let sheet = format.encode(&given);
            let outcome = library.agree_on_outer(&sheet, 1, &vec![165; format.longest_sheet()]);
            let copied = outcome.answer.accepted().map(|step| (step.count, step.lowest));
            let enough = format.most_variables - prefix.len() >= links;
            assert_eq!(copied, enough.then_some((links, 2)), "{links}");
        }
    }
}

/// Lists that mix all kinds of calls, each on the sheet held: truth is kept, and
/// variables left and accepted calls are those at the start and the copies made.
#[test]
fn lists_of_all_kinds_of_calls() {
    let (mut outer_calls, mut others, mut refused) = (0, 0, 0);
    cases(4_000, |library, rng| {
        let format = library.reading.format;
        let first = outer_formula(rng, Limits { variables: 6, ..Limits::small(format) });
        let is_true = truth::is_true(&first);
        let mut held = format.encode(&first);
        let (mut accepted, mut copies) = (0, 0);
        for _ in 0..rng.between(1, 14) {
            let here = format.parse(&held).expect("a good sheet");
            let next = if rng.one_in(2) {
                let x = variable(rng, &here);
                let room = length_around(rng, format, exact_room(library, &here, x));
                let outcome = library.agree_on_outer(&held, x, &dirty(rng, room));
                outcome.answer.accepted().map(|step| {
                    outer_calls += 1;
                    copies += step.count;
                    outcome.buffers[0][..step.length].to_vec()
                })
            } else {
                let call = generate::call(rng, &library.reading, &here);
                let outcome = library.agree_on_call(&held, call, &dirty(rng, call.room));
                others += usize::from(outcome.sheet().is_some());
                outcome.sheet().map(<[u8]>::to_vec)
            };
            match next {
                Some(sheet) => {
                    held = sheet;
                    accepted += 1;
                }
                None => refused += 1,
            }
            let last = format.parse(&held).expect("a good sheet");
            let told = format!("first {}", hexadecimal(&format.encode(&first)));
            assert_eq!(last.prefix.len() + accepted, first.prefix.len() + copies, "{told}");
            assert!(library.reading.rules.is_tidy(&last.matrix), "{told}");
            if let Some(verdict) = verdict(&last.matrix) {
                assert_eq!(verdict, is_true, "{told}");
            } else if last.prefix.len() <= 11 {
                assert_eq!(truth::is_true(&last), is_true, "{told}");
            }
            if held.len() > 1_500 {
                break;
            }
        }
    });
    assert!(outer_calls > 4_000 && others > 4_000 && refused > 4_000);
}

#[test]
fn verdicts_before_and_after() {
    let mut compared = 0;
    cases(100, |library, rng| {
        let format = library.reading.format;
        let given = paired_formula(rng, Limits { format, variables: 30, nodes: 200 });
        let sheet = format.encode(&given);
        let x = variable(rng, &given);
        let before = vec![165; format.longest_sheet()];
        let outcome = library.agree_on_outer(&sheet, x, &before);
        if let Answer::Accepted(step) = outcome.answer {
            let read = format.parse(&outcome.buffers[0][..step.length]).expect("a good sheet");
            let verdicts = (depqbf::verdict(&given), depqbf::verdict(&read));
            if let (Some(before), Some(after)) = verdicts {
                assert_eq!(before, after, "{}", hexadecimal(&sheet));
                compared += 1;
            }
        }
    });
    assert!(compared > 60, "{compared}");
}
