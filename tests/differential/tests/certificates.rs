//! Certify and Clauses against the independent reading: derivations of a solver
//! from outside, damaged ones, derivations of other formulas, and any words at all;
//! clauses of sheets of any size, in outputs of every length around the limits.

use differential::compare::{cases, hexadecimal, limit_sheets};
use differential::{Library, LIBRARIES};
use outside::formulas::{and, formula, lit};
use outside::generate::{
    self, any_words, clause_formula, damage, damage_steps, dirty, length_around, Limits, Rng,
};
use outside::literature::LITERATURE;
use outside::qdimacs::Qdimacs;
use outside::qrp::Trace;
use outside::reference::*;
use outside::{depqbf, truth, with_deep_stack};
use Certified::{Certain, Uncertain};
use Quantifier::Exists;

/// The trace of a clause set, if the solver comes to an end.
fn trace_of(clauses: &Formula) -> Option<Trace> {
    let text = Qdimacs::of_formula(clauses).expect("a clause set").text();
    depqbf::trace_of(&text).expect("depqbf is installed")
}

/// The words of a derivation that a trace has.
fn words(trace: &Trace) -> (Vec<u32>, Vec<u32>) {
    words_of(&trace.steps().expect("a whole trace"))
}

/// A clause set that isn't decided by its form alone, with few variables.
fn small_clauses(rng: &mut Rng, format: Format) -> Formula {
    loop {
        let limits = Limits { format, variables: 5, nodes: 18 };
        let given = if rng.one_in(2) {
            generate::tidy_formula(rng, limits)
        } else {
            clause_formula(rng, limits)
        };
        let clauses = format.clausal_formula(&given).expect("names enough");
        if clauses.prefix.len() <= 9 && verdict(&given.matrix).is_none() {
            return clauses;
        }
    }
}

/// A verdict is the truth of the formula.
fn is_right(answer: Answer<Certified>, given: &Formula) -> bool {
    match answer.accepted() {
        Some(Certain(verdict)) => verdict == truth::is_true(given),
        _ => true,
    }
}

#[test]
fn traces_and_damaged_ones() {
    let (mut verdicts, mut certain, mut uncertain, mut refused) = ([0; 2], 0, 0, 0);
    cases(100, |library, rng| {
        let format = library.reading.format;
        let clauses = small_clauses(rng, format);
        let sheet = format.encode(&clauses);
        let trace = trace_of(&clauses).expect("a small one");
        let (heads, codes) = words(&trace);
        let asked = usize::from(trace.verdict);
        let answer = library.agree_on_certify(&sheet, asked, &heads, &codes);
        assert_eq!(answer, Answer::Accepted(Certain(trace.verdict)), "{}", hexadecimal(&sheet));
        verdicts[asked] += 1;
        let other = library.agree_on_certify(&sheet, 1 - asked, &heads, &codes);
        assert!(matches!(other, Answer::Accepted(Uncertain(_))));
        let cut = damage(rng, format, &sheet);
        refused += library.agree_on_certify(&cut, asked, &heads, &codes).number().min(1);

        let (variables, whole) = (clauses.variables(), steps_said(&heads, &codes));
        for _ in 0..60 {
            let mut steps = whole.clone();
            for _ in 0..rng.between(1, 3) {
                if !steps.is_empty() {
                    damage_steps(rng, &variables, &mut steps);
                }
            }
            let (heads, codes) = words_of(&steps);
            let answer = library.agree_on_certify(&sheet, asked, &heads, &codes);
            assert!(is_right(answer, &clauses), "{} {steps:?}", hexadecimal(&sheet));
            match answer {
                Answer::Accepted(Certain(_)) => certain += 1,
                _ => uncertain += 1,
            }
        }
    });
    assert!(verdicts.iter().all(|&count| count > 50) && refused > 100, "{verdicts:?} {refused}");
    assert!(certain > 500 && uncertain > 3_000, "{certain} {uncertain}");
}

/// Rows of another kind, exchanged or dropped children: a derivation kept for the sheet before.
#[test]
fn traces_of_other_formulas() {
    let (mut certain, mut opposite) = (0, 0);
    cases(60, |library, rng| {
        let format = library.reading.format;
        let clauses = small_clauses(rng, format);
        let trace = trace_of(&clauses).expect("a small one");
        let (heads, codes) = words(&trace);
        for _ in 0..40 {
            let mut other = clauses.clone();
            let (at, second) = (rng.below(other.prefix.len()), rng.below(other.prefix.len()));
            match (rng.below(3), &mut other.matrix) {
                (0, _) => other.prefix[at].0 = other.prefix[at].0.other(),
                (1, _) => other.prefix.swap(at, second),
                (_, Node::Op { children, .. }) if !children.is_empty() => {
                    children.remove(rng.below(children.len()));
                }
                _ => (),
            }
            let sheet = format.encode(&other);
            let asked = usize::from(trace.verdict);
            let answer = library.agree_on_certify(&sheet, asked, &heads, &codes);
            assert!(is_right(answer, &other), "{}", hexadecimal(&sheet));
            certain += usize::from(matches!(answer, Answer::Accepted(Certain(_))));
            opposite += usize::from(truth::is_true(&other) != trace.verdict);
        }
    });
    assert!(certain > 1_000 && opposite > 300, "{certain} {opposite}");
}

#[test]
fn larger_traces() {
    let (mut verdicts, mut longest) = ([0; 2], 0);
    let mut certify = |library: &Library, clauses: &Formula| {
        if let Some(trace) = trace_of(clauses) {
            let (heads, codes) = words(&trace);
            let sheet = library.reading.format.encode(clauses);
            let asked = usize::from(trace.verdict);
            let answer = library.agree_on_certify(&sheet, asked, &heads, &codes);
            assert_eq!(answer, Answer::Accepted(Certain(trace.verdict)));
            verdicts[asked] += 1;
            longest = longest.max(heads.len() / 4);
        }
    };
    cases(40, |library, rng| {
        let format = library.reading.format;
        let given = Rules::CURRENT.tidy_formula(&generate::solver_formula(rng, format));
        if let Some(clauses) = format.clausal_formula(&given) {
            if clauses.matrix.rows() <= format.most_nodes {
                certify(library, &clauses);
            }
        }
    });
    for family in LITERATURE {
        (1..5).for_each(|n| certify(&differential::WIDE, &family.formula(n)));
    }
    assert!(verdicts.iter().all(|&count| count > 10) && longest > 100, "{verdicts:?} {longest}");
}

#[test]
fn any_words_at_all() {
    let (mut certain, mut valid) = (0, [0; 3]);
    cases(20_000, |library, rng| {
        let format = library.reading.format;
        let given = generate::formula(rng, Limits { format, variables: 4, nodes: 8 });
        let whole = format.encode(&given);
        let sheet = if rng.one_in(8) { damage(rng, format, &whole) } else { whole };
        let (heads, codes) = any_words(rng, &given.variables());
        for verdict in [0, rng.pick(&[1, 2, 256, usize::MAX])] {
            match library.agree_on_certify(&sheet, verdict, &heads, &codes) {
                Answer::Accepted(Certain(_)) => certain += 1,
                Answer::Accepted(Uncertain(count)) => valid[count.min(2)] += 1,
                Answer::Refused(..) => (),
            }
        }
    });
    assert!(certain > 150 && valid.iter().all(|&count| count > 1_000), "{certain} {valid:?}");
}

/// Antecedents, ends and codes at and past every limit.
#[test]
fn words_at_the_limits() {
    let numbers = [0, 1, 2, 3, 4, 5, 2047, 2048, 4095, 4096, 4098, 4099, u32::MAX - 1, u32::MAX];
    let mut certain = 0;
    for library in &LIBRARIES {
        let sheet =
            library.reading.format.encode(&formula(&[(Exists, 1)], and(vec![lit(1), lit(-1)])));
        // 1, then not 1, then neither.
        let heads = [0, 0, 0, 1, 0, 0, 0, 2, 3, 0, 1, 2];
        for verdict in [0, 1] {
            for length in 0..=heads.len() {
                library.agree_on_certify(&sheet, verdict, &heads[..length], &[2, 3]);
            }
            for at in 0..heads.len() {
                for number in numbers {
                    let mut heads = heads;
                    heads[at] = number;
                    let answer = library.agree_on_certify(&sheet, verdict, &heads, &[2, 3]);
                    certain += usize::from(matches!(answer, Answer::Accepted(Certain(_))));
                }
            }
            for at in 0..2 {
                for number in numbers {
                    let mut codes = [2, 3];
                    codes[at] = number;
                    library.agree_on_certify(&sheet, verdict, &heads, &codes);
                }
            }
        }
    }
    assert!(certain > 50, "{certain}");
}

/// The deepest and the widest sheets: one initial constraint of some literals, of all of one sign,
/// or of all.
#[test]
fn large_sheets() {
    with_deep_stack(|| {
        let mut rng = Rng::new(generate::run_seed());
        let mut valid = [0; 2];
        let mut try_sheet = |rng: &mut Rng, library: &Library, sheet: &[u8]| {
            let parsed = library.reading.format.parse(sheet);
            let variables = parsed.map(|given| given.variables()).unwrap_or_default();
            for kind in 0..4 {
                let has = |rng: &mut Rng, code: u32| match kind {
                    0 => rng.one_in(2),
                    1 => code.is_multiple_of(2),
                    2 => !code.is_multiple_of(2),
                    _ => true,
                };
                let both = variables.iter().flat_map(|&x| [2 * x as u32, 2 * x as u32 + 1]);
                let codes: Vec<u32> = both.filter(|&code| has(rng, code)).collect();
                let count = codes.len() as u32;
                // Then the same again, and a reduction of it to nothing.
                let heads = [0, 0, 0, count, 1, 0, 0, 2 * count, 1, 1, 0, 2 * count];
                let codes = [&codes[..], &codes].concat();
                for verdict in [0, 1] {
                    let answer = library.agree_on_certify(sheet, verdict, &heads, &codes);
                    if let Answer::Accepted(Uncertain(step)) = answer {
                        valid[usize::from(step > 0)] += 1;
                    }
                }
            }
        };
        limit_sheets(|library, sheet| try_sheet(&mut rng, library, sheet));
        cases(20, |library, rng| {
            let sheet = generate::sheet(rng, Limits::full(library.reading.format));
            try_sheet(rng, library, &sheet);
        });
        assert!(valid.iter().all(|&count| count > 50), "{valid:?}");
    });
}

/// The length of what Clauses writes, if there are names enough, and else any.
fn least_output(format: Format, given: &Formula) -> usize {
    let clauses = format.clausal_formula(given);
    clauses.map_or(100, |made| format.sheet_length(made.prefix.len(), made.matrix.rows()))
}

#[test]
fn clauses_of_small_sheets() {
    let (mut numbers, mut named) = ([0; 19], 0);
    cases(15_000, |library, rng| {
        let format = library.reading.format;
        let given = generate::formula(rng, Limits::small(format));
        let whole = format.encode(&given);
        let sheet = if rng.one_in(4) { damage(rng, format, &whole) } else { whole };
        let room = length_around(rng, format, least_output(format, &given));
        let before = dirty(rng, room);
        let outcome = library.agree_on_clauses(&sheet, &before);
        numbers[outcome.answer.number()] += 1;
        match outcome.sheet() {
            None => assert!(outcome.output() == before, "{}", hexadecimal(&sheet)),
            Some(made) => {
                let made = format.parse(made).expect("a good sheet");
                if made.prefix.len() <= 9 {
                    let given = format.parse(&sheet).expect("a good sheet");
                    assert_eq!(truth::is_true(&made), truth::is_true(&given));
                    named += usize::from(made.prefix.len() > given.prefix.len());
                }
            }
        }
    });
    for number in [0, 1, 2, 3, 4, 5, 6, 7, 8, 13] {
        assert!(numbers[number] > 100, "{numbers:?}");
    }
    assert!(named > 1_000, "{named}");
}

/// As many spare rows as leave just enough numbers for the names, or one too few.
#[test]
fn every_number_in_use() {
    let mut numbers = [0; 19];
    cases(300, |library, rng| {
        let format = library.reading.format;
        let mut given = generate::formula(rng, Limits { format, variables: 9, nodes: 60 });
        let used = given.variables();
        let mut spare: Vec<Variable> =
            (1..=format.most_variables).filter(|x| !used.contains(x)).collect();
        rng.shuffle(&mut spare);
        spare.truncate(spare.len() - rng.below(24));
        given.prefix.splice(0..0, spare.into_iter().map(|x| (Exists, x)));
        let sheet = format.encode(&given);
        let exact = least_output(format, &given);
        for room in [0, exact - 1, exact, format.longest_sheet()] {
            numbers[library.agree_on_clauses(&sheet, &dirty(rng, room)).answer.number()] += 1;
        }
    });
    assert!([0, 13, 18].iter().all(|&number| numbers[number] > 100), "{numbers:?}");
}

#[test]
fn clauses_of_large_sheets() {
    with_deep_stack(|| {
        let mut rng = Rng::new(generate::run_seed());
        let mut numbers = [0; 19];
        limit_sheets(|library, sheet| {
            let format = library.reading.format;
            let exact = format.parse(sheet).map_or(100, |given| least_output(format, &given));
            for room in [exact - 1, exact, format.longest_sheet()] {
                let outcome = library.agree_on_clauses(sheet, &dirty(&mut rng, room));
                numbers[outcome.answer.number()] += 1;
            }
        });
        cases(100, |library, rng| {
            let format = library.reading.format;
            for limits in [Limits::medium(format), Limits::full(format)] {
                let given = generate::formula(rng, limits);
                let room = length_around(rng, format, least_output(format, &given));
                let outcome = library.agree_on_clauses(&format.encode(&given), &dirty(rng, room));
                numbers[outcome.answer.number()] += 1;
            }
        });
        assert!([0, 13, 18].iter().all(|&number| numbers[number] > 10), "{numbers:?}");
    });
}
