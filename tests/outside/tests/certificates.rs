//! Certificates as the independent reading has them: by hand, with the traces
//! of a solver from outside, whole and damaged, and clauses out of any formula.

use outside::depqbf;
use outside::formulas::{and, clause, cube, equal_pair, formula, lit, or};
use outside::generate::{
    self, any_words, cases, clause_formula, damage_steps, dirty, length_around, Limits, Rng,
};
use outside::literature::LITERATURE;
use outside::qdimacs::Qdimacs;
use outside::qrp::Trace;
use outside::reference::*;
use outside::truth;
use Certified::{Certain, Uncertain};
use Quantifier::{Exists, ForAll};

fn constraint(literals: &[i32]) -> Constraint {
    literals.iter().map(|&signed| Literal::of(signed)).collect()
}

fn initial(literals: &[i32]) -> Inference {
    Inference { reason: Reason::Initial, constraint: constraint(literals) }
}

fn derived(pivot: i32, a: usize, b: usize, literals: &[i32]) -> Inference {
    let reason = Reason::Derived { pivot: Literal::of(pivot), antecedents: [a, b] };
    Inference { reason, constraint: constraint(literals) }
}

#[test]
fn clauses_by_hand() {
    let judged = |formula: &Formula, steps: &[Inference]| certified(Kind::Or, formula, steps);
    let given = formula(&[(ForAll, 1), (Exists, 2)], and(vec![clause(&[1, 2]), clause(&[1, -2])]));
    let both = [initial(&[1, 2]), initial(&[1, -2])];
    let with = |step: Inference| judged(&given, &[both[0].clone(), both[1].clone(), step]);
    // 1 goes in the step that takes the pivot away.
    assert_eq!(with(derived(2, 0, 1, &[])), Certain(false));
    assert_eq!(with(derived(2, 0, 1, &[1])), Uncertain(3), "the last one isn't empty");
    // The pivot is in the first antecedent and its complement in the second.
    assert_eq!(with(derived(-2, 0, 1, &[])), Uncertain(2));
    assert_eq!(with(derived(2, 1, 0, &[])), Uncertain(2));
    assert_eq!(with(derived(-2, 1, 0, &[])), Certain(false));
    // A step is no antecedent of itself, nor is one that comes later.
    assert_eq!(with(derived(2, 0, 2, &[])), Uncertain(2));
    assert_eq!(with(derived(2, 7, 1, &[])), Uncertain(2));
    // 2 stands behind 1 in the clause, or in what is claimed of it.
    assert_eq!(with(derived(9, 0, 0, &[2])), Uncertain(2));
    assert_eq!(with(derived(2, 0, 1, &[-2])), Uncertain(2));
    // A clause of the matrix may have more literals, not fewer.
    assert_eq!(judged(&given, &[initial(&[1, 2, 7])]), Uncertain(1));
    assert_eq!(judged(&given, &[initial(&[1])]), Uncertain(0));
    assert_eq!(judged(&given, &[]), Uncertain(0));
    assert_eq!(judged(&formula(&[], or(vec![])), &[initial(&[])]), Certain(false));
    // Both signs of 1 meet: the formula is true, and nothing may go.
    let equal = formula(&[(ForAll, 1), (Exists, 2)], and(vec![clause(&[1, 2]), clause(&[-1, -2])]));
    let steps = [initial(&[1, 2]), initial(&[-1, -2]), derived(2, 0, 1, &[])];
    assert_eq!(judged(&equal, &steps), Uncertain(2));
    // Own literals and unbound ones never go.
    let given = formula(&[(Exists, 1)], lit(1));
    assert_eq!(judged(&given, &[initial(&[1]), derived(9, 0, 0, &[])]), Uncertain(1));
    assert_eq!(judged(&given, &[initial(&[1, 5]), derived(1, 0, 0, &[1])]), Uncertain(1));
    // Any tree: the clause makes one child of an AND false, all of an OR.
    let tree = formula(
        &[(Exists, 1), (Exists, 2), (Exists, 3)],
        or(vec![and(vec![lit(1), lit(2)]), and(vec![lit(-3), lit(1)])]),
    );
    assert_eq!(judged(&tree, &[initial(&[2, -3])]), Uncertain(1));
    assert_eq!(judged(&tree, &[initial(&[1])]), Uncertain(1));
    assert_eq!(judged(&tree, &[initial(&[2])]), Uncertain(0));
}

#[test]
fn cubes_by_hand() {
    let judged = |formula: &Formula, steps: &[Inference]| certified(Kind::And, formula, steps);
    let given = formula(&[(ForAll, 1), (Exists, 2)], equal_pair());
    let steps = [
        initial(&[1, 2]),
        initial(&[-1, -2]),
        derived(9, 0, 0, &[1]),
        derived(9, 1, 1, &[-1]),
        derived(1, 2, 3, &[]),
    ];
    assert_eq!(judged(&given, &steps), Certain(true));
    // The complement is tested in the resolvent: both cubes with their 2 don't do.
    let early = [initial(&[1, 2]), initial(&[-1, -2]), derived(1, 0, 1, &[])];
    assert_eq!(judged(&given, &early), Uncertain(2));
    // With 1 behind 2 the formula is false, and 2 may not go.
    let before = formula(&[(Exists, 2), (ForAll, 1)], equal_pair());
    assert_eq!(judged(&before, &steps), Uncertain(2));
    // A cube has a literal of every clause.
    let clauses =
        formula(&[(Exists, 1), (Exists, 2)], and(vec![clause(&[1, 2]), clause(&[-1, 2])]));
    assert_eq!(judged(&clauses, &[initial(&[2]), derived(9, 0, 0, &[])]), Certain(true));
    assert_eq!(judged(&clauses, &[initial(&[1])]), Uncertain(0));
    assert_eq!(judged(&formula(&[], and(vec![])), &[initial(&[])]), Certain(true));
    assert_eq!(certified(Kind::Or, &formula(&[], and(vec![])), &[initial(&[])]), Uncertain(0));
}

/// What the proofs of `Certificates/Examples.antt` and `Clausal/Examples.antt`
/// compute from the definitions.
#[test]
fn as_computed_in_the_definitions() {
    let refutable = formula(
        &[(Exists, 1), (ForAll, 2), (Exists, 3)],
        and(vec![clause(&[1, 2, 3]), clause(&[1, -3]), lit(-1)]),
    );
    let steps = [
        initial(&[1, 2, 3]),
        initial(&[1, -3]),
        derived(3, 0, 1, &[1]),
        initial(&[-1]),
        derived(1, 2, 3, &[]),
    ];
    assert_eq!(certified(Kind::Or, &refutable, &steps), Certain(false));
    let differing =
        formula(&[(ForAll, 1), (Exists, 2)], and(vec![clause(&[1, 2]), clause(&[-1, -2])]));
    for (side, steps, answer) in [
        (
            Kind::And,
            vec![
                initial(&[1, -2]),
                derived(-2, 0, 0, &[1]),
                initial(&[2, -1]),
                derived(1, 1, 2, &[]),
            ],
            Certain(true),
        ),
        (
            Kind::Or,
            vec![
                initial(&[1, 2]),
                derived(1, 0, 0, &[2]),
                initial(&[-1, -2]),
                derived(-1, 2, 2, &[-2]),
                derived(2, 1, 3, &[]),
            ],
            Uncertain(1),
        ),
        (Kind::Or, vec![initial(&[1, 2]), initial(&[-1, -2]), derived(2, 0, 1, &[])], Uncertain(2)),
        (
            Kind::Or,
            vec![initial(&[1, 2]), initial(&[-1, -2]), derived(2, 0, 1, &[1, -1])],
            Uncertain(3),
        ),
        (Kind::And, vec![initial(&[1])], Uncertain(0)),
        (Kind::And, vec![initial(&[1, -2]), derived(-2, 1, 1, &[])], Uncertain(1)),
        (Kind::And, vec![], Uncertain(0)),
    ] {
        assert_eq!(certified(side, &differing, &steps), answer, "{steps:?}");
    }
    let under_and =
        formula(&[(ForAll, 1), (Exists, 2)], and(vec![or(vec![lit(1), cube(&[2, -1])]), lit(-2)]));
    let clauses = and(vec![clause(&[1, 3]), clause(&[-3, 2]), clause(&[-3, -1]), lit(-2)]);
    let prefix = [(ForAll, 1), (Exists, 2), (Exists, 3)];
    assert_eq!(Format::NARROW.clausal_formula(&under_and), Some(formula(&prefix, clauses)));
    let nested = formula(
        &[(Exists, 1), (Exists, 3)],
        or(vec![and(vec![lit(1), or(vec![lit(3), cube(&[1, 3])])]), cube(&[-1, -3])]),
    );
    let clauses =
        [&[2, 6][..], &[-2, 1], &[-2, 4], &[-4, 3, 5], &[-5, 1], &[-5, 3], &[-6, -1], &[-6, -3]];
    let prefix = [1, 3, 2, 4, 5, 6].map(|var| (Exists, var));
    let named = formula(&prefix, and(clauses.map(clause).to_vec()));
    let with_highest = |most_variables| Format { most_variables, ..Format::NARROW };
    assert_eq!(with_highest(6).clausal_formula(&nested), Some(named));
    assert_eq!(with_highest(5).clausal_formula(&nested), None);
}

#[test]
fn words_by_hand() {
    // Initial 1 and not 2; then by pivot not 3 from 0 and 7, no literal.
    let steps = [initial(&[1, -2]), derived(-3, 0, 7, &[])];
    let (heads, codes) = words_of(&steps);
    assert_eq!((&heads[..], &codes[..]), (&[0, 0, 0, 2, 8, 0, 7, 2][..], &[2, 5][..]));
    assert_eq!(steps_said(&heads, &codes), steps);
    // Twelve digits of a code count, words behind the last step say nothing.
    assert_eq!(steps_said(&[4096 + 8, 0, 7, 0, 1, 2, 3], &codes), steps[1..]);
    assert_eq!(steps_said(&[0, 0, 0, 1], &[4096 * 9 + 2]), [initial(&[1])]);
    // Codes that aren't there, and an end in front of the beginning.
    let said = steps_said(&[0, 5, 6, 9, 0, 0, 0, 1, 0, 0, 0, 2], &codes);
    assert_eq!(said, [initial(&[1, -2]), initial(&[]), initial(&[-2])]);
}

/// The highest words in each place, and codes of the highest variable.
#[test]
fn words_at_their_limits() {
    let highest = Literal { positive: false, variable: 2047 };
    assert_eq!(steps_said(&[0, 0, 0, 1], &[u32::MAX])[0].constraint, [highest]);
    let far = u32::MAX as usize;
    let derived = Reason::Derived { pivot: highest.complement(), antecedents: [far; 2] };
    let said = steps_said(&[u32::MAX; 4], &[]);
    assert_eq!(said, [Inference { reason: derived, constraint: vec![] }]);
    let steps = [Inference { reason: Reason::Initial, constraint: vec![highest] }];
    assert_eq!(words_of(&steps), (vec![0, 0, 0, 1], vec![4095]));
    for reading in [Reading::NARROW, Reading::WIDE] {
        let sheet = reading.format.encode(&formula(&[(Exists, 1)], and(vec![lit(1), lit(-1)])));
        let said = |heads: &[u32]| reading.certify(&sheet, Kind::Or, heads, &[2, 3]);
        // 1, then not 1, then neither; the last step's antecedents and ends at the limit.
        let whole = [0, 0, 0, 1, 0, 0, 0, 2, 3, 0, 1, 2];
        assert_eq!(said(&whole), Answer::Accepted(Certain(false)));
        for (at, word, answer) in [
            (9, u32::MAX, Uncertain(2)),
            (10, u32::MAX, Uncertain(2)),
            (10, 2, Uncertain(2)),
            (8, u32::MAX, Uncertain(2)),
            (8, 4096 + 3, Certain(false)),
            (11, u32::MAX, Certain(false)),
            (11, 0, Certain(false)),
            (7, 1, Uncertain(1)),
            (3, u32::MAX, Uncertain(1)),
            (1, u32::MAX, Certain(false)),
        ] {
            let mut heads = whole;
            heads[at] = word;
            assert_eq!(said(&heads), Answer::Accepted(answer), "{word} at {at}");
        }
    }
}

/// The trace of a clause set, if the solver comes to an end.
fn trace_of(clauses: &Formula) -> Option<Trace> {
    let text = Qdimacs::of_formula(clauses).expect("a clause set").text();
    depqbf::trace_of(&text).expect("depqbf is installed")
}

/// The side whose constraints a trace has, and its steps.
fn derivation(trace: &Trace) -> (Kind, Vec<Inference>) {
    (if trace.verdict { Kind::And } else { Kind::Or }, trace.steps().expect("a whole trace"))
}

/// A tidy formula with its clauses, few enough variables for brute force.
fn small_clauses(rng: &mut Rng, format: Format) -> (Formula, Formula) {
    loop {
        let limits = Limits { format, variables: 5, nodes: 18 };
        let given = if rng.one_in(2) {
            generate::tidy_formula(rng, limits)
        } else {
            clause_formula(rng, limits)
        };
        let clauses = format.clausal_formula(&given).expect("names enough");
        if clauses.prefix.len() <= 9 && verdict(&given.matrix).is_none() {
            return (given, clauses);
        }
    }
}

#[test]
fn traces_are_certified() {
    let mut verdicts = [0; 2];
    for reading in [Reading::NARROW, Reading::WIDE] {
        let format = reading.format;
        cases(150, |rng| {
            let (given, clauses) = small_clauses(rng, format);
            let trace = trace_of(&clauses).expect("a small one");
            assert_eq!(trace.verdict, truth::is_true(&given), "{given:?}");
            let (side, steps) = derivation(&trace);
            assert_eq!(certified(side, &clauses, &steps), Certain(trace.verdict), "{clauses:?}");
            let (heads, codes) = words_of(&steps);
            assert_eq!(steps_said(&heads, &codes), steps);
            let sheet = format.encode(&clauses);
            let answer = reading.certify(&sheet, side, &heads, &codes);
            assert_eq!(answer, Answer::Accepted(Certain(trace.verdict)));
            let other = reading.certify(&sheet, side.other(), &heads, &codes).accepted();
            assert!(matches!(other, Some(Uncertain(_))));
            let cut = generate::damage(rng, format, &sheet);
            if let Err((number, place)) = format.check(&cut) {
                let answer = reading.certify(&cut, side, &heads, &codes);
                assert_eq!(answer, Answer::Refused(number, place));
            }
            verdicts[usize::from(trace.verdict)] += 1;
        });
    }
    assert!(verdicts.iter().all(|&count| count > 80), "{verdicts:?}");
}

#[test]
fn traces_of_larger_formulas_are_certified() {
    let (mut verdicts, mut longest) = ([0; 2], 0);
    let mut certify = |clauses: &Formula| {
        if let Some(trace) = trace_of(clauses) {
            let (side, steps) = derivation(&trace);
            assert_eq!(certified(side, clauses, &steps), Certain(trace.verdict), "{clauses:?}");
            verdicts[usize::from(trace.verdict)] += 1;
            longest = longest.max(steps.len());
        }
    };
    cases(100, |rng| {
        let given = generate::solver_formula(rng, Format::WIDE);
        let tidied = Rules::CURRENT.tidy_formula(&given);
        if let Some(clauses) = Format::WIDE.clausal_formula(&tidied) {
            certify(&clauses);
        }
    });
    for family in LITERATURE {
        (1..6).for_each(|n| certify(&family.formula(n)));
    }
    assert!(verdicts.iter().all(|&count| count > 20) && longest > 100, "{verdicts:?} {longest}");
}

/// With a constraint beside its matrix: a clause in AND, a cube in OR.
fn beside(side: Kind, formula: &Formula, constraint: &Constraint) -> Formula {
    let literal = |&Literal { positive, variable }: &Literal| Node::Lit { positive, var: variable };
    let constraint = Node::Op { kind: side, children: constraint.iter().map(literal).collect() };
    let children = vec![formula.matrix.clone(), constraint];
    Formula { prefix: formula.prefix.clone(), matrix: Node::Op { kind: side.other(), children } }
}

/// A verdict is the truth, each valid step's constraint changes nothing beside
/// the matrix, and the number of a step is that of the first invalid one.
fn judged_rightly(side: Kind, formula: &Formula, steps: &[Inference]) -> Certified {
    let truth = truth::is_true(formula);
    let answer = certified(side, formula, steps);
    let valid = match answer {
        Certain(verdict) => {
            assert_eq!(verdict, truth, "{formula:?} {steps:?}");
            steps.len()
        }
        Uncertain(count) => count,
    };
    for (at, step) in steps[..valid].iter().enumerate() {
        let bound = |literal: &Literal| formula.quantifier(literal.variable).is_some();
        if step.constraint.iter().all(bound) {
            let beside = beside(side, formula, &step.constraint);
            assert_eq!(truth::is_true(&beside), truth, "step {at} of {formula:?} {steps:?}");
        }
    }
    if let Uncertain(count) = answer {
        let until = steps.get(..=count);
        assert!(until.is_none_or(|steps| certified(side, formula, steps) == Uncertain(count)));
        let before = certified(side, formula, &steps[..count]);
        assert!(before == Uncertain(count) || matches!(before, Certain(_)));
    }
    answer
}

/// A row of another kind, rows exchanged, a child dropped, a literal negated.
fn another_formula(rng: &mut Rng, given: &Formula) -> Formula {
    let mut other = given.clone();
    let (at, second) = (rng.below(other.prefix.len()), rng.below(other.prefix.len()));
    match (rng.below(4), &mut other.matrix) {
        (0, _) => other.prefix[at].0 = other.prefix[at].0.other(),
        (1, _) => other.prefix.swap(at, second),
        (2, Node::Op { children, .. }) if !children.is_empty() => {
            let at = rng.below(children.len());
            children.remove(at);
        }
        (_, Node::Op { children, .. }) if !children.is_empty() => {
            let at = rng.below(children.len());
            match &mut children[at] {
                Node::Op { children, .. } if !children.is_empty() => {
                    let at = rng.below(children.len());
                    children[at] = negated(&children[at]);
                }
                child => *child = negated(child),
            }
        }
        _ => (),
    }
    other
}

/// A derivation that shows the truth of one formula is judged, damaged, on that
/// one and on another whose truth is the opposite: there it must show nothing.
#[test]
fn damaged_traces_say_nothing_wrong() {
    let (mut certain, mut uncertain, mut opposite) = ([0; 2], 0, 0);
    cases(600, |rng| {
        let (_, clauses) = small_clauses(rng, Format::NARROW);
        let (side, whole) = derivation(&trace_of(&clauses).expect("a small one"));
        let truth = truth::is_true(&clauses);
        let tries = (0..20).map(|_| another_formula(rng, &clauses));
        let other = tries.into_iter().find(|other| truth::is_true(other) != truth);
        let variables = clauses.variables();
        for _ in 0..40 {
            let mut steps = whole.clone();
            for _ in 0..rng.between(1, 3) {
                if !steps.is_empty() {
                    damage_steps(rng, &variables, &mut steps);
                }
            }
            match judged_rightly(side, &clauses, &steps) {
                Certain(verdict) => certain[usize::from(verdict)] += 1,
                Uncertain(_) => uncertain += 1,
            }
            if let Some(other) = &other {
                let answer = judged_rightly(side, other, &steps);
                opposite += usize::from(!matches!(answer, Uncertain(0)));
            }
        }
    });
    assert!(
        certain.iter().all(|&count| count > 500) && uncertain > 5_000,
        "{certain:?} {uncertain}"
    );
    assert!(opposite > 5_000, "{opposite}");
}

#[test]
fn traces_of_another_formula_say_nothing_wrong() {
    let (mut certain, mut uncertain, mut flipped) = (0, 0, 0);
    cases(300, |rng| {
        let (_, clauses) = small_clauses(rng, Format::NARROW);
        let (side, steps) = derivation(&trace_of(&clauses).expect("a small one"));
        for _ in 0..40 {
            let other = another_formula(rng, &clauses);
            match judged_rightly(side, &other, &steps) {
                Certain(_) => certain += 1,
                Uncertain(_) => uncertain += 1,
            }
            flipped += usize::from(truth::is_true(&other) != truth::is_true(&clauses));
        }
    });
    assert!(
        certain > 1_500 && uncertain > 2_000 && flipped > 700,
        "{certain} {uncertain} {flipped}"
    );
}

/// Any words whatever have an answer, and none that is wrong.
#[test]
fn any_words_say_nothing_wrong() {
    let (mut certain, mut valid) = (0, [0; 3]);
    for reading in [Reading::NARROW, Reading::WIDE] {
        let format = reading.format;
        cases(30_000, |rng| {
            let given = generate::formula(rng, Limits { format, variables: 4, nodes: 8 });
            let sheet = format.encode(&given);
            let (heads, codes) = any_words(rng, &given.variables());
            for side in [Kind::Or, Kind::And] {
                let steps = steps_said(&heads, &codes);
                assert_eq!(steps.len(), heads.len() / 4);
                let answer = judged_rightly(side, &given, &steps);
                assert_eq!(reading.certify(&sheet, side, &heads, &codes), Answer::Accepted(answer));
                match answer {
                    Certain(_) => certain += 1,
                    Uncertain(count) => valid[count.min(2)] += 1,
                }
            }
        });
    }
    assert!(certain > 250 && valid.iter().all(|&count| count > 1_500), "{certain} {valid:?}");
}

#[test]
fn clausal_by_hand() {
    let narrow = Format::NARROW;
    // Root AND: literals and ORs stay; names for what is below, in preorder, 1 and 3 being free.
    let given = formula(
        &[(ForAll, 2), (Exists, 4)],
        and(vec![lit(2), or(vec![lit(4), cube(&[-2, 4]), and(vec![clause(&[2, -4]), lit(4)])])]),
    );
    let wanted = formula(
        &[(ForAll, 2), (Exists, 4), (Exists, 1), (Exists, 3), (Exists, 5)],
        and(vec![
            lit(2),
            clause(&[4, 1, 3]),
            clause(&[-1, -2]),
            clause(&[-1, 4]),
            clause(&[-3, 5]),
            clause(&[-3, 4]),
            clause(&[-5, 2, -4]),
        ]),
    );
    assert_eq!(narrow.clausal_formula(&given), Some(wanted));
    // A root that isn't AND is AND of itself; an AND below the root AND has a unit clause.
    for (matrix, clauses, names) in [
        (lit(-1), vec![lit(-1)], 0),
        (clause(&[1, -1]), vec![clause(&[1, -1])], 0),
        (or(vec![cube(&[1])]), vec![clause(&[2]), clause(&[-2, 1])], 1),
        (and(vec![and(vec![lit(1)])]), vec![lit(2), clause(&[-2, 1])], 1),
        (and(vec![and(vec![])]), vec![lit(2)], 1),
        (and(vec![or(vec![or(vec![])])]), vec![clause(&[2]), clause(&[-2])], 1),
        (and(vec![]), vec![], 0),
        (or(vec![]), vec![clause(&[])], 0),
    ] {
        let given = formula(&[(ForAll, 1)], matrix);
        let mut prefix = given.prefix.clone();
        prefix.extend((2..2 + names).map(|name| (Exists, name)));
        assert_eq!(narrow.clausal_formula(&given), Some(formula(&prefix, and(clauses))));
    }
    // Just enough numbers, and one too few.
    for (bound, fits) in [(254, true), (255, false)] {
        let rows: Vec<Binding> = (1..=bound).map(|var| (Exists, var)).collect();
        let given = formula(&rows, or(vec![cube(&[1, 2]), cube(&[3, 4])]));
        assert_eq!(narrow.clausal_formula(&given).is_some(), fits);
        assert!(Format::WIDE.clausal_formula(&given).is_some());
        // 18 comes before 13, and behind the refusals of the sheet.
        let sheet = narrow.encode(&given);
        let number = |sheet: &[u8]| Reading::NARROW.clauses(sheet, &mut []).number();
        assert_eq!((number(&sheet), number(&sheet[..3])), (if fits { 13 } else { 18 }, 1));
    }
}

#[test]
fn clauses_ask_an_equal_question() {
    let (mut verdicts, mut named, mut refused) = ([0; 2], 0, 0);
    for reading in [Reading::NARROW, Reading::WIDE] {
        let format = reading.format;
        cases(5_000, |rng| {
            let given = generate::formula(rng, Limits { format, variables: 5, nodes: 16 });
            let clauses = format.clausal_formula(&given).expect("names enough");
            assert!(Qdimacs::of_formula(&clauses).is_some(), "{given:?}");
            let sheet = format.encode(&given);
            let exact = format.sheet_length(clauses.prefix.len(), clauses.matrix.rows());
            let room = length_around(rng, format, exact);
            let before = dirty(rng, room);
            let mut output = before.clone();
            match reading.clauses(&sheet, &mut output) {
                Answer::Refused(number, place) => {
                    assert_eq!((number, place), (13, 0));
                    assert!(room < exact && output == before);
                    refused += 1;
                }
                Answer::Accepted(length) => {
                    assert_eq!(format.parse(&output[..length]), Ok(clauses.clone()));
                    assert!(length == exact && output[length..].iter().all(|&byte| byte == 0));
                }
            }
            if Rules::CURRENT.is_of_the_clause_profile(&given.matrix) {
                assert_eq!(clauses.prefix, given.prefix);
            }
            if clauses.prefix.len() <= 12 {
                let truth = truth::is_true(&given);
                assert_eq!(truth::is_true(&clauses), truth, "{given:?}");
                verdicts[usize::from(truth)] += 1;
                named += usize::from(clauses.prefix.len() > given.prefix.len() + 1);
            }
        });
    }
    assert!(verdicts.iter().all(|&count| count > 1_700), "{verdicts:?}");
    assert!(named > 1_700 && refused > 1_000, "{named} {refused}");
}
