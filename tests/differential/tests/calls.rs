//! Demand 3 on the compiled code: random lists of Settle, Expand and Execute calls,
//! refused ones among them, each on the sheet held. Every call is compared
//! with the independent reading too.

use differential::compare::{cases, hexadecimal};
use differential::Library;
use outside::generate::{self, Limits, Rng};
use outside::reference::{verdict, Answer, Formula, Move, Operation, Rules, Variable};
use outside::{depqbf, truth, with_deep_stack};

/// A list of calls under way.
struct Run<'a> {
    library: &'a Library,
    first: Formula,
    /// By brute force, where the variables are few enough for that.
    truth: Option<bool>,
    held: Vec<u8>,
    accepted: usize,
    /// Expansions accepted beyond the run of equal kinds at the end of the prefix.
    past_spare_rows: usize,
}

impl Run<'_> {
    fn new(library: &Library, first: Formula, truth: Option<bool>) -> Run<'_> {
        let held = library.reading.format.encode(&first);
        Run { library, first, truth, held, accepted: 0, past_spare_rows: 0 }
    }

    fn formula_held(&self) -> Formula {
        self.library.reading.format.parse(&self.held).expect("a good sheet")
    }

    fn told(&self) -> String {
        let first = self.library.reading.format.encode(&self.first);
        format!("first {}, held {}", hexadecimal(&first), hexadecimal(&self.held))
    }

    /// One more call; answers with the refusal number, 0 if it was accepted.
    fn call(&mut self, rng: &mut Rng) -> usize {
        let formula = self.formula_held();
        let call = generate::call(rng, &self.library.reading, &formula);
        let before = generate::dirty(rng, call.room);
        let outcome = self.library.agree_on_call(&self.held, call, &before);
        match outcome.answer {
            Answer::Accepted(length) => {
                let (sheet, behind) = outcome.output().split_at(length);
                assert!(behind.iter().all(|&byte| byte == 0), "zeros behind");
                self.held = sheet.to_vec();
                self.accepted += 1;
                let outside =
                    !Rules::DOCUMENT_01.innermost_block(&formula).contains(&call.variable);
                self.past_spare_rows += usize::from(outside && call.operation != Operation::Settle);
                self.check_truth();
            }
            Answer::Refused(..) => assert!(outcome.output() == before, "refused, and written"),
        }
        self.check_sheet();
        outcome.answer.number()
    }

    /// Accepted by Check, tidy, and one variable less for each accepted call;
    /// decided once no variable is left.
    fn check_sheet(&self) {
        let checked = self.library.check(&self.held);
        let (left, _) = checked.unwrap_or_else(|_| panic!("{}", self.told()));
        assert_eq!(self.accepted + left, self.first.prefix.len(), "{}", self.told());
        let tidied = self.library.agree_on_tidy(&self.held, &vec![0xa5; self.held.len()]);
        assert!(tidied.output() == self.held, "not tidy: {}", self.told());
        let decided = verdict(&self.formula_held().matrix);
        assert!(left > 0 || decided.is_some(), "no variable and no verdict: {}", self.told());
        if let (Some(verdict), Some(truth)) = (decided, self.truth) {
            assert_eq!(verdict, truth, "{}", self.told());
        }
    }

    fn check_truth(&self) {
        if let Some(expected) = self.truth {
            assert_eq!(truth::is_true(&self.formula_held()), expected, "{}", self.told());
        }
    }
}

#[test]
fn lists_of_calls_on_small_sheets() {
    let mut answers = [0; 20];
    let mut ended = 0;
    cases(20_000, |library, rng| {
        let first = generate::tidy_formula(rng, Limits::small(library.reading.format));
        let truth = truth::is_true(&first);
        let mut run = Run::new(library, first, Some(truth));
        run.check_sheet();
        for _ in 0..rng.between(1, 40) {
            answers[run.call(rng)] += 1;
        }
        ended += u32::from(run.formula_held().prefix.is_empty());
    });
    for number in [0, 10, 11, 12, 13, 19] {
        assert!(answers[number] > 5_000, "{answers:?}");
    }
    assert!(ended > 4_000, "{ended} lists left no variable");
}

/// Prefixes full of rows without a literal, which the innermost block reaches past.
#[test]
fn lists_of_calls_past_spare_rows() {
    let mut past = 0;
    cases(10_000, |library, rng| {
        let first = generate::spare_formula(rng, Limits::small(library.reading.format));
        let truth = truth::is_true(&first);
        let mut run = Run::new(library, first, Some(truth));
        for _ in 0..rng.between(1, 20) {
            run.call(rng);
        }
        past += run.past_spare_rows;
    });
    assert!(past > 2_000, "{past}");
}

#[test]
fn lists_of_calls_on_large_sheets() {
    with_deep_stack(|| {
        let mut accepted = 0;
        cases(100, |library, rng| {
            let format = library.reading.format;
            for limits in [Limits::medium(format), Limits::full(format)] {
                let first = generate::tidy_formula(rng, limits);
                let mut run = Run::new(library, first, None);
                for _ in 0..30 {
                    run.call(rng);
                }
                accepted += run.accepted;
            }
        });
        assert!(accepted > 2_000, "{accepted}");
    });
}

/// The sheet after a call with an output of the program's length, or nothing if
/// it doesn't fit.
fn stepped(
    rng: &mut Rng,
    library: &Library,
    held: &[u8],
    operation: Operation,
    x: Variable,
) -> Option<Vec<u8>> {
    let mut output = generate::dirty(rng, library.reading.format.longest_sheet());
    match library.step(operation, held, x, &mut output) {
        Answer::Accepted(length) => Some(output[..length].to_vec()),
        refused => {
            assert_eq!(refused, Answer::Refused(13, 0), "{}", hexadecimal(held));
            None
        }
    }
}

/// The verdict after expanding any variable of the innermost block in turn, or
/// nothing if an expansion doesn't fit.
fn expand_until_decided(rng: &mut Rng, library: &Library, sheet: &[u8]) -> Option<bool> {
    let mut held = sheet.to_vec();
    loop {
        let formula = library.reading.format.parse(&held).expect("a good sheet");
        if let Some(verdict) = verdict(&formula.matrix) {
            return Some(verdict);
        }
        let x = rng.pick(&library.reading.rules.innermost_block(&formula));
        held = stepped(rng, library, &held, Operation::Expand, x)?;
    }
}

/// Verdicts of sheets too large for brute force are compared with Trial's.
#[test]
fn expanding_until_decided_is_the_truth() {
    let mut verdicts = [0; 2];
    cases(10_000, |library, rng| {
        let format = library.reading.format;
        let first = generate::tidy_formula(rng, Limits { format, variables: 14, nodes: 120 });
        let sheet = format.encode(&first);
        if let Some(verdict) = expand_until_decided(rng, library, &sheet) {
            let Answer::Accepted((tried, _)) = library.trial(&sheet) else {
                panic!("Trial takes fourteen variables");
            };
            assert_eq!(verdict, tried, "{}", hexadecimal(&sheet));
            verdicts[usize::from(verdict)] += 1;
        }
    });
    assert!(verdicts.iter().all(|&count| count > 2_000), "{verdicts:?}");
}

/// Solve's moves made by single calls, the choice of each being the independent
/// reading's. The verdict, or nothing if an expansion doesn't fit.
fn solve_by_calls(rng: &mut Rng, library: &Library, formula: &Formula) -> Option<bool> {
    let (format, rules) = (library.reading.format, library.reading.rules);
    let mut held = format.encode(&rules.tidy_formula(formula));
    loop {
        let (operation, x) = match rules.next_move(&format.parse(&held).expect("a good sheet")) {
            Move::End(verdict) => return Some(verdict),
            Move::Settle(x, _) => (Operation::Settle, x),
            Move::Expand(x) => (Operation::Expand, x),
        };
        held = stepped(rng, library, &held, operation, x)?;
    }
}

#[test]
fn verdicts_are_those_of_a_solver_from_outside() {
    with_deep_stack(|| {
        let mut compared = 0;
        cases(800, |library, rng| {
            let format = library.reading.format;
            let formula = generate::solver_formula(rng, format);
            let mine = solve_by_calls(rng, library, &formula);
            if let (Some(mine), Some(theirs)) = (mine, depqbf::verdict(&formula)) {
                assert_eq!(mine, theirs, "{}", hexadecimal(&format.encode(&formula)));
                compared += 1;
            }
        });
        println!("{compared} verdicts compared");
        assert!(compared > 1_200, "{compared}");
    });
}
