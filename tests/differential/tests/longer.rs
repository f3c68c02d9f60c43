//! Longer buffers, same word: the compiled Solve with pairs of buffers from too
//! short to the longest. Its states are compared one by one; each is made out
//! of the one before by the compiled Tidy, Settle or Expand.

use differential::compare::{cases, hexadecimal};
use differential::Library;
use outside::generate::{self, Family, Limits, Rng};
use outside::reference::*;
use outside::with_deep_stack;

/// Where a run stands.
#[derive(Debug, PartialEq, Eq)]
struct State {
    sheet: Vec<u8>,
    settled: usize,
    expanded: usize,
}

/// The sheet that an operation writes to an output of `room` bytes.
fn written(room: usize, operation: impl FnOnce(&mut [u8]) -> Answer<usize>) -> Option<Vec<u8>> {
    let mut output = vec![0; room];
    match operation(&mut output) {
        Answer::Accepted(length) => output.truncate(length),
        Answer::Refused(..) => return None,
    }
    Some(output)
}

fn formula_of(library: &Library, state: &State) -> Formula {
    library.reading.format.parse(&state.sheet).expect("the sheet reached is a good one")
}

/// The state after this one, unless it is decided or the raw sheet doesn't fit.
fn step(library: &Library, state: &State, room: usize) -> Option<State> {
    let State { sheet, settled, expanded } = state;
    let formula = formula_of(library, state);
    let (sheet, settled, expanded) = match library.reading.rules.next_move(&formula) {
        Move::End(_) => return None,
        Move::Settle(x, _) => {
            let settle = |output: &mut [u8]| library.step(Operation::Settle, sheet, x, output);
            (written(room, settle)?, settled + 1, *expanded)
        }
        Move::Expand(x) => {
            let expand = |output: &mut [u8]| library.step(Operation::Expand, sheet, x, output);
            (written(room, expand)?, *settled, expanded + 1)
        }
    };
    Some(State { sheet, settled, expanded })
}

/// All states of a run in buffers of which the shorter has `room` bytes; none
/// if the sheet is refused.
fn states(library: &Library, sheet: &[u8], room: usize) -> Vec<State> {
    let tidied = written(room, |output| library.tidy(sheet, output));
    let first = tidied.map(|sheet| State { sheet, settled: 0, expanded: 0 });
    std::iter::successors(first, |state| step(library, state, room)).collect()
}

/// The lengths at which the answer may change, and one byte less: the sheet's
/// own and those of the raw sheets on the way; any length, and the longest.
fn lengths(rng: &mut Rng, library: &Library, sheet: &[u8]) -> Vec<usize> {
    let Reading { format, rules } = library.reading;
    let longest = format.longest_sheet();
    let mut lengths = vec![sheet.len()];
    for state in states(library, sheet, longest) {
        let formula = formula_of(library, &state);
        if let Move::Expand(x) = rules.next_move(&formula) {
            lengths.push(format.sheet_length(formula.prefix.len() - 1, raw_rows(&formula, x)));
        }
    }
    let mut lengths: Vec<usize> =
        lengths.into_iter().flat_map(|length| [length.saturating_sub(1), length]).collect();
    lengths.extend([rng.below(longest), longest]);
    lengths.retain(|&length| length <= longest);
    lengths.sort_unstable();
    lengths.dedup();
    lengths
}

struct Run {
    answer: SolveAnswer,
    states: Vec<State>,
}

/// Solve's answer and first buffer show the last of the states.
fn run(rng: &mut Rng, library: &Library, sheet: &[u8], rooms: (usize, usize)) -> Run {
    let (mut first, mut second) = (generate::dirty(rng, rooms.0), generate::dirty(rng, rooms.1));
    let answer = library.solve(sheet, &mut first, &mut second);
    let states = states(library, sheet, rooms.0.min(rooms.1));
    match (answer, states.last()) {
        (SolveAnswer::Refused(..), None) => {}
        (SolveAnswer::Stopped { settled, expanded, .. }, Some(last))
        | (SolveAnswer::Ended { settled, expanded, .. }, Some(last)) => {
            assert_eq!((settled, expanded), (last.settled, last.expanded));
            assert!(first.starts_with(&last.sheet), "{}", hexadecimal(sheet));
        }
        _ => panic!("{answer:?} after {} states: {}", states.len(), hexadecimal(sheet)),
    }
    Run { answer, states }
}

/// What turned into what, over all pairs of runs compared.
#[derive(Debug, Default)]
struct Seen {
    verdicts: usize,
    stops_later: usize,
    stops_decided: usize,
    shorts_answered: usize,
}

impl Seen {
    fn compare(&mut self, sheet: &[u8], short: &Run, long: &Run) {
        use SolveAnswer::*;
        let pair = || format!("{:?}, {:?}: {}", short.answer, long.answer, hexadecimal(sheet));
        assert!(long.states.starts_with(&short.states), "{}", pair());
        match (short.answer, long.answer) {
            (Ended { .. }, _) => {
                assert_eq!(short.answer, long.answer, "{}", pair());
                assert_eq!(short.states, long.states, "{}", pair());
                self.verdicts += 1;
            }
            (Stopped { .. }, Stopped { .. }) => {
                self.stops_later += usize::from(long.states.len() > short.states.len());
            }
            (Stopped { .. }, Ended { .. }) => self.stops_decided += 1,
            (Refused(13, 0), Stopped { .. } | Ended { .. }) => self.shorts_answered += 1,
            (Refused(..), _) => assert_eq!(short.answer, long.answer, "{}", pair()),
            (Stopped { .. }, Refused(..)) => panic!("{}", pair()),
        }
    }

    /// Pairs of buffers, each at least as long as its fellow before; one of
    /// the two has some bytes more than the shorter one.
    fn compare_all(&mut self, rng: &mut Rng, library: &Library, sheet: &[u8]) {
        let (first_is_longer, mut longer) = (rng.one_in(2), 0);
        let mut before: Option<Run> = None;
        for shorter in lengths(rng, library, sheet) {
            longer = shorter.max(longer) + rng.below(40);
            let rooms = if first_is_longer { (longer, shorter) } else { (shorter, longer) };
            let now = run(rng, library, sheet, rooms);
            if let Some(before) = &before {
                self.compare(sheet, before, &now);
            }
            before = Some(now);
        }
    }
}

#[test]
fn small_sheets_good_and_damaged() {
    let mut seen = Seen::default();
    cases(20_000, |library, rng| {
        let format = library.reading.format;
        let sheet = generate::sheet(rng, Limits::small(format));
        let damaged = generate::damage(rng, format, &sheet);
        seen.compare_all(rng, library, &sheet);
        seen.compare_all(rng, library, &damaged);
    });
    println!("{seen:?}");
    assert!(seen.verdicts > 10_000 && seen.shorts_answered > 10_000, "{seen:?}");
    assert!(seen.stops_decided > 3_000, "{seen:?}");
}

#[test]
fn sheets_that_take_many_steps() {
    with_deep_stack(|| {
        let mut seen = Seen::default();
        cases(250, |library, rng| {
            let format = library.reading.format;
            let (variables, nodes) = (rng.between(10, 60), rng.between(100, 900));
            let limits = Limits { format, variables, nodes };
            let family = rng.pick(&[Family::Clauses, Family::Tidy, Family::Parity]);
            let several = generate::alternating_formula(rng, family, limits);
            for formula in [generate::solver_formula(rng, format), several] {
                seen.compare_all(rng, library, &format.encode(&formula));
            }
        });
        println!("{seen:?}");
        assert!(seen.stops_later > 200 && seen.stops_decided > 120, "{seen:?}");
    });
}
