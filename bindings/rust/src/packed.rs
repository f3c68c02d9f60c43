//! Answers as the library packs them: one number each, taken apart as the header says. The
//! functions `plumanchor_unpack_..` of `include/plumanchor.h` do the same for C.

use crate::answer::{
    Copied, Counts, DecideEnd, Decided, Forced, Guarded, Outcome, Quantifier, Sizes, Solved,
    Strategy, Tried,
};
use crate::refusal::{ClaimPart, ClaimRefusal, PairRefusal, Refusal};
use std::cmp::Ordering;

/// The four parts of an answer.
struct Parts {
    number: u8,
    word: u8,
    low: usize,
    high: usize,
}

impl Parts {
    fn of(answer: u64) -> Parts {
        Parts {
            number: answer as u8,
            word: (answer >> 8) as u8,
            low: usize::from((answer >> 16) as u16),
            high: (answer >> 32) as u32 as usize,
        }
    }

    /// The two halves of the second value.
    fn halves(&self) -> (usize, usize) {
        (self.high & 0xffff, self.high >> 16)
    }
}

/// The parts of an answer that is no refusal.
fn accepted(answer: u64) -> Result<Parts, Refusal> {
    let parts = Parts::of(answer);
    match parts.number {
        0 => Ok(parts),
        number => Err(Refusal { number, place: parts.low }),
    }
}

/// Check.
pub fn sizes(answer: u64) -> Result<Sizes, Refusal> {
    accepted(answer).map(|parts| Sizes { variables: parts.low, nodes: parts.high })
}

/// Trial.
pub fn tried(answer: u64) -> Result<Tried, Refusal> {
    accepted(answer).map(|parts| Tried { verdict: parts.word == 1, leaves: parts.high })
}

/// Operations that write a sheet: its length.
pub fn written(answer: u64) -> Result<usize, Refusal> {
    accepted(answer).map(|parts| parts.high)
}

/// Quote: the raw rows.
pub fn quoted(answer: u64) -> Result<usize, Refusal> {
    written(answer)
}

/// Outer: the new sheet's length, and what was copied.
pub fn copied(answer: u64) -> Result<Copied<usize>, Refusal> {
    let parts = accepted(answer)?;
    let (count, lowest) = parts.halves();
    Ok(Copied { sheet: parts.low, count, lowest })
}

/// Solve.
pub fn solved(answer: u64) -> Result<Solved, Refusal> {
    let parts = accepted(answer)?;
    let (expanded, variable) = parts.halves();
    let ended = Solved { verdict: None, settled: parts.low, expanded, variable };
    Ok(match parts.word {
        2 => ended,
        word => Solved { verdict: Some(word == 1), variable: 0, ..ended },
    })
}

/// Resume with these counts: they come back by their lower 16 bits, and a run's own share is less
/// than these hold.
pub fn resumed(answer: u64, counts: Counts) -> Result<Solved, Refusal> {
    let whole = |given: usize, lower: usize| given.wrapping_add(lower.wrapping_sub(given) & 0xffff);
    let solved = solved(answer)?;
    let settled = whole(counts.settled, solved.settled);
    Ok(Solved { settled, expanded: whole(counts.expanded, solved.expanded), ..solved })
}

/// Guards: with the length of the sheet of the children kept.
pub fn guarded(answer: u64) -> Result<Guarded<usize>, Refusal> {
    let parts = accepted(answer)?;
    let (settled, (expanded, variable)) = (parts.low, parts.halves());
    Ok(match parts.word {
        1 => Guarded::True { settled, expanded },
        2 => Guarded::Stopped { variable, settled, expanded },
        _ => Guarded::Kept { sheet: parts.high, stops: parts.low },
    })
}

/// Force.
pub fn forced(answer: u64) -> Result<Forced, Refusal> {
    let parts = accepted(answer)?;
    let turn = if parts.low == 1 { Quantifier::Exists } else { Quantifier::ForAll };
    let outcome = match parts.word {
        0 => Outcome::Neither,
        1 => Outcome::Zero,
        2 => Outcome::One,
        3 => Outcome::Both,
        _ => Outcome::Stopped(parts.high),
    };
    Ok(Forced { turn, outcome })
}

/// Compare.
pub fn compared(answer: u64) -> Result<Ordering, PairRefusal> {
    let sheet = Parts::of(answer).word;
    let parts = accepted(answer).map_err(|refusal| PairRefusal { sheet, refusal })?;
    Ok(match parts.word {
        0 => Ordering::Less,
        1 => Ordering::Equal,
        _ => Ordering::Greater,
    })
}

/// Strategy: with the length of its sheet. Two counts have 12 bits each, and what is behind them 24.
pub fn strategy(answer: u64) -> Result<Strategy<usize>, Refusal> {
    let word = accepted(answer)?.word;
    let [settled, expanded] = [16, 28].map(|at| (answer >> at) as usize & 0xfff);
    let last = (answer >> 40) as usize;
    Ok(match word {
        0 | 1 => Strategy::Written { verdict: word == 1, settled, expanded, sheet: last },
        2 => Strategy::Stopped { variable: last, settled, expanded },
        _ => Strategy::TooLong { verdict: word == 4, settled, expanded, rows: last },
    })
}

/// Claim: the length of the claim's sheet.
pub fn claimed(answer: u64) -> Result<usize, ClaimRefusal> {
    let at = match Parts::of(answer).word {
        1 => ClaimPart::Sheet,
        2 => ClaimPart::Strategy,
        _ => ClaimPart::Output,
    };
    written(answer).map_err(|refusal| ClaimRefusal { at, refusal })
}

/// Certify: the verdict, or the number of the first step that isn't valid.
pub fn certified(answer: u64) -> Result<Result<bool, usize>, Refusal> {
    accepted(answer).map(|parts| match parts.word {
        2 => Err(parts.high),
        word => Ok(word == 1),
    })
}

/// Decide.
pub fn decided(answer: u64) -> Result<Decided, Refusal> {
    let parts = accepted(answer)?;
    let (verdict, end) = match parts.word {
        2 => (None, DecideEnd::NoPlace),
        3 => (None, DecideEnd::Spent),
        word => (Some(word == 1), DecideEnd::Ended),
    };
    Ok(Decided { verdict, runs: parts.high, end })
}

/// Join: the verdict, if it is known.
pub fn joined(answer: u64) -> Result<Option<bool>, Refusal> {
    accepted(answer).map(|parts| match parts.word {
        2 => None,
        word => Some(word == 1),
    })
}

/// An answer as the library packs it, which the functions above take apart. Calls compare the two
/// where assertions are on, so that no part of an answer is overlooked.
pub(crate) trait Pack {
    fn pack(&self) -> u64;
}

fn pack(number: u8, word: u8, low: usize, high: usize) -> u64 {
    u64::from(number) | u64::from(word) << 8 | (low as u64) << 16 | (high as u64) << 32
}

impl<T: Pack> Pack for Result<T, Refusal> {
    fn pack(&self) -> u64 {
        match self {
            Ok(answer) => answer.pack(),
            Err(refusal) => pack(refusal.number, 0, refusal.place, 0),
        }
    }
}

impl Pack for Sizes {
    fn pack(&self) -> u64 {
        pack(0, 0, self.variables, self.nodes)
    }
}

impl Pack for Tried {
    fn pack(&self) -> u64 {
        pack(0, self.verdict.into(), 0, self.leaves)
    }
}

/// A length, or raw rows.
impl Pack for usize {
    fn pack(&self) -> u64 {
        pack(0, 0, 0, *self)
    }
}

impl Pack for Copied<usize> {
    fn pack(&self) -> u64 {
        pack(0, 0, self.sheet, self.count | self.lowest << 16)
    }
}

impl Pack for Solved {
    fn pack(&self) -> u64 {
        let word = self.verdict.map_or(2, u8::from);
        pack(0, word, self.settled, self.expanded | self.variable << 16)
    }
}

impl Pack for Guarded<usize> {
    fn pack(&self) -> u64 {
        match *self {
            Guarded::True { settled, expanded } => pack(0, 1, settled, expanded),
            Guarded::Stopped { variable, settled, expanded } => {
                pack(0, 2, settled, expanded | variable << 16)
            }
            Guarded::Kept { sheet, stops } => pack(0, 0, stops, sheet),
        }
    }
}

impl Pack for Forced {
    fn pack(&self) -> u64 {
        let turn = match self.turn {
            Quantifier::Exists => 1,
            Quantifier::ForAll => 2,
        };
        let (word, variable) = match self.outcome {
            Outcome::Neither => (0, 0),
            Outcome::Zero => (1, 0),
            Outcome::One => (2, 0),
            Outcome::Both => (3, 0),
            Outcome::Stopped(variable) => (4, variable),
        };
        pack(0, word, turn, variable)
    }
}

impl Pack for Strategy<usize> {
    fn pack(&self) -> u64 {
        let (word, settled, expanded, last) = match *self {
            Strategy::Written { verdict, settled, expanded, sheet } => {
                (u8::from(verdict), settled, expanded, sheet)
            }
            Strategy::Stopped { variable, settled, expanded } => (2, settled, expanded, variable),
            Strategy::TooLong { verdict, settled, expanded, rows } => {
                (3 + u8::from(verdict), settled, expanded, rows)
            }
        };
        pack(0, word, settled | (expanded & 0xf) << 12, expanded >> 4 | last << 8)
    }
}

impl Pack for Result<usize, ClaimRefusal> {
    fn pack(&self) -> u64 {
        match self {
            Ok(length) => length.pack(),
            Err(ClaimRefusal { at, refusal }) => {
                let word = match at {
                    ClaimPart::Output => 0,
                    ClaimPart::Sheet => 1,
                    ClaimPart::Strategy => 2,
                };
                pack(refusal.number, word, refusal.place, 0)
            }
        }
    }
}

/// A verdict, or a step's number.
impl Pack for Result<bool, usize> {
    fn pack(&self) -> u64 {
        match *self {
            Ok(verdict) => pack(0, verdict.into(), 0, 0),
            Err(step) => pack(0, 2, 0, step),
        }
    }
}

impl Pack for Decided {
    fn pack(&self) -> u64 {
        let word = match self.end {
            DecideEnd::Ended => u8::from(self.verdict == Some(true)),
            DecideEnd::NoPlace => 2,
            DecideEnd::Spent => 3,
        };
        pack(0, word, 0, self.runs)
    }
}

/// What Join knows.
impl Pack for Option<bool> {
    fn pack(&self) -> u64 {
        pack(0, self.map_or(2, u8::from), 0, 0)
    }
}

impl Pack for Result<Ordering, PairRefusal> {
    fn pack(&self) -> u64 {
        match self {
            Ok(order) => pack(0, (*order as i8 + 1) as u8, 0, 0),
            Err(PairRefusal { sheet, refusal }) => pack(refusal.number, *sheet, refusal.place, 0),
        }
    }
}
