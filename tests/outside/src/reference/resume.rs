//! A stopped run carried over (N13).

use super::{Format, Reading, SolveAnswer};

/// How many variables a run began with, and how many of them it settled and
/// expanded.
#[derive(Clone, Copy, Debug, PartialEq, Eq)]
pub struct Counts {
    pub started: usize,
    pub settled: usize,
    pub expanded: usize,
}

impl Counts {
    fn add_up(&self, left: usize) -> bool {
        let parts = [self.settled, self.expanded, left];
        parts.into_iter().map(|part| part as u128).sum::<u128>() == self.started as u128
    }

    /// An answer of Solve with these counts before its own.
    fn added_to(&self, answer: SolveAnswer) -> SolveAnswer {
        match answer {
            SolveAnswer::Refused(..) => answer,
            SolveAnswer::Stopped { variable, settled, expanded } => SolveAnswer::Stopped {
                variable,
                settled: self.settled + settled,
                expanded: self.expanded + expanded,
            },
            SolveAnswer::Ended { verdict, settled, expanded } => SolveAnswer::Ended {
                verdict,
                settled: self.settled + settled,
                expanded: self.expanded + expanded,
            },
        }
    }
}

/// Goes on from the sheet reached, under the wide limits: 1 to 8 of its format,
/// 25, and then Solve's own answer, 13 among them, on the widened sheet.
pub fn resume(
    counts: Counts,
    sheet: &[u8],
    narrow: bool,
    first: &mut [u8],
    second: &mut [u8],
) -> SolveAnswer {
    let format = if narrow { Format::NARROW } else { Format::WIDE };
    match format.parse(sheet) {
        Err((number, place)) => SolveAnswer::Refused(number, place),
        Ok(formula) if !counts.add_up(formula.prefix.len()) => SolveAnswer::Refused(25, 0),
        Ok(formula) => {
            let widened = Format::WIDE.encode(&formula);
            counts.added_to(Reading::WIDE.solve(&widened, first, second))
        }
    }
}
