//! The proved operations, as the crate `plumanchor` calls them, with the answers of
//! `outside::reference`.

use outside::reference::{
    Answer, Copied, Counts, Operation, Reading, Refusal, SolveAnswer, Variable,
};
use plumanchor::{Format, Sizes, Solved, Tried};
use std::ops::Range;

pub mod certify;
pub mod compare;
pub mod decide;
pub mod force;
pub mod guards;
pub mod order;
pub mod steps;
pub mod strategy;

/// The proved operations on sheets of one format.
pub struct Library {
    /// What the operations are to agree with.
    pub reading: Reading,
    proved: Format,
}

pub const NARROW: Library = Library { reading: Reading::NARROW, proved: Format::Narrow };
pub const WIDE: Library = Library { reading: Reading::WIDE, proved: Format::Wide };

/// One for each format that has entry points; every comparison runs on all.
pub const LIBRARIES: [Library; 2] = [NARROW, WIDE];

impl Library {
    pub fn check(&self, sheet: &[u8]) -> Result<(usize, usize), Refusal> {
        let sizes = self.proved.check(sheet).map_err(refusal)?;
        let Sizes { variables, nodes } = sizes;
        Ok((variables, nodes))
    }

    pub fn trial(&self, sheet: &[u8]) -> Answer<(bool, u64)> {
        let told = |Tried { verdict, leaves }| (verdict, leaves as u64);
        answer(self.proved.trial(sheet).map(told))
    }

    /// The range of the sheet's bytes that Part answers with, `0..0` if it is empty.
    pub fn part(&self, sheet: &[u8], node: usize) -> Range<usize> {
        let part = self.proved.part(sheet, node);
        if part.is_empty() {
            return 0..0;
        }
        let start = part.as_ptr() as usize - sheet.as_ptr() as usize;
        start..start + part.len()
    }

    pub fn tidy(&self, sheet: &[u8], output: &mut [u8]) -> Answer<usize> {
        answer(self.proved.tidy(sheet, output))
    }

    pub fn reduce(&self, sheet: &[u8], output: &mut [u8]) -> Answer<usize> {
        answer(self.proved.reduce(sheet, output))
    }

    pub fn step(
        &self,
        operation: Operation,
        sheet: &[u8],
        x: Variable,
        output: &mut [u8],
    ) -> Answer<usize> {
        answer(match operation {
            Operation::Settle => self.proved.settle(sheet, x, output),
            Operation::Expand => self.proved.expand(sheet, x, output),
            Operation::Execute(ceiling) => self.proved.execute(sheet, x, ceiling, output),
        })
    }

    pub fn outer(&self, sheet: &[u8], x: Variable, output: &mut [u8]) -> Answer<Copied> {
        let told = |copied: plumanchor::Copied<usize>| Copied {
            length: copied.sheet,
            count: copied.count,
            lowest: copied.lowest,
        };
        answer(self.proved.outer(sheet, x, output).map(told))
    }

    /// The rows of a sheet of the other format, as a sheet of this one.
    pub fn carry(&self, sheet: &[u8], output: &mut [u8]) -> Answer<usize> {
        answer(self.proved.convert(sheet, output))
    }

    /// The sheet that a QDIMACS text says.
    pub fn qdimacs(&self, text: &[u8], output: &mut [u8]) -> Answer<usize> {
        answer(self.proved.qdimacs(text, output))
    }

    /// The raw rows of an expansion.
    pub fn quote(&self, sheet: &[u8], x: Variable) -> Answer<usize> {
        answer(self.proved.quote(sheet, x))
    }

    pub fn solve(&self, sheet: &[u8], first: &mut [u8], second: &mut [u8]) -> SolveAnswer {
        solved(self.proved.solve(sheet, first, second))
    }
}

pub fn resume(
    counts: Counts,
    sheet: &[u8],
    narrow: bool,
    first: &mut [u8],
    second: &mut [u8],
) -> SolveAnswer {
    let Counts { started, settled, expanded } = counts;
    let counts = plumanchor::Counts { started, settled, expanded };
    let format = if narrow { Format::Narrow } else { Format::Wide };
    solved(format.resume(counts, sheet, first, second))
}

fn refusal(refusal: plumanchor::Refusal) -> Refusal {
    (refusal.number, refusal.place)
}

fn answer<T>(answer: Result<T, plumanchor::Refusal>) -> Answer<T> {
    answer.map_err(refusal).into()
}

fn solved(answer: Result<Solved, plumanchor::Refusal>) -> SolveAnswer {
    match answer {
        Err(refused) => SolveAnswer::Refused(refused.number, refused.place),
        Ok(Solved { verdict: None, settled, expanded, variable }) => {
            SolveAnswer::Stopped { variable, settled, expanded }
        }
        Ok(Solved { verdict: Some(verdict), settled, expanded, .. }) => {
            SolveAnswer::Ended { verdict, settled, expanded }
        }
    }
}
