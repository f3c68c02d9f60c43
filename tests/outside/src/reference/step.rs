//! Settle, Expand and Execute as the calls of demand 3's lists: one shape for all.

use super::{raw_rows, Answer, Format, Formula, Reading, Variable};

#[derive(Clone, Copy, Debug, PartialEq, Eq)]
pub enum Operation {
    Settle,
    Expand,
    /// Expand under this ceiling for the raw rows.
    Execute(usize),
}

impl Format {
    /// The length below which an output is too short for the call; Expand asks
    /// for the raw rows to be within the limit too.
    pub fn least_output(self, operation: Operation, formula: &Formula, x: Variable) -> usize {
        let rows = match operation {
            Operation::Settle => formula.matrix.rows(),
            Operation::Expand | Operation::Execute(_) => raw_rows(formula, x),
        };
        self.sheet_length(formula.prefix.len().saturating_sub(1), rows)
    }
}

impl Reading {
    pub fn step(
        &self,
        operation: Operation,
        sheet: &[u8],
        x: Variable,
        output: &mut [u8],
    ) -> Answer<usize> {
        match operation {
            Operation::Settle => self.settle(sheet, x, output),
            Operation::Expand => self.expand(sheet, x, output),
            Operation::Execute(ceiling) => self.execute(sheet, x, ceiling, output),
        }
    }
}
