//! A whole list of steps (N2) through the compiled library: the records in
//! four arrays of numbers.

use crate::answer;
use outside::reference::{Answer, Format, Operation, Step};

/// The arrays; as many records as the shortest holds.
#[derive(Clone, Debug, PartialEq, Eq)]
pub struct Records {
    pub operations: Vec<u8>,
    pub variables: Vec<usize>,
    pub numbers: Vec<usize>,
    pub values: Vec<usize>,
}

impl Records {
    pub fn count(&self) -> usize {
        let Records { operations, variables, numbers, values } = self;
        operations.len().min(variables.len()).min(numbers.len()).min(values.len())
    }

    /// The records with no answer yet.
    pub fn steps(&self) -> Vec<Step> {
        let operation = |number| match number {
            0 => Operation::Settle,
            _ => Operation::Expand,
        };
        (0..self.count())
            .map(|i| Step {
                operation: operation(self.operations[i]),
                variable: self.variables[i],
                answer: Answer::Accepted(usize::MAX),
            })
            .collect()
    }

    /// The answers of filled records in the arrays' front.
    pub fn write(&mut self, steps: &[Step]) {
        for (i, step) in steps.iter().enumerate() {
            (self.numbers[i], self.values[i]) = match step.answer {
                Answer::Refused(number, place) => (number.into(), place),
                Answer::Accepted(length) => (0, length),
            };
        }
    }
}

/// The proved list of steps on a sheet of this format.
pub fn follow(
    format: Format,
    sheet: &[u8],
    records: &mut Records,
    first: &mut [u8],
    second: &mut [u8],
) -> Answer<usize> {
    let proved = match format {
        Format::NARROW => plumanchor::Format::Narrow,
        _ => plumanchor::Format::Wide,
    };
    let Records { operations, variables, numbers, values } = records;
    answer(proved.steps(sheet, operations, variables, numbers, values, first, second))
}
