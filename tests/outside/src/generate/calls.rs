//! Buffers and calls.

use super::{damage, Rng};
use crate::reference::{raw_rows, Format, Formula, Operation, Reading, Variable};

/// A buffer of any contents.
pub fn dirty(rng: &mut Rng, length: usize) -> Vec<u8> {
    (0..length).map(|_| rng.word() as u8).collect()
}

/// A length around `exact`, the least that suffices, or far from it.
pub fn length_around(rng: &mut Rng, format: Format, exact: usize) -> usize {
    match rng.below(8) {
        0 | 1 => exact,
        2 => exact.saturating_sub(1),
        3 => exact + 1,
        4 => exact + rng.below(40),
        5 => exact.saturating_sub(rng.below(40)),
        6 => rng.below(exact + 1),
        _ => format.longest_sheet().max(exact),
    }
}

/// One call of a list of calls: operation, variable and the output's length.
#[derive(Clone, Copy, Debug)]
pub struct Call {
    pub operation: Operation,
    pub variable: Variable,
    pub room: usize,
}

/// A call on `formula`, likely accepted, with any number as the variable and
/// an output about as long as the call needs.
pub fn call(rng: &mut Rng, reading: &Reading, formula: &Formula) -> Call {
    let variable = variable(rng, reading, formula);
    let execute = Operation::Execute(ceiling_around(rng, raw_rows(formula, variable)));
    let operation = rng.pick(&[Operation::Settle, Operation::Expand, execute]);
    let exact = reading.format.least_output(operation, formula, variable);
    Call { operation, variable, room: length_around(rng, reading.format, exact) }
}

/// A ceiling that is the raw rows, next to them, or any number.
pub fn ceiling_around(rng: &mut Rng, raw_rows: usize) -> usize {
    let numbers =
        [raw_rows, raw_rows, raw_rows - 1, raw_rows + 1, 0, 4096, u32::MAX as usize, usize::MAX];
    if rng.one_in(10) {
        rng.below(2 * raw_rows)
    } else {
        rng.pick(&numbers)
    }
}

fn variable(rng: &mut Rng, reading: &Reading, formula: &Formula) -> Variable {
    let block = reading.rules.innermost_block(formula);
    match rng.below(10) {
        0 => rng.pick(&damage::numbers(reading.format)),
        1 => rng.between(1, reading.format.most_variables),
        2..=5 if !block.is_empty() => rng.pick(&block),
        _ if !block.is_empty() => rng.pick(&formula.prefix).1,
        _ => 1,
    }
}
