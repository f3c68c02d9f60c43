//! Sheets carried over from narrow to wide, and brought back (N11).

use super::{Answer, Format, Formula, Refusal};

const NARROW: Format = Format::NARROW;
const WIDE: Format = Format::WIDE;

/// The wide sheet of the same rows: 1 to 8 of the narrow format, then 13.
pub fn widen(sheet: &[u8], output: &mut [u8]) -> Answer<usize> {
    let formula = NARROW.parse(sheet);
    let formula = formula.and_then(|formula| WIDE.with_room(formula, output.len()));
    WIDE.answer(formula, output)
}

/// The narrow sheet of the same rows: 1 to 8 of the wide format, 24 a size or a
/// number that no narrow sheet has, then 13.
pub fn bring_back(sheet: &[u8], output: &mut [u8]) -> Answer<usize> {
    let formula = WIDE.parse(sheet).and_then(within_narrow);
    let formula = formula.and_then(|formula| NARROW.with_room(formula, output.len()));
    NARROW.answer(formula, output)
}

/// The highest number that occurs is a bound one.
fn within_narrow(formula: Formula) -> Result<Formula, Refusal> {
    let Format { most_variables, most_nodes, .. } = NARROW;
    let variables = formula.prefix.len().max(formula.highest_variable());
    if variables > most_variables || formula.matrix.rows() > most_nodes {
        return Err((24, 0));
    }
    Ok(formula)
}

impl Format {
    fn with_room(self, formula: Formula, room: usize) -> Result<Formula, Refusal> {
        let length = self.sheet_length(formula.prefix.len(), formula.matrix.rows());
        if room < length {
            return Err((13, 0));
        }
        Ok(formula)
    }
}
