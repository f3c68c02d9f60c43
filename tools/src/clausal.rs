//! Sheets as clauses, for texts in QDIMACS and for search solvers.

use crate::format::DEFAULT;
use crate::formula::Formula;
use crate::refusal::Refusal;
use crate::sheet::Sheet;
use plumanchor::refusals::{NO_NUMBERS_LEFT, NO_ROOM};

/// The clauses of the proved operation, in the program's format: an equal question.
fn clauses(sheet: &Sheet) -> Result<Sheet, Refusal> {
    sheet.clone().carried(DEFAULT)?.clauses(DEFAULT.longest())
}

/// The same, tidied: a search solver leaves tautologies out, and a cube of its trace has no literal
/// of them.
pub fn tidied(sheet: &Sheet) -> Result<Sheet, Refusal> {
    clauses(sheet)?.tidy(DEFAULT.longest())
}

/// The rows that a sheet is written from as a text: its clauses; or its own rows if no sheet holds
/// these, and why that is.
pub fn rows(sheet: &Sheet) -> Result<(Formula, Option<Refusal>), Refusal> {
    match clauses(sheet) {
        Ok(clauses) => Ok((clauses.formula()?, None)),
        Err(refusal) if [NO_NUMBERS_LEFT, NO_ROOM].contains(&refusal.number) => {
            Ok((sheet.formula()?, Some(refusal)))
        }
        Err(refusal) => Err(refusal),
    }
}
