//! The winner's strategy, by the proved operation.

use super::{winner, Strategy};
use crate::command::Failure;
use crate::names::Names;
use crate::sheet::Sheet;
use plumanchor::{Solved, Strategy as Run};

/// What a run of Solve comes to.
pub enum Found {
    /// The winner's strategy, and its sheet.
    Won {
        solved: Solved,
        strategy: Strategy,
        sheet: Sheet,
    },
    /// It has more rows than a sheet, or than fit a buffer.
    TooLong {
        solved: Solved,
        rows: usize,
    },
    Stopped(Solved),
}

/// The strategy of the side that wins a sheet, with buffers of so many bytes.
pub fn found(sheet: &Sheet, names: &Names, room: usize) -> Result<Found, Failure> {
    let formula = sheet.formula()?;
    let found = sheet.strategy(room);
    let ended = |verdict, settled, expanded| Solved {
        verdict: Some(verdict),
        settled,
        expanded,
        variable: 0,
    };
    match found.map_err(|refusal| refusal.lacking(sheet.bytes.len(), room))? {
        Run::Written { verdict, settled, expanded, sheet } => {
            let solved = ended(verdict, settled, expanded);
            let strategy =
                Strategy::of_pairs(winner(verdict), formula, names.clone(), &sheet.formula()?);
            let wrong = || Failure::Contradicted("a strategy that isn't one".into());
            Ok(Found::Won { solved, strategy: strategy.ok_or_else(wrong)?, sheet })
        }
        Run::TooLong { verdict, settled, expanded, rows } => {
            Ok(Found::TooLong { solved: ended(verdict, settled, expanded), rows })
        }
        Run::Stopped { variable, settled, expanded } => {
            Ok(Found::Stopped(Solved { verdict: None, settled, expanded, variable }))
        }
    }
}
