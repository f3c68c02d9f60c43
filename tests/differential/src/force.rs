//! Force at each format, beside the independent reading.

use crate::compare::agree;
use crate::{answer, compare, Library};
use outside::reference::{Answer, Forced, Quantifier};
use plumanchor::Outcome;

pub type Panel = Answer<(Quantifier, Forced)>;

impl Library {
    pub fn force(&self, sheet: &[u8], values: &[u8], first: &mut [u8], second: &mut [u8]) -> Panel {
        let told = |plumanchor::Forced { turn, outcome }| {
            let turn = match turn {
                plumanchor::Quantifier::Exists => Quantifier::Exists,
                plumanchor::Quantifier::ForAll => Quantifier::ForAll,
            };
            let forced = match outcome {
                Outcome::Neither => Forced::Neither,
                Outcome::Zero => Forced::Zero,
                Outcome::One => Forced::One,
                Outcome::Both => Forced::Both,
                Outcome::Stopped(variable) => Forced::Stopped(variable),
            };
            (turn, forced)
        };
        answer(self.proved.force(sheet, values, first, second).map(told))
    }

    /// One call on both, with equal buffers of any contents before it.
    pub fn agree_on_force(
        &self,
        sheet: &[u8],
        values: &[u8],
        before: [&[u8]; 2],
    ) -> compare::Outcome<Panel, 2> {
        agree(
            &format!("force {values:?}"),
            sheet,
            before,
            |[first, second]| self.force(sheet, values, first, second),
            |[first, second]| self.reading.force(sheet, values, first, second),
        )
    }
}
