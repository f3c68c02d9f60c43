//! Response, Strategy and Claim at each format, beside the independent reading.

use crate::compare::{agree, Outcome, Written};
use crate::{answer, Library};
use outside::reference::{Answer, ClaimAnswer, Quantifier, StrategyAnswer, Variable};
use plumanchor::{ClaimPart, ClaimRefusal, Strategy};

impl Library {
    pub fn response(&self, sheet: &[u8], x: Variable, output: &mut [u8]) -> Answer<usize> {
        answer(self.proved.response(sheet, x, output))
    }

    pub fn strategy(
        &self,
        sheet: &[u8],
        first: &mut [u8],
        second: &mut [u8],
        output: &mut [u8],
    ) -> StrategyAnswer {
        match self.proved.strategy(sheet, first, second, output) {
            Err(refused) => StrategyAnswer::Refused(refused.number, refused.place),
            Ok(Strategy::Written { verdict, settled, expanded, sheet: length }) => {
                StrategyAnswer::Written { verdict, settled, expanded, length }
            }
            Ok(Strategy::TooLong { verdict, settled, expanded, rows }) => {
                StrategyAnswer::TooLong { verdict, settled, expanded, rows }
            }
            Ok(Strategy::Stopped { variable, settled, expanded }) => {
                StrategyAnswer::Stopped { variable, settled, expanded }
            }
        }
    }

    /// The claim for a side by the kind of its quantifier's row.
    pub fn claim(
        &self,
        sheet: &[u8],
        side: usize,
        strategy: &[u8],
        output: &mut [u8],
    ) -> ClaimAnswer {
        match self.proved.claim(sheet, side, strategy, output) {
            Ok(length) => ClaimAnswer::Written(length),
            Err(ClaimRefusal { at, refusal }) => {
                let which = match at {
                    ClaimPart::Output => 0,
                    ClaimPart::Sheet => 1,
                    ClaimPart::Strategy => 2,
                };
                ClaimAnswer::Refused(which, refusal.number, refusal.place)
            }
        }
    }

    pub fn agree_on_response(&self, sheet: &[u8], x: Variable, before: &[u8]) -> Written {
        agree(
            &format!("response {x}"),
            sheet,
            [before],
            |[output]| self.response(sheet, x, output),
            |[output]| self.reading.response(sheet, x, output),
        )
    }

    /// Work buffers first.
    pub fn agree_on_strategy(
        &self,
        sheet: &[u8],
        before: [&[u8]; 3],
    ) -> Outcome<StrategyAnswer, 3> {
        agree(
            "strategy",
            sheet,
            before,
            |[first, second, output]| self.strategy(sheet, first, second, output),
            |[first, second, output]| self.reading.strategy(sheet, first, second, output),
        )
    }

    /// Any number but 1 is the side for all.
    pub fn agree_on_claim(
        &self,
        sheet: &[u8],
        side: usize,
        strategy: &[u8],
        before: &[u8],
    ) -> Outcome<ClaimAnswer, 1> {
        let quantifier = if side == 1 { Quantifier::Exists } else { Quantifier::ForAll };
        agree(
            &format!("claim {side} {strategy:02x?}"),
            sheet,
            [before],
            |[output]| self.claim(sheet, side, strategy, output),
            |[output]| self.reading.claim(sheet, quantifier, strategy, output),
        )
    }
}
