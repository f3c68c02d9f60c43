//! Decide, Split and Join at each format, beside the independent reading.

use crate::compare::{agree, Outcome, Written};
use crate::{answer, Library};
use outside::reference::{Answer, DecideAnswer};
use plumanchor::{DecideEnd, Decided};

impl Library {
    pub fn decide(
        &self,
        sheet: &[u8],
        budget: usize,
        first: &mut [u8],
        second: &mut [u8],
        stack: &mut [u8],
    ) -> DecideAnswer {
        match self.proved.decide(sheet, budget, first, second, stack) {
            Err(refused) => DecideAnswer::Refused(refused.number, refused.place),
            Ok(Decided { verdict, runs, end }) => match end {
                DecideEnd::Ended => {
                    DecideAnswer::Ended { verdict: verdict.expect("a verdict"), runs }
                }
                DecideEnd::NoPlace => DecideAnswer::NoPlace { runs },
                DecideEnd::Spent => DecideAnswer::Spent { runs },
            },
        }
    }

    pub fn split(&self, sheet: &[u8], values: &[u8], output: &mut [u8]) -> Answer<usize> {
        answer(self.proved.split(sheet, values, output))
    }

    pub fn join(&self, sheet: &[u8], k: usize, answers: &[u8]) -> Answer<Option<bool>> {
        answer(self.proved.join(sheet, k, answers))
    }

    pub fn agree_on_decide(
        &self,
        sheet: &[u8],
        budget: usize,
        before: [&[u8]; 3],
    ) -> Outcome<DecideAnswer, 3> {
        agree(
            &format!("decide {budget}"),
            sheet,
            before,
            |[first, second, stack]| self.decide(sheet, budget, first, second, stack),
            |[first, second, stack]| self.reading.decide(sheet, budget, first, second, stack),
        )
    }

    pub fn agree_on_split(&self, sheet: &[u8], values: &[u8], before: &[u8]) -> Written {
        agree(
            &format!("split {values:?}"),
            sheet,
            [before],
            |[output]| self.split(sheet, values, output),
            |[output]| self.reading.split(sheet, values, output),
        )
    }

    pub fn agree_on_join(&self, sheet: &[u8], k: usize, answers: &[u8]) -> Answer<Option<bool>> {
        agree(
            &format!("join {k} {answers:?}"),
            sheet,
            [],
            |_| self.join(sheet, k, answers),
            |_| self.reading.join(sheet, k, answers),
        )
        .answer
    }
}
