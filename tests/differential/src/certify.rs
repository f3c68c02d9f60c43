//! Certify and Clauses at each format, beside the independent reading.

use crate::compare::{agree, Written};
use crate::{answer, Library};
use outside::reference::{Answer, Certified, Kind};

impl Library {
    /// Cubes are asked whether the sheet is true, clauses whether it is false.
    pub fn certify(
        &self,
        sheet: &[u8],
        verdict: usize,
        heads: &[u32],
        codes: &[u32],
    ) -> Answer<Certified> {
        let told = |shown: Result<bool, usize>| match shown {
            Ok(verdict) => Certified::Certain(verdict),
            Err(step) => Certified::Uncertain(step),
        };
        answer(self.proved.certify(sheet, verdict, heads, codes).map(told))
    }

    pub fn clauses(&self, sheet: &[u8], output: &mut [u8]) -> Answer<usize> {
        answer(self.proved.clauses(sheet, output))
    }

    pub fn agree_on_clauses(&self, sheet: &[u8], before: &[u8]) -> Written {
        agree(
            "clauses",
            sheet,
            [before],
            |[output]| self.clauses(sheet, output),
            |[output]| self.reading.clauses(sheet, output),
        )
    }

    /// Any number but 0 asks for true.
    pub fn agree_on_certify(
        &self,
        sheet: &[u8],
        verdict: usize,
        heads: &[u32],
        codes: &[u32],
    ) -> Answer<Certified> {
        let side = if verdict == 0 { Kind::Or } else { Kind::And };
        agree(
            &format!("certify {verdict} {heads:x?} {codes:x?}"),
            sheet,
            [],
            |_| self.certify(sheet, verdict, heads, codes),
            |_| self.reading.certify(sheet, side, heads, codes),
        )
        .answer
    }
}
