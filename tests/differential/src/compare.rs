//! One call on the proved operations and on the independent reading. A
//! disagreement prints the sheet in hexadecimal and both answers.

use crate::{Library, LIBRARIES};
use outside::generate::{self, Call, Rng};
use outside::reference::{
    self, bring_back, widen, Answer, Copied, Counts, Format, Refusal, SolveAnswer, Variable,
};
use std::fmt::Debug;

/// Runs `test` on `count` seeded generators for each library.
pub fn cases(count: u64, mut test: impl FnMut(&Library, &mut Rng)) {
    for library in &LIBRARIES {
        generate::cases(count, |rng| test(library, rng));
    }
}

/// Runs `test` on the sheets at and past each limit of each library's format.
pub fn limit_sheets(mut test: impl FnMut(&Library, &[u8])) {
    for library in &LIBRARIES {
        let limits = generate::limit_sheets(library.reading.format);
        limits.iter().for_each(|limit| test(library, &limit.sheet));
    }
}

pub fn hexadecimal(bytes: &[u8]) -> String {
    bytes.iter().map(|byte| format!("{byte:02x} ")).collect()
}

/// What a call answered, and what it left in its buffers.
#[derive(PartialEq)]
pub struct Outcome<T, const N: usize> {
    pub answer: T,
    pub buffers: [Vec<u8>; N],
}

/// Of an operation that writes a sheet to an output.
pub type Written = Outcome<Answer<usize>, 1>;

impl Written {
    pub fn output(&self) -> &[u8] {
        &self.buffers[0]
    }

    /// The sheet written, without the zeros behind it.
    pub fn sheet(&self) -> Option<&[u8]> {
        match self.answer {
            Answer::Accepted(length) => Some(&self.output()[..length]),
            Answer::Refused(..) => None,
        }
    }
}

impl<T: Debug, const N: usize> Outcome<T, N> {
    fn told(&self) -> String {
        let buffers = self.buffers.iter().map(|buffer| format!(", left {}", hexadecimal(buffer)));
        format!("{:?}{}", self.answer, buffers.collect::<String>())
    }
}

/// One call on both, with equal buffers before it; what is left in them is
/// compared too.
pub(crate) fn agree<T: PartialEq + Debug, const N: usize>(
    what: &str,
    sheet: &[u8],
    before: [&[u8]; N],
    proved: impl FnOnce(&mut [Vec<u8>; N]) -> T,
    reference: impl FnOnce(&mut [Vec<u8>; N]) -> T,
) -> Outcome<T, N> {
    let mut buffers = before.map(<[u8]>::to_vec);
    let answer = proved(&mut buffers);
    let mine = Outcome { answer, buffers };
    let mut buffers = before.map(<[u8]>::to_vec);
    let answer = reference(&mut buffers);
    let theirs = Outcome { answer, buffers };
    if mine != theirs {
        let (sheet, proved, reference) = (hexadecimal(sheet), mine.told(), theirs.told());
        panic!("{what} of {sheet}\nproved: {proved}\nreference: {reference}");
    }
    mine
}

impl Library {
    pub fn agree_on_check(&self, sheet: &[u8]) -> Result<(usize, usize), Refusal> {
        let format = self.reading.format;
        agree("check", sheet, [], |_| self.check(sheet), |_| format.check(sheet)).answer
    }

    pub fn agree_on_trial(&self, sheet: &[u8]) -> Answer<(bool, u64)> {
        let format = self.reading.format;
        agree("trial", sheet, [], |_| self.trial(sheet), |_| format.trial(sheet)).answer
    }

    pub fn agree_on_part(&self, sheet: &[u8], node: usize) {
        let (what, format) = (format!("part {node}"), self.reading.format);
        let (proved, reference) = (self.part(sheet, node), format.part_range(sheet, node));
        agree(&what, sheet, [], |_| proved, |_| reference);
    }

    pub fn agree_on_tidy(&self, sheet: &[u8], before: &[u8]) -> Written {
        agree(
            "tidy",
            sheet,
            [before],
            |[output]| self.tidy(sheet, output),
            |[output]| self.reading.tidy(sheet, output),
        )
    }

    pub fn agree_on_outer(
        &self,
        sheet: &[u8],
        x: Variable,
        before: &[u8],
    ) -> Outcome<Answer<Copied>, 1> {
        agree(
            &format!("outer {x}"),
            sheet,
            [before],
            |[output]| self.outer(sheet, x, output),
            |[output]| self.reading.outer(sheet, x, output),
        )
    }

    pub fn agree_on_reduce(&self, sheet: &[u8], before: &[u8]) -> Written {
        agree(
            "reduce",
            sheet,
            [before],
            |[output]| self.reduce(sheet, output),
            |[output]| self.reading.reduce(sheet, output),
        )
    }

    pub fn agree_on_qdimacs(&self, text: &[u8], before: &[u8]) -> Written {
        agree(
            "qdimacs",
            text,
            [before],
            |[output]| self.qdimacs(text, output),
            |[output]| self.reading.qdimacs(text, output),
        )
    }

    /// Carrying over to this format, or bringing back to it.
    pub fn agree_on_carry(&self, sheet: &[u8], before: &[u8]) -> Written {
        let carry = if self.reading.format == Format::WIDE { widen } else { bring_back };
        agree(
            "carry",
            sheet,
            [before],
            |[output]| self.carry(sheet, output),
            |[output]| carry(sheet, output),
        )
    }

    pub fn agree_on_quote(&self, sheet: &[u8], x: Variable) -> Answer<usize> {
        let what = format!("quote {x}");
        agree(&what, sheet, [], |_| self.quote(sheet, x), |_| self.reading.quote(sheet, x)).answer
    }

    /// Settle, Expand or Execute; the output is as long as the call says and has any contents.
    pub fn agree_on_call(&self, sheet: &[u8], call: Call, before: &[u8]) -> Written {
        let Call { operation, variable: x, .. } = call;
        agree(
            &format!("{call:?}"),
            sheet,
            [before],
            |[output]| self.step(operation, sheet, x, output),
            |[output]| self.reading.step(operation, sheet, x, output),
        )
    }

    pub fn agree_on_solve(&self, sheet: &[u8], before: [&[u8]; 2]) -> Outcome<SolveAnswer, 2> {
        agree(
            "solve",
            sheet,
            before,
            |[first, second]| self.solve(sheet, first, second),
            |[first, second]| self.reading.solve(sheet, first, second),
        )
    }
}

pub fn agree_on_resume(
    counts: Counts,
    sheet: &[u8],
    narrow: bool,
    before: [&[u8]; 2],
) -> Outcome<SolveAnswer, 2> {
    agree(
        &format!("resume {counts:?}"),
        sheet,
        before,
        |[first, second]| crate::resume(counts, sheet, narrow, first, second),
        |[first, second]| reference::resume(counts, sheet, narrow, first, second),
    )
}
