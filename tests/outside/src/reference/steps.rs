//! A whole list of steps (N2): the single calls one after another, each on the
//! sheet that the accepted ones before it left.

use super::{Answer, Operation, Reading, Variable};

#[derive(Clone, Copy, Debug, PartialEq, Eq)]
pub struct Step {
    pub operation: Operation,
    pub variable: Variable,
    pub answer: Answer<usize>,
}

impl Reading {
    /// 1 to 8 and 13 refuse the whole list; else every record is filled, and
    /// each call has an output as long as the shorter buffer.
    pub fn steps(
        &self,
        sheet: &[u8],
        steps: &mut [Step],
        first: &mut [u8],
        second: &mut [u8],
    ) -> Answer<usize> {
        let room = first.len().min(second.len());
        if let Err((number, place)) = self.format.check(sheet) {
            return Answer::Refused(number, place);
        }
        if room < sheet.len() {
            return Answer::Refused(13, 0);
        }
        let mut held = sheet.to_vec();
        for step in steps {
            let mut output = vec![0; room];
            step.answer = self.step(step.operation, &held, step.variable, &mut output);
            if let Answer::Accepted(length) = step.answer {
                output.truncate(length);
                held = output;
            }
        }
        first.fill(0);
        first[..held.len()].copy_from_slice(&held);
        second.fill(0);
        Answer::Accepted(held.len())
    }
}
