//! Request N10: the guards that clash.

use super::{Formula, Kind, Node, Reading, SolveAnswer, Variable};

#[derive(Clone, Copy, Debug, PartialEq, Eq)]
pub enum GuardsAnswer {
    Refused(u8, usize),
    Stopped {
        variable: Variable,
        settled: usize,
        expanded: usize,
    },
    True {
        settled: usize,
        expanded: usize,
    },
    /// The length of the sheet of the kept children, and how many runs stopped.
    Kept {
        length: usize,
        stops: usize,
    },
}

/// The formula of the kept children, which of the root's children they are, counted from 0, and
/// how many runs stopped.
#[derive(Clone, Debug)]
pub struct Sifted {
    pub kept: Formula,
    pub places: Vec<usize>,
    pub stops: usize,
}

impl Reading {
    /// Guards: all three buffers are rewritten unless it refuses.
    pub fn guards(
        &self,
        sheet: &[u8],
        output: &mut [u8],
        first: &mut [u8],
        second: &mut [u8],
    ) -> GuardsAnswer {
        let formula = match self.format.parse(sheet) {
            Err((number, place)) => return GuardsAnswer::Refused(number, place),
            Ok(formula) => formula,
        };
        if !formula.matrix.is_operator(Kind::And) {
            return GuardsAnswer::Refused(23, 0);
        }
        let room = first.len().min(second.len());
        if room < sheet.len() || output.len() < sheet.len() {
            return GuardsAnswer::Refused(13, 0);
        }
        output.fill(0);
        first.fill(0);
        second.fill(0);
        match self.answer_on(&formula, room) {
            SolveAnswer::Ended { verdict: true, settled, expanded } => {
                GuardsAnswer::True { settled, expanded }
            }
            SolveAnswer::Stopped { variable, settled, expanded } => {
                GuardsAnswer::Stopped { variable, settled, expanded }
            }
            _ => {
                let Sifted { kept, stops, .. } = self.sift(formula, room);
                GuardsAnswer::Kept { length: self.format.write(&kept, output), stops }
            }
        }
    }

    fn answer_on(&self, formula: &Formula, room: usize) -> SolveAnswer {
        self.run(self.rules.tidy_formula(formula), room).1
    }

    /// What is left of a false formula whose root is AND, with so much room for a run.
    pub fn sift(&self, formula: Formula, room: usize) -> Sifted {
        let mut places: Vec<usize> = (0..formula.matrix.children().len()).collect();
        let (mut kept, mut at, mut stops) = (formula, 0, 0);
        while at < places.len() {
            let mut others = kept.matrix.children().to_vec();
            others.remove(at);
            let less = Formula { prefix: kept.prefix.clone(), matrix: Node::and(others) };
            match self.answer_on(&less, room) {
                SolveAnswer::Ended { verdict: false, .. } => {
                    kept = less;
                    places.remove(at);
                }
                SolveAnswer::Stopped { .. } => {
                    stops += 1;
                    at += 1;
                }
                _ => at += 1,
            }
        }
        Sifted { kept, places, stops }
    }
}
