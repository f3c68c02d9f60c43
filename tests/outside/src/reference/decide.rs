//! Decide: Solve, and where a run stops a split of the formula reached on its
//! first row. Split and Join: the same work in many places.

use super::{Answer, Binding, Formula, Reading, Refusal, SolveAnswer};

/// What Decide answers; all but a refusal have the number of runs of Solve.
#[derive(Clone, Copy, Debug, PartialEq, Eq)]
pub enum DecideAnswer {
    Refused(u8, usize),
    Ended { verdict: bool, runs: usize },
    NoPlace { runs: usize },
    Spent { runs: usize },
}

/// What a search comes to.
#[derive(Clone, Copy, Debug, PartialEq, Eq)]
enum Outcome {
    Decided(bool),
    NoPlace,
    Spent,
}

impl Reading {
    /// Decide on formulas, with so many bytes for a run, places for halves that
    /// wait, and runs at most.
    pub fn decide_formula(
        &self,
        formula: &Formula,
        room: usize,
        places: usize,
        budget: usize,
    ) -> DecideAnswer {
        let mut left = budget;
        let outcome = self.seek(formula, room, places, &mut left);
        let runs = budget - left;
        match outcome {
            Outcome::Decided(verdict) => DecideAnswer::Ended { verdict, runs },
            Outcome::NoPlace => DecideAnswer::NoPlace { runs },
            Outcome::Spent => DecideAnswer::Spent { runs },
        }
    }

    /// While value 0 is tried, value 1 waits in a place; it has no place more for
    /// its own halves than value 0 had.
    fn seek(&self, formula: &Formula, room: usize, places: usize, left: &mut usize) -> Outcome {
        if *left == 0 {
            return Outcome::Spent;
        }
        *left -= 1;
        let (reached, answer) = self.run(self.rules.tidy_formula(formula), room);
        if let SolveAnswer::Ended { verdict, .. } = answer {
            return Outcome::Decided(verdict);
        }
        if places == 0 {
            return Outcome::NoPlace;
        }
        let first = self.seek(&reached.under(&[false]), room, places - 1, left);
        // Exists stops at true, for all at false.
        let (turn, _) = reached.prefix[0];
        if first == Outcome::Decided(!turn.wants()) {
            self.seek(&reached.under(&[true]), room, places - 1, left)
        } else {
            first
        }
    }

    /// Decide: all three buffers become zeros unless it refuses. A place is as
    /// long as the shorter work buffer.
    pub fn decide(
        &self,
        sheet: &[u8],
        budget: usize,
        first: &mut [u8],
        second: &mut [u8],
        stack: &mut [u8],
    ) -> DecideAnswer {
        let room = first.len().min(second.len());
        let formula = match self.format.parse(sheet) {
            Err((number, place)) => return DecideAnswer::Refused(number, place),
            Ok(_) if room < sheet.len() => return DecideAnswer::Refused(13, 0),
            Ok(formula) => formula,
        };
        let places = stack.len() / room;
        [first, second, stack].into_iter().for_each(|buffer| buffer.fill(0));
        self.decide_formula(&formula, room, places, budget)
    }

    /// Split: the length of the sheet under values of the first variables.
    pub fn split(&self, sheet: &[u8], values: &[u8], output: &mut [u8]) -> Answer<usize> {
        self.format.answer(self.under(sheet, values, output.len()), output)
    }

    fn under(&self, sheet: &[u8], values: &[u8], room: usize) -> Result<Formula, Refusal> {
        let formula = self.format.parse(sheet)?;
        if values.iter().any(|&value| value > 1) {
            return Err((21, 0));
        }
        let left = formula.prefix.len().checked_sub(values.len()).ok_or((22, 0))?;
        if room < self.format.sheet_length(left, formula.matrix.rows()) {
            return Err((13, 0));
        }
        Ok(formula.under(&values.iter().map(|&value| value == 1).collect::<Vec<_>>()))
    }

    /// Join: the verdict of an answer for every list of values of the first `k`
    /// variables, 0 false, 1 true, 2 unknown; nothing if they leave it open.
    pub fn join(&self, sheet: &[u8], k: usize, answers: &[u8]) -> Answer<Option<bool>> {
        self.joined(sheet, k, answers).into()
    }

    fn joined(&self, sheet: &[u8], k: usize, answers: &[u8]) -> Result<Option<bool>, Refusal> {
        let formula = self.format.parse(sheet)?;
        let rows = formula.prefix.get(..k).ok_or((22, 0))?;
        if u32::try_from(k).ok().and_then(|k| 1_usize.checked_shl(k)) != Some(answers.len()) {
            return Err((28, 0));
        }
        if answers.iter().any(|&answer| answer > 2) {
            return Err((29, 0));
        }
        let known = |&answer: &u8| (answer != 2).then_some(answer == 1);
        Ok(join_answers(rows, &answers.iter().map(known).collect::<Vec<_>>()))
    }
}

/// The answers for value 0 of the first row come first. Exists is true once one
/// half is, for all false; else both must be known.
pub fn join_answers(rows: &[Binding], answers: &[Option<bool>]) -> Option<bool> {
    let Some((&(quantifier, _), rest)) = rows.split_first() else {
        return answers[0];
    };
    let (zero, one) = answers.split_at(answers.len() / 2);
    let halves = [join_answers(rest, zero), join_answers(rest, one)];
    if halves.contains(&Some(quantifier.wants())) {
        Some(quantifier.wants())
    } else if halves.contains(&None) {
        None
    } else {
        Some(!quantifier.wants())
    }
}
