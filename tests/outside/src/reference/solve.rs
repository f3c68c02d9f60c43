//! Solve, and the program's line.

use super::{raw_rows, settle_value, verdict, Formula, Reading, Rules, Variable};

#[derive(Clone, Copy, Debug, PartialEq, Eq)]
pub enum SolveAnswer {
    Refused(u8, usize),
    Stopped { variable: Variable, settled: usize, expanded: usize },
    Ended { verdict: bool, settled: usize, expanded: usize },
}

impl SolveAnswer {
    /// Settled and expanded; a refused call has no counts.
    pub fn counts(&self) -> Option<(usize, usize)> {
        match *self {
            SolveAnswer::Refused(..) => None,
            SolveAnswer::Stopped { settled, expanded, .. }
            | SolveAnswer::Ended { settled, expanded, .. } => Some((settled, expanded)),
        }
    }
}

/// What Solve does next with a tidy formula.
#[derive(Clone, Copy, Debug, PartialEq, Eq)]
pub enum Move {
    End(bool),
    Settle(Variable, bool),
    Expand(Variable),
}

impl Rules {
    pub fn next_move(&self, formula: &Formula) -> Move {
        if let Some(verdict) = verdict(&formula.matrix) {
            return Move::End(verdict);
        }
        let mut numbers = formula.variables();
        numbers.sort_unstable();
        for x in numbers {
            if let Some(value) = settle_value(formula, x) {
                return Move::Settle(x, value);
            }
        }
        Move::Expand(self.cheapest(formula))
    }

    /// Fewest raw rows, ties to the lower number.
    fn cheapest(&self, formula: &Formula) -> Variable {
        let block = self.innermost_block(formula).into_iter();
        let cheapest = block.min_by_key(|&x| (raw_rows(formula, x), x));
        // A tidy matrix without literals is decided, so a variable is left.
        cheapest.expect("an undecided formula has a variable")
    }
}

impl Reading {
    /// Solve: both buffers are rewritten unless it refuses.
    pub fn solve(&self, sheet: &[u8], first: &mut [u8], second: &mut [u8]) -> SolveAnswer {
        let room = first.len().min(second.len());
        match self.tidied(sheet, room) {
            Err((number, place)) => SolveAnswer::Refused(number, place),
            Ok(start) => {
                let (reached, answer) = self.run(start, room);
                self.format.write(&reached, first);
                second.fill(0);
                answer
            }
        }
    }

    /// The formula reached from a tidy one, and the answer.
    pub(super) fn run(&self, start: Formula, room: usize) -> (Formula, SolveAnswer) {
        self.run_seen(start, room, |_, _| ())
    }

    /// The same, with `see` called on the formula right before each step and on
    /// its variable.
    pub(super) fn run_seen(
        &self,
        start: Formula,
        room: usize,
        mut see: impl FnMut(&Formula, Variable),
    ) -> (Formula, SolveAnswer) {
        let mut formula = start;
        let (mut settled, mut expanded) = (0, 0);
        loop {
            match self.rules.next_move(&formula) {
                Move::End(verdict) => {
                    return (formula, SolveAnswer::Ended { verdict, settled, expanded });
                }
                Move::Settle(x, value) => {
                    see(&formula, x);
                    formula = self.rules.settle_formula(&formula, x, value);
                    settled += 1;
                }
                Move::Expand(x) if self.format.raw_sheet_fits(&formula, x, room) => {
                    see(&formula, x);
                    formula = self.rules.expand_formula(&formula, x);
                    expanded += 1;
                }
                Move::Expand(variable) => {
                    return (formula, SolveAnswer::Stopped { variable, settled, expanded });
                }
            }
        }
    }

    /// The program's line, without the line end.
    pub fn program_line(&self, input: &[u8]) -> String {
        let longest = self.format.longest_sheet();
        let read = &input[..input.len().min(longest + 1)];
        let (mut first, mut second) = (vec![0; longest], vec![0; longest]);
        line_of(&self.solve(read, &mut first, &mut second))
    }
}

/// The line for an answer of Solve.
pub fn line_of(answer: &SolveAnswer) -> String {
    match answer {
        SolveAnswer::Refused(number, _) => format!("refused 0 0 {number}"),
        SolveAnswer::Stopped { variable, settled, expanded } => {
            format!("stopped {settled} {expanded} {variable}")
        }
        SolveAnswer::Ended { verdict, settled, expanded } => {
            format!("{verdict} {settled} {expanded} 0")
        }
    }
}
