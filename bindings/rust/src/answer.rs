//! What the operations answer when they don't refuse.

use crate::sheet::Sheet;
use std::fmt::{self, Display, Formatter};

/// How many variables and nodes a sheet has.
#[derive(Clone, Copy, Debug, PartialEq, Eq, Hash)]
pub struct Sizes {
    /// V, the rows of the prefix.
    pub variables: usize,
    /// N, the rows of the tree.
    pub nodes: usize,
}

/// The verdict of trying all values, and how many leaves were tried.
#[derive(Clone, Copy, Debug, PartialEq, Eq, Hash)]
pub struct Tried {
    /// Whether the formula is true.
    pub verdict: bool,
    /// How many assignments were looked at.
    pub leaves: usize,
}

/// The expansion of a universal variable one block out.
#[derive(Clone, Copy, Debug, PartialEq, Eq, Hash)]
pub struct Copied<T> {
    /// The new sheet, or its length where the caller has it in an output.
    pub sheet: T,
    /// How many variables were copied with it.
    pub count: usize,
    /// The lowest of their old numbers, 0 if none.
    pub lowest: usize,
}

impl<T> Copied<T> {
    /// The same with what is made of the sheet.
    pub fn map<U>(self, sheet: impl FnOnce(T) -> U) -> Copied<U> {
        Copied { sheet: sheet(self.sheet), count: self.count, lowest: self.lowest }
    }
}

/// How a run ended, and its counts. It is shown as the program's line.
///
/// ```
/// use plumanchor::Solved;
///
/// let solved = Solved { verdict: Some(true), settled: 3, expanded: 1, variable: 0 };
/// assert_eq!(solved.to_string(), "true 3 1 0");
/// ```
#[derive(Clone, Copy, Debug, Default, PartialEq, Eq, Hash)]
pub struct Solved {
    /// Nothing if it stopped.
    pub verdict: Option<bool>,
    /// How many variables were settled.
    pub settled: usize,
    /// How many variables were expanded.
    pub expanded: usize,
    /// The variable that it stopped at, 0 with a verdict.
    pub variable: usize,
}

impl Solved {
    /// The program's line, without its end.
    pub fn line(&self) -> String {
        self.to_string()
    }
}

impl Display for Solved {
    fn fmt(&self, to: &mut Formatter) -> fmt::Result {
        let Solved { verdict, settled, expanded, variable } = self;
        match verdict {
            Some(verdict) => write!(to, "{verdict} {settled} {expanded} {variable}"),
            None => write!(to, "stopped {settled} {expanded} {variable}"),
        }
    }
}

/// How many variables a run began with, and its counts so far.
#[derive(Clone, Copy, Debug, PartialEq, Eq, Hash)]
pub struct Counts {
    /// How many variables the run's first sheet has.
    pub started: usize,
    /// How many variables were settled so far.
    pub settled: usize,
    /// How many variables were expanded so far.
    pub expanded: usize,
}

/// What Guards found.
#[derive(Clone, Copy, Debug, PartialEq, Eq, Hash)]
pub enum Guarded<T> {
    /// The sheet is true, by a run with these counts: no child is to blame.
    True {
        /// How many variables were settled.
        settled: usize,
        /// How many variables were expanded.
        expanded: usize,
    },
    /// The run on the whole sheet stopped: there is no verdict.
    Stopped {
        /// The variable that it stopped at.
        variable: usize,
        /// How many variables were settled.
        settled: usize,
        /// How many variables were expanded.
        expanded: usize,
    },
    /// The sheet is false.
    Kept {
        /// The sheet of the children kept, or its length where the caller has it in an output.
        sheet: T,
        /// How many of them were kept because the run without them stopped.
        stops: usize,
    },
}

impl<T> Guarded<T> {
    /// The same with what is made of the sheet.
    pub fn map<U>(self, to: impl FnOnce(T) -> U) -> Guarded<U> {
        match self {
            Guarded::True { settled, expanded } => Guarded::True { settled, expanded },
            Guarded::Stopped { variable, settled, expanded } => {
                Guarded::Stopped { variable, settled, expanded }
            }
            Guarded::Kept { sheet, stops } => Guarded::Kept { sheet: to(sheet), stops },
        }
    }
}

/// How a run ended, and the strategy by which the verdict's side wins.
#[derive(Clone, Copy, Debug, PartialEq, Eq, Hash)]
pub enum Strategy<T = Sheet> {
    /// The strategy of exists for a true sheet, of for all for a false one.
    Written {
        /// Whether the formula is true.
        verdict: bool,
        /// How many variables were settled.
        settled: usize,
        /// How many variables were expanded.
        expanded: usize,
        /// The strategy's sheet, or its length where the caller has it in an output.
        sheet: T,
    },
    /// There is a verdict, and its strategy doesn't fit the output or the format.
    TooLong {
        /// Whether the formula is true.
        verdict: bool,
        /// How many variables were settled.
        settled: usize,
        /// How many variables were expanded.
        expanded: usize,
        /// How many node rows the strategy's sheet has.
        rows: usize,
    },
    /// The run stopped: there is no verdict.
    Stopped {
        /// The variable that it stopped at.
        variable: usize,
        /// How many variables were settled.
        settled: usize,
        /// How many variables were expanded.
        expanded: usize,
    },
}

impl<T> Strategy<T> {
    /// The same with what is made of the sheet.
    pub fn map<U>(self, to: impl FnOnce(T) -> U) -> Strategy<U> {
        match self {
            Strategy::Written { verdict, settled, expanded, sheet } => {
                Strategy::Written { verdict, settled, expanded, sheet: to(sheet) }
            }
            Strategy::TooLong { verdict, settled, expanded, rows } => {
                Strategy::TooLong { verdict, settled, expanded, rows }
            }
            Strategy::Stopped { variable, settled, expanded } => {
                Strategy::Stopped { variable, settled, expanded }
            }
        }
    }
}

/// Whether a derivation shows the verdict asked for.
#[derive(Clone, Copy, Debug, PartialEq, Eq, Hash)]
pub enum Certified {
    /// It does, so that the verdict is the sheet's truth.
    Yes,
    /// It shows nothing.
    No {
        /// The number of the first step that isn't valid, from 0 on; of all steps if only the last
        /// constraint isn't empty.
        step: usize,
    },
}

/// How a search ended, and how many runs of Solve it took.
#[derive(Clone, Copy, Debug, PartialEq, Eq, Hash)]
pub struct Decided {
    /// Whether the formula is true; nothing unless the search ended.
    pub verdict: Option<bool>,
    /// How many runs there were.
    pub runs: usize,
    /// Why there was no more.
    pub end: DecideEnd,
}

/// Why a search has no more runs.
#[derive(Clone, Copy, Debug, PartialEq, Eq, Hash)]
pub enum DecideEnd {
    /// There is a verdict.
    Ended,
    /// No place was left for a sheet that waits.
    NoPlace,
    /// The budget is spent.
    Spent,
}

/// A quantifier, or the side that owns its variables.
#[derive(Clone, Copy, Debug, PartialEq, Eq, Hash)]
pub enum Quantifier {
    /// There is a value; its owner wants the formula true.
    Exists,
    /// All values; its owner wants the formula false.
    ForAll,
}

/// Whose turn is next, and with which values its owner gets the outcome wanted.
#[derive(Clone, Copy, Debug, PartialEq, Eq, Hash)]
pub struct Forced {
    /// The quantifier of the first variable without a value.
    pub turn: Quantifier,
    /// What its owner can do.
    pub outcome: Outcome,
}

/// With which values the owner of a turn gets the outcome wanted: true for exists, false for all.
#[derive(Clone, Copy, Debug, PartialEq, Eq, Hash)]
pub enum Outcome {
    /// With none.
    Neither,
    /// With 0 alone.
    Zero,
    /// With 1 alone.
    One,
    /// With each.
    Both,
    /// It isn't known: the variable that a value's run stopped at.
    Stopped(usize),
}

/// What a step does.
#[derive(Clone, Copy, Debug, PartialEq, Eq, Hash)]
#[repr(u8)]
pub enum Operation {
    /// As Settle does.
    Settle = 0,
    /// As Expand does.
    Expand = 1,
}

/// A step of a list, on the sheet that the steps before it left.
#[derive(Clone, Copy, Debug, PartialEq, Eq, Hash)]
pub struct Step {
    /// What is done.
    pub operation: Operation,
    /// To which variable.
    pub variable: usize,
}
