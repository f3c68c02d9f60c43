//! Document 01 on trees, in its own order and without any optimisation.
//!
//! What an operation depends on is what it is a method of: `Format` reads and
//! writes sheets, `Rules` works on formulas, and a `Reading` has both.

mod carrying;
mod certificates;
mod claim;
mod clausal;
mod decide;
mod expand;
mod force;
mod format;
mod guards;
mod order;
mod outer;
mod part;
mod reduce;
mod resume;
mod rules;
mod settle;
mod sheet;
mod solve;
mod step;
mod steps;
mod strategy;
mod text;
mod tidy;
mod tree;
mod trial;

pub use carrying::{bring_back, widen};
pub use certificates::{
    certified, steps_said, words_of, Certified, Constraint, Inference, Literal, Reason,
};
pub use claim::{claim_formula, negated, ClaimAnswer};
pub use decide::{join_answers, DecideAnswer};
pub use expand::{raw_expansion, raw_rows, Expansion};
pub use force::Forced;
pub use format::Format;
pub use guards::{GuardsAnswer, Sifted};
pub use order::{compare_formulas, compare_nodes, sort_node, CompareAnswer};
pub use outer::{block_behind, dependents, Copied, OuterExpansion};
pub use resume::{resume, Counts};
pub use rules::Rules;
pub use settle::settle_value;
pub use sheet::Row;
pub use solve::{line_of, Move, SolveAnswer};
pub use step::Operation;
pub use steps::Step;
pub use strategy::{pairs_of, strategy_formula, Pair, StrategyAnswer};
pub use tidy::verdict;
pub use tree::{Binding, Formula, Kind, Node, Quantifier, Variable};

/// Number and place.
pub type Refusal = (u8, usize);

/// What an operation answers.
#[derive(Clone, Copy, Debug, PartialEq, Eq)]
pub enum Answer<T> {
    Refused(u8, usize),
    Accepted(T),
}

impl<T> Answer<T> {
    /// The refusal number, 0 if it is accepted.
    pub fn number(&self) -> usize {
        match self {
            Answer::Refused(number, _) => usize::from(*number),
            Answer::Accepted(_) => 0,
        }
    }
}

impl<T: Copy> Answer<T> {
    pub fn accepted(&self) -> Option<T> {
        match self {
            Answer::Refused(..) => None,
            Answer::Accepted(value) => Some(*value),
        }
    }
}

impl<T> From<Result<T, Refusal>> for Answer<T> {
    fn from(result: Result<T, Refusal>) -> Self {
        match result {
            Ok(value) => Answer::Accepted(value),
            Err((number, place)) => Answer::Refused(number, place),
        }
    }
}

/// The operations on sheets of one format under one set of rules.
#[derive(Clone, Copy, Debug)]
pub struct Reading {
    pub format: Format,
    pub rules: Rules,
}

impl Reading {
    pub const NARROW: Reading = Reading { format: Format::NARROW, rules: Rules::CURRENT };
    pub const WIDE: Reading = Reading { format: Format::WIDE, rules: Rules::CURRENT };
}
