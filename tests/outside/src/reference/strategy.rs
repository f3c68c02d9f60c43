//! Strategies (Strategy 1): the function of one variable, Response, and those
//! of the winner's variables over a run of Solve, Strategy.

use super::expand::relevant_subtree;
use super::{
    settle_value, Answer, Binding, Formula, Kind, Node, Quantifier, Reading, Refusal, Rules,
    SolveAnswer, Variable,
};

/// A variable of a side and its function, which reads the other side's variables
/// and those whose pair comes later in a list.
#[derive(Clone, Debug, PartialEq, Eq)]
pub struct Pair {
    pub variable: Variable,
    pub function: Node,
}

/// What Strategy answers: as Solve, and of a run that ended the length of the
/// strategy's sheet, or its node rows if it doesn't fit.
#[derive(Clone, Copy, Debug, PartialEq, Eq)]
pub enum StrategyAnswer {
    Refused(u8, usize),
    Stopped { variable: Variable, settled: usize, expanded: usize },
    Written { verdict: bool, settled: usize, expanded: usize, length: usize },
    TooLong { verdict: bool, settled: usize, expanded: usize, rows: usize },
}

impl StrategyAnswer {
    /// What Solve answers to the same call.
    pub fn solve_part(&self) -> SolveAnswer {
        match *self {
            StrategyAnswer::Refused(number, place) => SolveAnswer::Refused(number, place),
            StrategyAnswer::Stopped { variable, settled, expanded } => {
                SolveAnswer::Stopped { variable, settled, expanded }
            }
            StrategyAnswer::Written { verdict, settled, expanded, .. }
            | StrategyAnswer::TooLong { verdict, settled, expanded, .. } => {
                SolveAnswer::Ended { verdict, settled, expanded }
            }
        }
    }
}

impl Quantifier {
    /// The side that a verdict says wins.
    pub fn winner(verdict: bool) -> Quantifier {
        if verdict {
            Quantifier::Exists
        } else {
            Quantifier::ForAll
        }
    }
}

/// The function of a bound `x` before tidying: the constant that Settle puts in;
/// where there is none, what is relevant to `x` with the value in its place that
/// Settle has for a positive literal.
fn raw_function(formula: &Formula, x: Variable) -> Node {
    if let Some(value) = settle_value(formula, x) {
        return Node::constant(value);
    }
    let owner = formula.quantifier(x).expect("a bound variable");
    let subtree = relevant_subtree(&formula.matrix, x).expect("without a literal it settles");
    subtree.assign(x, owner.wants())
}

/// The first prefix, and OR of one AND for each pair: the variable's positive
/// literal, then the function.
pub fn strategy_formula(prefix: &[Binding], pairs: &[Pair]) -> Formula {
    let of = |Pair { variable, function }: &Pair| {
        Node::and(vec![Node::Lit { positive: true, var: *variable }, function.clone()])
    };
    Formula { prefix: prefix.to_vec(), matrix: Node::or(pairs.iter().map(of).collect()) }
}

/// The pairs that such a matrix says; one of another form says none.
pub fn pairs_of(matrix: &Node) -> Option<Vec<Pair>> {
    if !matrix.is_operator(Kind::Or) {
        return None;
    }
    let pair = |node: &Node| match node {
        Node::Op { kind: Kind::And, children } => match children.as_slice() {
            [Node::Lit { positive: true, var }, function] => {
                Some(Pair { variable: *var, function: function.clone() })
            }
            _ => None,
        },
        _ => None,
    };
    matrix.children().iter().map(pair).collect()
}

impl Rules {
    /// The function of a bound `x` that may be settled or expanded.
    pub fn function_of(&self, formula: &Formula, x: Variable) -> Node {
        self.tidy_node(raw_function(formula, x))
    }
}

impl Reading {
    /// Response: the length of the function's sheet.
    pub fn response(&self, sheet: &[u8], x: Variable, output: &mut [u8]) -> Answer<usize> {
        self.format.answer(self.responded(sheet, x, output.len()), output)
    }

    fn responded(&self, sheet: &[u8], x: Variable, room: usize) -> Result<Formula, Refusal> {
        let formula = self.parse_tidy(sheet)?;
        formula.quantifier(x).ok_or((10, 0))?;
        let block = self.rules.innermost_block(&formula);
        if settle_value(&formula, x).is_none() && !block.contains(&x) {
            return Err((11, 0));
        }
        let (prefix, raw) = (formula.prefix_without(x), raw_function(&formula, x));
        if !self.format.fits(prefix.len(), raw.rows(), room) {
            return Err((13, 0));
        }
        Ok(Formula { prefix, matrix: self.rules.tidy_node(raw) })
    }

    /// Strategy: as Solve, and the winner's strategy in the output.
    pub fn strategy(
        &self,
        sheet: &[u8],
        first: &mut [u8],
        second: &mut [u8],
        output: &mut [u8],
    ) -> StrategyAnswer {
        let room = first.len().min(second.len());
        let start = match self.tidied(sheet, room) {
            Err((number, place)) => return StrategyAnswer::Refused(number, place),
            Ok(start) => start,
        };
        let prefix = start.prefix.clone();
        let mut responses = Vec::new();
        let (reached, answer) = self.run_seen(start, room, |formula, x| {
            responses.push(Pair { variable: x, function: self.rules.function_of(formula, x) });
        });
        self.format.write(&reached, first);
        second.fill(0);
        output.fill(0);
        match answer {
            SolveAnswer::Ended { verdict, settled, expanded } => {
                let winner = Quantifier::winner(verdict);
                let pairs = strategy_of(winner, &prefix, responses, &reached);
                let strategy = strategy_formula(&prefix, &pairs);
                let rows = strategy.matrix.rows();
                if self.format.fits(prefix.len(), rows, output.len()) {
                    let length = self.format.write(&strategy, output);
                    StrategyAnswer::Written { verdict, settled, expanded, length }
                } else {
                    StrategyAnswer::TooLong { verdict, settled, expanded, rows }
                }
            }
            SolveAnswer::Stopped { variable, settled, expanded } => {
                StrategyAnswer::Stopped { variable, settled, expanded }
            }
            SolveAnswer::Refused(..) => unreachable!("a run refuses nothing"),
        }
    }
}

/// Of all responses, in the order of the run, the side's own; then 0 for its
/// rows that are left.
fn strategy_of(
    side: Quantifier,
    prefix: &[Binding],
    responses: Vec<Pair>,
    reached: &Formula,
) -> Vec<Pair> {
    let owns = |pair: &Pair| prefix.contains(&(side, pair.variable));
    let mut pairs: Vec<Pair> = responses.into_iter().filter(owns).collect();
    let left = reached.prefix.iter().filter(|row| row.0 == side);
    pairs.extend(left.map(|row| Pair { variable: row.1, function: Node::constant(false) }));
    pairs
}
