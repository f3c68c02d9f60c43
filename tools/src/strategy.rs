//! Strategies: for each variable of a side a function, which says what to wire.
//!
//! `run` has them from the proved operations, `fault` says why one is refused. `circuit` has
//! functions as gates, and `layout` writes them as expressions: `text` as lines that can be read
//! again, `verilog`, `structured_text`, `qcir`, `aiger` and `table` for other programs, with names
//! that `identifiers` finds.

pub mod aiger;
mod circuit;
mod fault;
mod identifiers;
mod layout;
pub mod qcir;
mod run;
pub mod structured_text;
pub mod table;
pub mod text;
pub mod verilog;

use crate::formula::{value, Formula, Row, AND, EXISTS, FOR_ALL, OR, POSITIVE};
use crate::names::Names;
use plumanchor::Quantifier;
use std::collections::{BTreeMap, BTreeSet};

pub use fault::Tested;
pub use run::{found, Found};

/// The rows of a tree, in preorder.
pub type Tree = Vec<Row>;

/// The functions of a side's variables, for a formula whose variables have names.
#[derive(Clone, Debug)]
pub struct Strategy {
    pub side: Quantifier,
    pub formula: Formula,
    pub names: Names,
    /// A variable and its function, which reads the other side's variables and those that stand in
    /// front of it in this list; in the prefix's order where that can be.
    pub functions: Vec<(usize, Tree)>,
}

/// What a play comes to.
#[derive(Clone, Debug, PartialEq, Eq)]
pub struct Play {
    /// By variable number; 0 for numbers that the prefix doesn't have.
    pub values: Vec<bool>,
    /// The value of the matrix.
    pub holds: bool,
}

/// What a side's rows in the prefix are.
pub fn kind_of(side: Quantifier) -> u8 {
    match side {
        Quantifier::Exists => EXISTS,
        Quantifier::ForAll => FOR_ALL,
    }
}

/// What a side is called.
pub fn side_words(side: Quantifier) -> &'static str {
    match side {
        Quantifier::Exists => "exists",
        Quantifier::ForAll => "for all",
    }
}

/// The value of the matrix that a side wants.
pub fn wants(side: Quantifier) -> bool {
    side == Quantifier::Exists
}

/// The side that a verdict says wins.
pub fn winner(verdict: bool) -> Quantifier {
    if verdict {
        Quantifier::Exists
    } else {
        Quantifier::ForAll
    }
}

/// The first line of a strategy's text.
pub fn first_line(side: Quantifier) -> String {
    format!("{}: {} wins", wants(side), side_words(side))
}

impl Strategy {
    /// The strategy of a side whose pairs are a sheet's; nothing if they have not the form of pairs,
    /// or some read one another in a circle.
    pub fn of_pairs(
        side: Quantifier,
        formula: Formula,
        names: Names,
        strategy: &Formula,
    ) -> Option<Strategy> {
        let functions = in_order(&formula, pairs(strategy)?)?;
        Some(Strategy { side, formula, names, functions })
    }

    /// Whether a variable of the prefix is one of this side.
    pub fn owns(&self, x: usize) -> bool {
        let kind = kind_of(self.side);
        self.formula.prefix.contains(&Row::new(kind, x))
    }

    /// The other side's variables, in the prefix's order.
    pub fn others(&self) -> Vec<usize> {
        let kind = kind_of(self.side);
        let rows = self.formula.prefix.iter().filter(|row| row.kind != kind);
        rows.map(|row| row.argument).collect()
    }

    /// This side's variables, in the prefix's order.
    pub fn owned(&self) -> Vec<usize> {
        let kind = kind_of(self.side);
        let rows = self.formula.prefix.iter().filter(|row| row.kind == kind);
        rows.map(|row| row.argument).collect()
    }

    /// The play in which these of the other side's variables are 1, and all others of them 0. A
    /// variable of this side depends only on those in front of it, so its value is right as soon as
    /// theirs are.
    pub fn play(&self, ones: &[usize]) -> Play {
        let highest = self.formula.prefix.iter().map(|row| row.argument).max().unwrap_or(0);
        let mut values = vec![false; highest + 1];
        for &x in ones {
            values[x] = true;
        }
        for (x, function) in &self.functions {
            values[*x] = value(function, &values);
        }
        let holds = value(&self.formula.matrix, &values);
        Play { values, holds }
    }

    /// The same with values for the other side's variables in the prefix's order, as many as there
    /// are.
    pub fn answer(&self, values: &[bool]) -> Play {
        let pairs = self.others().into_iter().zip(values);
        let ones: Vec<usize> = pairs.filter(|(_, &value)| value).map(|(x, _)| x).collect();
        self.play(&ones)
    }
}

/// OR of one AND for each pair: the variable's positive literal, then the function.
pub fn pairs_formula(prefix: &[Row], pairs: &[(usize, &Tree)]) -> Formula {
    let mut matrix = vec![Row::new(OR, pairs.len())];
    for (x, function) in pairs {
        matrix.extend([Row::new(AND, 2), Row::new(POSITIVE, *x)]);
        matrix.extend(function.iter());
    }
    Formula { prefix: prefix.to_vec(), matrix }
}

/// The pairs of a strategy's sheet, in its order; nothing if it has another form.
pub fn pairs(strategy: &Formula) -> Option<Vec<(usize, Tree)>> {
    let (matrix, ends) = (&strategy.matrix, strategy.ends());
    if matrix[0].kind != OR {
        return None;
    }
    let mut pairs = Vec::new();
    let mut at = 1;
    while at < matrix.len() {
        let [joint, literal, ..] = matrix[at..ends[at]] else { return None };
        if joint != Row::new(AND, 2) || literal.kind != POSITIVE {
            return None;
        }
        pairs.push((literal.argument, matrix[at + 2..ends[at]].to_vec()));
        at = ends[at];
    }
    Some(pairs)
}

/// The variables that a tree has literals of.
pub fn read_by(tree: &[Row]) -> BTreeSet<usize> {
    tree.iter().filter(|row| row.is_literal()).map(|row| row.argument).collect()
}

/// Pairs with each behind all those that it reads, else in the prefix's order; nothing if there is
/// no such order, or a variable has two.
pub fn in_order(formula: &Formula, mut pairs: Vec<(usize, Tree)>) -> Option<Vec<(usize, Tree)>> {
    let place = |x: usize| formula.prefix.iter().position(|row| row.argument == x);
    pairs.sort_by_cached_key(|pair| place(pair.0));
    let places: BTreeMap<usize, usize> =
        pairs.iter().enumerate().map(|(at, pair)| (pair.0, at)).collect();
    let reads = |pair: &(usize, Tree)| -> Vec<usize> {
        read_by(&pair.1).iter().filter_map(|x| places.get(x).copied()).collect()
    };
    let reads: Vec<Vec<usize>> = pairs.iter().map(reads).collect();
    let mut known = vec![false; pairs.len()];
    let mut order = Vec::with_capacity(pairs.len());
    let mut left: Vec<usize> = (0..pairs.len()).filter(|_| places.len() == pairs.len()).collect();
    while order.len() < pairs.len() {
        let next = left.iter().position(|&at| reads[at].iter().all(|&read| known[read]))?;
        let at = left.remove(next);
        known[at] = true;
        order.push(std::mem::take(&mut pairs[at]));
    }
    Some(order)
}
