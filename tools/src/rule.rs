//! Document 01's rule, which Solve follows: settle the lowest-numbered variable
//! that may be settled; if none, expand the innermost variable with the fewest
//! raw rows, ties to the lower number.

use crate::formula::{Formula, Row, AND, EXISTS, POSITIVE};
use crate::refusal::Refusal;
use crate::sheet::Sheet;

/// What comes next for a tidy sheet.
#[derive(Debug, PartialEq, Eq)]
pub enum Move {
    End(bool),
    /// A quantifier's row, the value to put in, and why.
    Settle(Row, bool, Reason),
    /// A quantifier's row, and the raw rows as Quote tells them.
    Expand(Row, usize),
}

/// Why a variable may be settled.
#[derive(Debug, PartialEq, Eq)]
pub enum Reason {
    NoLiteral,
    /// All its literals are of this kind.
    Pure(u8),
    /// A literal of this kind is a child of the root; one that is the root itself is pure.
    Unit(u8),
}

pub fn next_move(sheet: &Sheet, formula: &Formula) -> Result<Move, Refusal> {
    if let [Row { kind, argument: 0 }] = formula.matrix[..] {
        return Ok(Move::End(kind == AND));
    }
    let mut by_number = formula.prefix.clone();
    by_number.sort_by_key(|row| row.argument);
    let literals = literals(formula);
    for row in by_number {
        if let Some((value, reason)) = literals[row.argument].settled(row.kind) {
            return Ok(Move::Settle(row, value, reason));
        }
    }
    let mut priced = Vec::new();
    for &row in innermost(formula) {
        priced.push((sheet.quote(row.argument)?, row));
    }
    let cheapest = priced.into_iter().min_by_key(|(raw, row)| (*raw, row.argument));
    let (raw, row) = cheapest.expect("a tidy sheet that isn't decided has a variable");
    Ok(Move::Expand(row, raw))
}

/// The longest run of equal kinds at the end of the prefix. Where nothing can be
/// settled every variable has a literal, so no spare row can widen it.
fn innermost(formula: &Formula) -> &[Row] {
    formula.prefix.chunk_by(|one, next| one.kind == next.kind).next_back().unwrap_or_default()
}

/// The kinds of a variable's literals: any, and those at the root or below it.
#[derive(Clone, Default)]
struct Literals {
    anywhere: Vec<u8>,
    at_root: Vec<u8>,
}

impl Literals {
    /// The value by quantifier and sign, if there is a sign to go by.
    fn settled(&self, quantifier: u8) -> Option<(bool, Reason)> {
        let value = |kind: u8| (quantifier == EXISTS) == (kind == POSITIVE);
        match (&self.anywhere[..], &self.at_root[..]) {
            ([], _) => Some((false, Reason::NoLiteral)),
            (&[kind], _) => Some((value(kind), Reason::Pure(kind))),
            (_, &[kind, ..]) => Some((value(kind), Reason::Unit(kind))),
            (_, []) => None,
        }
    }
}

/// By variable number.
fn literals(formula: &Formula) -> Vec<Literals> {
    let highest = formula.prefix.iter().map(|row| row.argument).max().unwrap_or(0);
    let mut all = vec![Literals::default(); highest + 1];
    for (row, depth) in formula.matrix.iter().zip(formula.depths()) {
        if row.is_literal() {
            let Literals { anywhere, at_root } = &mut all[row.argument];
            add(row.kind, anywhere);
            if depth < 2 {
                add(row.kind, at_root);
            }
        }
    }
    all
}

fn add(kind: u8, kinds: &mut Vec<u8>) {
    if !kinds.contains(&kind) {
        kinds.push(kind);
    }
}
