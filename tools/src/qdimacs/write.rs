//! A formula as QDIMACS.
//!
//! A set of clauses is written as it is. Of any other tree each AND below an OR
//! gets a new variable that implies it: one direction suffices, since in negation
//! normal form every operator occurs positively. The new variables are
//! existential and innermost, so the truth is the same.

use crate::formula::{Formula, Row, AND, EXISTS, NEGATIVE};
use crate::picture::children;

/// Literals as QDIMACS has them: a variable, or its negative.
type Clause = Vec<isize>;

struct Clauses<'a> {
    matrix: &'a [Row],
    ends: Vec<usize>,
    /// The highest variable so far.
    highest: usize,
    clauses: Vec<Clause>,
}

/// The text of a formula.
pub fn write(formula: &Formula) -> String {
    let own = highest(formula);
    let Clauses { highest, clauses, .. } = Clauses::of(formula);
    let mut prefix = formula.prefix.clone();
    prefix.extend((own + 1..=highest).map(|new| Row::new(EXISTS, new)));
    let mut text = format!("p cnf {highest} {}\n", clauses.len());
    for block in prefix.chunk_by(|one, next| one.kind == next.kind) {
        let quantifier = if block[0].kind == EXISTS { "e" } else { "a" };
        let variables: String = block.iter().map(|row| format!("{} ", row.argument)).collect();
        text += &format!("{quantifier} {variables}0\n");
    }
    for clause in clauses {
        let literals: String = clause.iter().map(|literal| format!("{literal} ")).collect();
        text += &format!("{literals}0\n");
    }
    text
}

/// The header's two numbers.
pub fn counts(formula: &Formula) -> (usize, usize) {
    let clauses = Clauses::of(formula);
    (clauses.highest, clauses.clauses.len())
}

fn highest(formula: &Formula) -> usize {
    formula.prefix.iter().map(|row| row.argument).max().unwrap_or(0)
}

impl Clauses<'_> {
    fn of(formula: &Formula) -> Clauses<'_> {
        let (matrix, ends, highest) = (&formula.matrix[..], formula.ends(), highest(formula));
        let mut all = Clauses { matrix, ends, highest, clauses: Vec::new() };
        // Nodes that must hold, each under a variable that implies it or under none, the next one last.
        let mut owed = vec![(None, 0)];
        while let Some((under, node)) = owed.pop() {
            let next = if all.matrix[node].kind == AND {
                children(&all.ends, node).map(|child| (under, child)).collect()
            } else {
                all.add_clause(under, node)
            };
            owed.extend(next.into_iter().rev());
        }
        all
    }

    /// Adds the clause of a literal or an OR. What its new variables imply is still owed.
    fn add_clause(&mut self, under: Option<isize>, node: usize) -> Vec<(Option<isize>, usize)> {
        let mut clause: Clause = under.map(|variable| -variable).into_iter().collect();
        let (mut alternatives, mut owed) = (vec![node], Vec::new());
        while let Some(at) = alternatives.pop() {
            let row = self.matrix[at];
            if row.is_literal() {
                let variable = row.argument as isize;
                clause.push(if row.kind == NEGATIVE { -variable } else { variable });
            } else if row.kind == AND {
                self.highest += 1;
                clause.push(self.highest as isize);
                owed.push((Some(self.highest as isize), at));
            } else {
                let below: Vec<usize> = children(&self.ends, at).collect();
                alternatives.extend(below.into_iter().rev());
            }
        }
        self.clauses.push(clause);
        owed
    }
}
