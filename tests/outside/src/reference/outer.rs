//! N6: a universal variable one block out, with the existential variables that
//! depend on it copied too, Outer.

use super::expand::{copied_variables, price, raw_matrix, relevant};
use super::{
    Answer, Binding, Format, Formula, Node, Quantifier, Reading, Refusal, Rules, Variable,
};
use std::collections::{BTreeMap, BTreeSet};

/// The new sheet's length, how many variables are copied, and the lowest of them, 0 if none.
#[derive(Clone, Copy, Debug, PartialEq, Eq)]
pub struct Copied {
    pub length: usize,
    pub count: usize,
    pub lowest: Variable,
}

/// The step before tidying.
#[derive(Clone, Debug, PartialEq, Eq)]
pub struct OuterExpansion {
    pub raw: Formula,
    /// The variables copied, in prefix order, and their new numbers.
    pub copies: Vec<(Variable, Variable)>,
}

/// The rows behind that of `x` that have a literal.
fn later(formula: &Formula, x: Variable) -> Vec<Binding> {
    let used = formula.matrix.variables();
    let behind = formula.prefix.iter().skip_while(|row| row.1 != x).skip(1);
    behind.copied().filter(|row| used.contains(&row.1)).collect()
}

/// The existential block behind a universal `x`, if what has literals behind it
/// is any number of universal rows and then at least one existential.
pub fn block_behind(formula: &Formula, x: Variable) -> Option<Vec<Variable>> {
    if formula.quantifier(x) != Some(Quantifier::ForAll) {
        return None;
    }
    let mut rows = later(formula, x);
    let universal = rows.iter().take_while(|row| row.0 == Quantifier::ForAll).count();
    let block = rows.split_off(universal);
    let alike = block.iter().all(|row| row.0 == Quantifier::Exists);
    (alike && !block.is_empty()).then(|| block.into_iter().map(|row| row.1).collect())
}

/// Those of the block that depend on `x`, in prefix order: with a literal in the
/// relevant subtree of `x`, or of one that depends on it.
pub fn dependents(formula: &Formula, x: Variable, block: &[Variable]) -> Vec<Variable> {
    let mut found = BTreeSet::new();
    let mut open = vec![x];
    while let Some(y) = open.pop() {
        let subtree = relevant(&formula.matrix, &|var| var == y);
        for z in copied_variables(&formula.matrix, &subtree) {
            if block.contains(&z) && found.insert(z) {
                open.push(z);
            }
        }
    }
    block.iter().copied().filter(|var| found.contains(var)).collect()
}

/// Literals of variables with a new number get it.
fn renamed(node: &Node, numbers: &BTreeMap<Variable, Variable>) -> Node {
    match node {
        Node::Lit { positive, var } => {
            Node::Lit { positive: *positive, var: *numbers.get(var).unwrap_or(var) }
        }
        Node::Op { kind, children } => Node::Op {
            kind: *kind,
            children: children.iter().map(|child| renamed(child, numbers)).collect(),
        },
    }
}

/// The numbers that the prefix leaves, the smallest first.
pub(super) fn unused(format: Format, formula: &Formula) -> impl Iterator<Item = Variable> {
    let bound: BTreeSet<Variable> = formula.variables().into_iter().collect();
    (1..=format.most_variables).filter(move |var| !bound.contains(var))
}

impl Format {
    /// The step on a formula whose `x` has this block behind it; 18 if there are
    /// too few numbers.
    pub fn outer_expansion(
        self,
        formula: &Formula,
        x: Variable,
        block: &[Variable],
    ) -> Option<OuterExpansion> {
        let dependents = dependents(formula, x, block);
        let new: Vec<Variable> = unused(self, formula).take(dependents.len()).collect();
        if new.len() < dependents.len() {
            return None;
        }
        let copies: Vec<(Variable, Variable)> = dependents.into_iter().zip(new).collect();
        let numbers: BTreeMap<Variable, Variable> = copies.iter().copied().collect();
        let subtree = relevant(&formula.matrix, &|var| var == x || numbers.contains_key(&var));
        let matrix = raw_matrix(&formula.matrix, &subtree, &|subtree| {
            let second = renamed(&subtree.assign(x, true), &numbers);
            Node::and(vec![subtree.assign(x, false), second])
        });
        assert_eq!(matrix.rows(), price(&formula.matrix, &subtree).1, "rows as counted in Expand");
        let mut prefix = formula.prefix_without(x);
        prefix.extend(copies.iter().map(|copy| (Quantifier::Exists, copy.1)));
        Some(OuterExpansion { raw: Formula { prefix, matrix }, copies })
    }
}

impl Rules {
    /// The step on formulas, tidied.
    pub fn outer_formula(&self, expansion: &OuterExpansion) -> Formula {
        self.tidy_formula(&expansion.raw)
    }
}

impl Reading {
    /// Outer: the new sheet's length, and what was copied.
    pub fn outer(&self, sheet: &[u8], x: Variable, output: &mut [u8]) -> Answer<Copied> {
        let expanded = self.outer_of(sheet, x, output.len());
        let copied = expanded.map(|expansion| Copied {
            length: self.format.write(&self.rules.outer_formula(&expansion), output),
            count: expansion.copies.len(),
            lowest: expansion.copies.iter().map(|copy| copy.0).min().unwrap_or(0),
        });
        copied.into()
    }

    fn outer_of(&self, sheet: &[u8], x: Variable, room: usize) -> Result<OuterExpansion, Refusal> {
        let formula = self.parse_tidy(sheet)?;
        formula.quantifier(x).ok_or((10, 0))?;
        let block = block_behind(&formula, x).ok_or((11, 0))?;
        let expansion = self.format.outer_expansion(&formula, x, &block).ok_or((18, 0))?;
        let (v, rows) = (expansion.raw.prefix.len(), expansion.raw.matrix.rows());
        if !self.format.fits(v, rows, room) {
            return Err((13, 0));
        }
        Ok(expansion)
    }
}
