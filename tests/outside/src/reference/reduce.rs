//! N8: the clause profile and universal reduction, Reduce.

use super::{Answer, Binding, Formula, Kind, Node, Quantifier, Reading, Refusal, Rules};

/// A literal, or OR of literals.
fn is_clause(node: &Node) -> bool {
    let literals = |children: &[Node]| children.iter().all(|child| child.as_literal().is_some());
    node.as_literal().is_some() || node.is_operator(Kind::Or) && literals(node.children())
}

/// The clauses of a matrix of the profile. A root that is a clause is the only
/// one.
fn clauses(matrix: &Node) -> Option<&[Node]> {
    let clauses = match matrix {
        Node::Op { kind: Kind::And, children } => children,
        root => std::slice::from_ref(root),
    };
    clauses.iter().all(is_clause).then_some(clauses)
}

/// The clause without the universal literals that have no existential literal
/// of the clause after them in the prefix. One literal left is OR of one.
fn reduced_clause(prefix: &[Binding], clause: &Node) -> Node {
    let literals = match clause {
        Node::Op { children, .. } => children.as_slice(),
        literal => std::slice::from_ref(literal),
    };
    let mut kept = vec![true; literals.len()];
    let variables = clause.variables();
    let mut existential_behind = false;
    for &(quantifier, z) in prefix.iter().rev().filter(|row| variables.contains(&row.1)) {
        match quantifier {
            Quantifier::Exists => existential_behind = true,
            Quantifier::ForAll => {
                for (literal, kept) in literals.iter().zip(&mut kept) {
                    *kept &= existential_behind || literal.sign_of(z).is_none();
                }
            }
        }
    }
    let mut kept = kept.into_iter();
    Node::or(literals.iter().filter(|_| kept.next() == Some(true)).cloned().collect())
}

impl Rules {
    pub fn is_of_the_clause_profile(&self, matrix: &Node) -> bool {
        clauses(matrix).is_some()
    }

    /// Universal reduction on formulas, tidied; nothing of a matrix that is not
    /// of the profile.
    pub fn reduce_formula(&self, formula: &Formula) -> Option<Formula> {
        let prefix = formula.prefix.clone();
        let clauses = clauses(&formula.matrix)?;
        let reduced = clauses.iter().map(|clause| reduced_clause(&prefix, clause)).collect();
        Some(Formula { prefix, matrix: self.tidy_node(Node::and(reduced)) })
    }
}

impl Reading {
    /// Reduce: the new sheet's length.
    pub fn reduce(&self, sheet: &[u8], output: &mut [u8]) -> Answer<usize> {
        self.format.answer(self.reduced(sheet, output.len()), output)
    }

    fn reduced(&self, sheet: &[u8], room: usize) -> Result<Formula, Refusal> {
        let formula = self.parse_tidy(sheet)?;
        let reduced = self.rules.reduce_formula(&formula).ok_or((20, 0))?;
        if room < sheet.len() {
            return Err((13, 0));
        }
        Ok(reduced)
    }
}
