//! An equal question whose matrix is AND of clauses, by names for operators
//! (Certificates), Clauses.

use super::outer::unused;
use super::{Answer, Format, Formula, Kind, Node, Quantifier, Reading, Refusal, Variable};

/// A tree whose operators have names.
enum Named {
    Literal(Node),
    Operator { name: Variable, kind: Kind, children: Vec<Named> },
}

impl Named {
    /// Names in preorder, as long as there are any.
    fn of(node: &Node, names: &mut impl Iterator<Item = Variable>) -> Option<Named> {
        Some(match node {
            Node::Lit { .. } => Named::Literal(node.clone()),
            Node::Op { kind, children } => {
                let name = names.next()?;
                Named::Operator { name, kind: *kind, children: Named::all(children, names)? }
            }
        })
    }

    fn all(children: &[Node], names: &mut impl Iterator<Item = Variable>) -> Option<Vec<Named>> {
        children.iter().map(|child| Named::of(child, names)).collect()
    }

    /// A literal is its own name.
    fn literal(&self) -> Node {
        match self {
            Named::Literal(literal) => literal.clone(),
            Named::Operator { name, .. } => Node::Lit { positive: true, var: *name },
        }
    }

    /// That the name implies the operator of its children's names, and the same
    /// of all below.
    fn define(&self, clauses: &mut Vec<Node>) {
        let Named::Operator { name, kind, children } = self else {
            return;
        };
        let not_name = || Node::Lit { positive: false, var: *name };
        let mut literals = children.iter().map(Named::literal);
        match kind {
            Kind::Or => clauses.push(Node::or([not_name()].into_iter().chain(literals).collect())),
            Kind::And => {
                clauses.extend(literals.by_ref().map(|child| Node::or(vec![not_name(), child])));
            }
        }
        children.iter().for_each(|child| child.define(clauses));
    }
}

/// The clauses of one conjunct, and what its names mean. An OR has no name here.
fn conjunct(
    node: &Node,
    names: &mut impl Iterator<Item = Variable>,
    clauses: &mut Vec<Node>,
) -> Option<()> {
    match node {
        Node::Op { kind: Kind::Or, children } => {
            let children = Named::all(children, names)?;
            clauses.push(Node::or(children.iter().map(Named::literal).collect()));
            children.iter().for_each(|child| child.define(clauses));
        }
        other => {
            let other = Named::of(other, names)?;
            clauses.push(other.literal());
            other.define(clauses);
        }
    }
    Some(())
}

impl Format {
    /// The names are the smallest numbers not in the prefix, existential and
    /// innermost; nothing if there are too few.
    pub fn clausal_formula(self, formula: &Formula) -> Option<Formula> {
        let conjuncts = match &formula.matrix {
            Node::Op { kind: Kind::And, children } => children,
            root => std::slice::from_ref(root),
        };
        let (mut given, mut clauses) = (Vec::new(), Vec::new());
        let mut names = unused(self, formula).inspect(|&name| given.push(name));
        conjuncts.iter().try_for_each(|node| conjunct(node, &mut names, &mut clauses))?;
        drop(names);
        let mut prefix = formula.prefix.clone();
        prefix.extend(given.into_iter().map(|name| (Quantifier::Exists, name)));
        Some(Formula { prefix, matrix: Node::and(clauses) })
    }
}

impl Reading {
    /// Clauses: the new sheet's length.
    pub fn clauses(&self, sheet: &[u8], output: &mut [u8]) -> Answer<usize> {
        self.format.answer(self.clausal(sheet, output.len()), output)
    }

    fn clausal(&self, sheet: &[u8], room: usize) -> Result<Formula, Refusal> {
        let formula = self.format.parse(sheet)?;
        let clausal = self.format.clausal_formula(&formula).ok_or((18, 0))?;
        if !self.format.fits(clausal.prefix.len(), clausal.matrix.rows(), room) {
            return Err((13, 0));
        }
        Ok(clausal)
    }
}
