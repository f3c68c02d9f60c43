//! Formulas: a prefix of quantifiers, and a matrix in negation normal form.

use std::collections::BTreeSet;

/// A variable number; wider than a sheet's, since a caller may name any number.
pub type Variable = usize;

/// A row of the prefix.
pub type Binding = (Quantifier, Variable);

#[derive(Clone, Copy, Debug, PartialEq, Eq)]
pub enum Quantifier {
    Exists,
    ForAll,
}

impl Quantifier {
    pub fn other(self) -> Quantifier {
        match self {
            Quantifier::Exists => Quantifier::ForAll,
            Quantifier::ForAll => Quantifier::Exists,
        }
    }

    /// The operator that joins the two copies of an expansion.
    pub fn joins_with(self) -> Kind {
        match self {
            Quantifier::Exists => Kind::Or,
            Quantifier::ForAll => Kind::And,
        }
    }
}

#[derive(Clone, Copy, Debug, PartialEq, Eq, Hash)]
pub enum Kind {
    And,
    Or,
}

impl Kind {
    pub fn other(self) -> Kind {
        match self {
            Kind::And => Kind::Or,
            Kind::Or => Kind::And,
        }
    }
}

#[derive(Clone, Debug, PartialEq, Eq, Hash)]
pub enum Node {
    Lit { positive: bool, var: Variable },
    Op { kind: Kind, children: Vec<Node> },
}

impl Node {
    /// `literal(3)` is variable 3, `literal(-3)` its negation.
    pub fn literal(signed: i32) -> Node {
        Node::Lit { positive: signed > 0, var: signed.unsigned_abs() as Variable }
    }

    pub fn and(children: Vec<Node>) -> Node {
        Node::Op { kind: Kind::And, children }
    }

    pub fn or(children: Vec<Node>) -> Node {
        Node::Op { kind: Kind::Or, children }
    }

    pub fn empty(kind: Kind) -> Node {
        Node::Op { kind, children: Vec::new() }
    }

    /// AND of nothing is true, OR of nothing is false.
    pub fn constant(value: bool) -> Node {
        Node::empty(if value { Kind::And } else { Kind::Or })
    }

    pub fn rows(&self) -> usize {
        1 + self.children().iter().map(Node::rows).sum::<usize>()
    }

    /// A literal has none.
    pub fn children(&self) -> &[Node] {
        match self {
            Node::Lit { .. } => &[],
            Node::Op { children, .. } => children,
        }
    }

    /// The variables that have a literal.
    pub fn variables(&self) -> BTreeSet<Variable> {
        match self {
            Node::Lit { var, .. } => BTreeSet::from([*var]),
            Node::Op { children, .. } => children.iter().flat_map(Node::variables).collect(),
        }
    }

    pub(super) fn is_operator(&self, wanted: Kind) -> bool {
        matches!(self, Node::Op { kind, .. } if *kind == wanted)
    }

    pub(super) fn as_literal(&self) -> Option<(Variable, bool)> {
        match self {
            Node::Lit { positive, var } => Some((*var, *positive)),
            Node::Op { .. } => None,
        }
    }

    /// The sign of this node if it is a literal of `x`.
    pub(super) fn sign_of(&self, x: Variable) -> Option<bool> {
        self.as_literal().filter(|literal| literal.0 == x).map(|literal| literal.1)
    }

    /// Each literal of `x` becomes the constant that it is under `value`.
    pub(super) fn assign(&self, x: Variable, value: bool) -> Node {
        match self {
            Node::Lit { positive, var } if *var == x => Node::constant(*positive == value),
            Node::Lit { .. } => self.clone(),
            Node::Op { kind, children } => Node::Op {
                kind: *kind,
                children: children.iter().map(|child| child.assign(x, value)).collect(),
            },
        }
    }
}

/// Prefix, outermost first, and matrix.
#[derive(Clone, Debug, PartialEq, Eq)]
pub struct Formula {
    pub prefix: Vec<Binding>,
    pub matrix: Node,
}

impl Formula {
    /// The variables bound, outermost first.
    pub fn variables(&self) -> Vec<Variable> {
        self.prefix.iter().map(|row| row.1).collect()
    }

    /// The highest number bound, 0 if none is.
    pub fn highest_variable(&self) -> Variable {
        self.prefix.iter().map(|row| row.1).max().unwrap_or(0)
    }

    pub fn quantifier(&self, x: Variable) -> Option<Quantifier> {
        self.prefix.iter().find(|row| row.1 == x).map(|row| row.0)
    }

    pub(super) fn prefix_without(&self, x: Variable) -> Vec<Binding> {
        self.prefix.iter().copied().filter(|row| row.1 != x).collect()
    }
}
