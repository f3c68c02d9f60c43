//! Tidy sheets: the rules of tidying, the limits of document 000, Tidy.

use super::{Answer, Formula, Kind, Node, Reading, Refusal, Rules};
use std::collections::HashSet;
use std::ops::ControlFlow::{self, Break, Continue};

/// What a rule makes of an operator's children, all of them tidied: children
/// for the next rule, or the node that takes the operator's place.
pub type TidyRule = fn(Kind, Vec<Node>) -> Tidied;

type Tidied = ControlFlow<Node, Vec<Node>>;

/// Whether the children of an operator of this kind break a limit.
pub type Limit = fn(Kind, &[Node]) -> bool;

pub(super) fn splice_own_kind(own: Kind, children: Vec<Node>) -> Tidied {
    let mut spliced = Vec::new();
    for child in children {
        match child {
            Node::Op { kind, children } if kind == own => spliced.extend(children),
            other => spliced.push(other),
        }
    }
    Continue(spliced)
}

pub(super) fn yield_to_empty_operator(own: Kind, children: Vec<Node>) -> Tidied {
    let other = Node::empty(own.other());
    if children.contains(&other) {
        Break(other)
    } else {
        Continue(children)
    }
}

pub(super) fn decide_by_opposite_literals(own: Kind, children: Vec<Node>) -> Tidied {
    let literals: HashSet<_> = children.iter().filter_map(Node::as_literal).collect();
    if literals.iter().any(|&(var, positive)| literals.contains(&(var, !positive))) {
        Break(Node::empty(own.other()))
    } else {
        Continue(children)
    }
}

/// Of equal literals the first stays.
pub(super) fn drop_repeated_literals(_: Kind, mut children: Vec<Node>) -> Tidied {
    let mut seen = HashSet::new();
    children.retain(|child| child.as_literal().is_none_or(|literal| seen.insert(literal)));
    Continue(children)
}

/// N4: an operator child goes that equals an earlier one.
pub(super) fn drop_repeated_operators(_: Kind, children: Vec<Node>) -> Tidied {
    let stay = first_of_equals(&children);
    let kept = children.into_iter().zip(stay).filter(|(_, stays)| *stays);
    Continue(kept.map(|(child, _)| child).collect())
}

/// For each child whether it is a literal or no earlier operator equals it.
fn first_of_equals(children: &[Node]) -> Vec<bool> {
    let is_literal = |child: &Node| child.as_literal().is_some();
    // One operator alone has no equal: a deep tree isn't walked at each of its levels.
    if children.iter().filter(|child| !is_literal(child)).count() < 2 {
        return vec![true; children.len()];
    }
    let mut seen = HashSet::new();
    children.iter().map(|child| is_literal(child) || seen.insert(child)).collect()
}

pub(super) fn replace_by_lone_child(_: Kind, mut children: Vec<Node>) -> Tidied {
    if children.len() == 1 {
        Break(children.remove(0))
    } else {
        Continue(children)
    }
}

pub(super) fn has_one_child(_: Kind, children: &[Node]) -> bool {
    children.len() == 1
}

pub(super) fn has_child_of_own_kind(own: Kind, children: &[Node]) -> bool {
    children.iter().any(|child| child.is_operator(own))
}

pub(super) fn has_operator_twice(_: Kind, children: &[Node]) -> bool {
    first_of_equals(children).contains(&false)
}

pub(super) fn has_variable_twice(_: Kind, children: &[Node]) -> bool {
    let mut seen = HashSet::new();
    !children.iter().filter_map(Node::as_literal).all(|(var, _)| seen.insert(var))
}

/// A decided matrix has a verdict, even if variables remain.
pub fn verdict(matrix: &Node) -> Option<bool> {
    match matrix {
        Node::Op { kind, children } if children.is_empty() => Some(*kind == Kind::And),
        _ => None,
    }
}

impl Rules {
    /// Tidies children before their parent.
    pub fn tidy_node(&self, node: Node) -> Node {
        let Node::Op { kind, children } = node else {
            return node;
        };
        let children = children.into_iter().map(|child| self.tidy_node(child)).collect();
        match self.tidying.iter().try_fold(children, |children, rule| rule(kind, children)) {
            Continue(children) => Node::Op { kind, children },
            Break(node) => node,
        }
    }

    pub fn tidy_formula(&self, formula: &Formula) -> Formula {
        let matrix = self.tidy_node(formula.matrix.clone());
        Formula { prefix: formula.prefix.clone(), matrix }
    }

    pub fn is_tidy(&self, matrix: &Node) -> bool {
        self.first_untidy(matrix).is_none()
    }

    /// The first operator in preorder that is childless below the root or whose
    /// children break a limit, counted from the root as 0.
    pub fn first_untidy(&self, matrix: &Node) -> Option<usize> {
        self.first_untidy_from(matrix, true, &mut 0)
    }

    fn first_untidy_from(&self, node: &Node, is_root: bool, next: &mut usize) -> Option<usize> {
        let here = *next;
        *next += 1;
        let Node::Op { kind, children } = node else {
            return None;
        };
        let childless_below_root = children.is_empty() && !is_root;
        if childless_below_root || self.limits.iter().any(|broken| broken(*kind, children)) {
            return Some(here);
        }
        children.iter().find_map(|child| self.first_untidy_from(child, false, next))
    }
}

impl Reading {
    /// Tidy: the new sheet's length.
    pub fn tidy(&self, sheet: &[u8], output: &mut [u8]) -> Answer<usize> {
        self.format.answer(self.tidied(sheet, output.len()), output)
    }

    pub(super) fn tidied(&self, sheet: &[u8], room: usize) -> Result<Formula, Refusal> {
        let formula = self.format.parse(sheet)?;
        if room < sheet.len() {
            return Err((13, 0));
        }
        Ok(self.rules.tidy_formula(&formula))
    }

    /// Refusals 1 to 8, then 9.
    pub(super) fn parse_tidy(&self, sheet: &[u8]) -> Result<Formula, Refusal> {
        let formula = self.format.parse(sheet)?;
        match self.rules.first_untidy(&formula.matrix) {
            Some(node) => Err((9, formula.prefix.len() + node)),
            None => Ok(formula),
        }
    }
}
