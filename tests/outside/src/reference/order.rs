//! Sort and Compare (N14): an order on subtrees, all children in it, and two
//! sheets side by side.

use super::{Answer, Binding, Formula, Kind, Node, Quantifier, Reading, Refusal};
use std::cmp::Ordering;

/// What Compare answers: which sheet is refused (1 or 2) with number and place,
/// or how the first stands beside the second.
#[derive(Clone, Copy, Debug, PartialEq, Eq)]
pub enum CompareAnswer {
    Refused(u8, u8, usize),
    Ordered(Ordering),
}

/// Literals before AND before OR.
fn class(node: &Node) -> u8 {
    match node {
        Node::Lit { .. } => 0,
        Node::Op { kind: Kind::And, .. } => 1,
        Node::Op { kind: Kind::Or, .. } => 2,
    }
}

/// Literals by variable, positive first; operators by number of children, then
/// child after child.
pub fn compare_nodes(a: &Node, b: &Node) -> Ordering {
    class(a).cmp(&class(b)).then_with(|| match (a, b) {
        (Node::Lit { positive: p, var: v }, Node::Lit { positive: q, var: w }) => {
            v.cmp(w).then(q.cmp(p))
        }
        _ => {
            let (c, d) = (a.children(), b.children());
            let mut pairs = c.iter().zip(d).map(|(x, y)| compare_nodes(x, y));
            c.len().cmp(&d.len()).then_with(|| pairs.find(|o| o.is_ne()).unwrap_or(Ordering::Equal))
        }
    })
}

/// All children in order, leaves up.
pub fn sort_node(node: &Node) -> Node {
    match node {
        Node::Lit { positive, var } => Node::Lit { positive: *positive, var: *var },
        Node::Op { kind, children } => {
            let mut children: Vec<Node> = children.iter().map(sort_node).collect();
            children.sort_by(compare_nodes);
            Node::Op { kind: *kind, children }
        }
    }
}

/// Kind before argument; exists is kind 1, for all kind 2.
fn row_key(&(quantifier, variable): &Binding) -> (u8, usize) {
    (if quantifier == Quantifier::Exists { 1 } else { 2 }, variable)
}

/// Prefixes, fewer rows first, then row by row; then sorted trees.
pub fn compare_formulas(f: &Formula, g: &Formula) -> Ordering {
    let keys = |h: &Formula| h.prefix.iter().map(row_key).collect::<Vec<_>>();
    let prefixes = f.prefix.len().cmp(&g.prefix.len()).then_with(|| keys(f).cmp(&keys(g)));
    prefixes.then_with(|| compare_nodes(&sort_node(&f.matrix), &sort_node(&g.matrix)))
}

impl Reading {
    /// Sort: the sheet's length.
    pub fn sort(&self, sheet: &[u8], output: &mut [u8]) -> Answer<usize> {
        self.format.answer(self.sorted(sheet, output.len()), output)
    }

    fn sorted(&self, sheet: &[u8], room: usize) -> Result<Formula, Refusal> {
        let formula = self.format.parse(sheet)?;
        if room < sheet.len() {
            return Err((13, 0));
        }
        Ok(Formula { matrix: sort_node(&formula.matrix), prefix: formula.prefix })
    }

    /// Compare; both work buffers end as zeros unless it is refused.
    pub fn compare(
        &self,
        a: &[u8],
        b: &[u8],
        first: &mut [u8],
        second: &mut [u8],
    ) -> CompareAnswer {
        let refused =
            |which, (number, place): Refusal| CompareAnswer::Refused(which, number, place);
        let f = match self.format.parse(a) {
            Ok(formula) => formula,
            Err(refusal) => return refused(1, refusal),
        };
        let g = match self.format.parse(b) {
            Ok(formula) => formula,
            Err(refusal) => return refused(2, refusal),
        };
        if first.len() < a.len() {
            return refused(1, (13, 0));
        }
        if second.len() < b.len() {
            return refused(2, (13, 0));
        }
        first.fill(0);
        second.fill(0);
        CompareAnswer::Ordered(compare_formulas(&f, &g))
    }
}
