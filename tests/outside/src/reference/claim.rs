//! The claim that a strategy of any origin wins (Strategy 1), Claim.

use super::{pairs_of, Binding, Formula, Kind, Node, Pair, Quantifier, Reading, Refusal, Variable};
use std::collections::{BTreeMap, BTreeSet};

/// What Claim answers: which sheet is refused (1 or 2; 0 for the output) with
/// number and place, or the length of the claim's sheet.
#[derive(Clone, Copy, Debug, PartialEq, Eq)]
pub enum ClaimAnswer {
    Refused(u8, u8, usize),
    Written(usize),
}

/// The negation, pushed to the literals.
pub fn negated(node: &Node) -> Node {
    match node {
        Node::Lit { positive, var } => Node::Lit { positive: !positive, var: *var },
        Node::Op { kind, children } => {
            Node::Op { kind: kind.other(), children: children.iter().map(negated).collect() }
        }
    }
}

/// That a variable differs from its function, as two children of an OR; of the
/// side for all the dual, that they are equal, as two children of an AND.
fn broken(joins: Kind, Pair { variable, function }: &Pair) -> [Node; 2] {
    let with = |positive, function| {
        let literal = Node::Lit { positive, var: *variable };
        Node::Op { kind: joins.other(), children: vec![literal, function] }
    };
    [with(true, negated(function)), with(false, function.clone())]
}

/// For exists: for all variables the matrix holds, or one of them differs from
/// its function. For the side for all the dual.
pub fn claim_formula(side: Quantifier, formula: &Formula, pairs: &[Pair]) -> Formula {
    let kind = side.joins_with();
    let mut children = vec![formula.matrix.clone()];
    children.extend(pairs.iter().flat_map(|pair| broken(kind, pair)));
    let row = |row: &Binding| (side.other(), row.1);
    Formula {
        prefix: formula.prefix.iter().map(row).collect(),
        matrix: Node::Op { kind, children },
    }
}

/// Exactly the side's variables have a pair, each of them one.
fn cover(side: Quantifier, prefix: &[Binding], pairs: &[Pair]) -> bool {
    let own = prefix.iter().filter(|row| row.0 == side);
    let mut owned: Vec<Variable> = own.map(|row| row.1).collect();
    let mut set: Vec<Variable> = pairs.iter().map(|pair| pair.variable).collect();
    owned.sort_unstable();
    set.sort_unstable();
    owned == set
}

/// The last pair whose function reads something else than the other side's
/// variables in front of its own, directly or through the functions of later pairs.
fn last_at_fault(side: Quantifier, prefix: &[Binding], pairs: &[Pair]) -> Option<usize> {
    let mut known: BTreeMap<Variable, BTreeSet<Variable>> = BTreeMap::new();
    for (at, Pair { variable, function }) in pairs.iter().enumerate().rev() {
        let mut read = BTreeSet::new();
        for y in function.variables() {
            match known.get(&y) {
                Some(through) => read.extend(through),
                None => _ = read.insert(y),
            }
        }
        let in_front = prefix.iter().take_while(|row| row.1 != *variable);
        let may: BTreeSet<Variable> =
            in_front.filter(|row| row.0 != side).map(|row| row.1).collect();
        if !read.is_subset(&may) {
            return Some(at);
        }
        known.insert(*variable, read);
    }
    None
}

impl Reading {
    /// Claim, for any side, sheet and strategy.
    pub fn claim(
        &self,
        sheet: &[u8],
        side: Quantifier,
        strategy: &[u8],
        output: &mut [u8],
    ) -> ClaimAnswer {
        match self.claimed(sheet, side, strategy, output.len()) {
            Err((which, (number, place))) => ClaimAnswer::Refused(which, number, place),
            Ok(claim) => ClaimAnswer::Written(self.format.write(&claim, output)),
        }
    }

    fn claimed(
        &self,
        sheet: &[u8],
        side: Quantifier,
        strategy: &[u8],
        room: usize,
    ) -> Result<Formula, (u8, Refusal)> {
        let formula = self.format.parse(sheet).map_err(|refusal| (1, refusal))?;
        let pairs = self.pairs_for(&formula.prefix, side, strategy);
        let claim = claim_formula(side, &formula, &pairs.map_err(|refusal| (2, refusal))?);
        if !self.format.fits(claim.prefix.len(), claim.matrix.rows(), room) {
            return Err((0, (13, 0)));
        }
        Ok(claim)
    }

    /// 1 to 8; 26 no pairs of exactly the side's variables over this prefix; 27
    /// a function reads what it may not, at the row of its pair.
    fn pairs_for(
        &self,
        prefix: &[Binding],
        side: Quantifier,
        strategy: &[u8],
    ) -> Result<Vec<Pair>, Refusal> {
        let read = self.format.parse(strategy)?;
        let pairs = pairs_of(&read.matrix).ok_or((26, 0))?;
        if read.prefix != prefix || !cover(side, prefix, &pairs) {
            return Err((26, 0));
        }
        match last_at_fault(side, prefix, &pairs) {
            None => Ok(pairs),
            Some(at) => {
                // A pair has its AND, its literal and its function.
                let in_front = pairs[..at].iter().map(|pair| 2 + pair.function.rows());
                Err((27, prefix.len() + 1 + in_front.sum::<usize>()))
            }
        }
    }
}
