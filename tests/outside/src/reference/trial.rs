//! Trial: the verdict by trying values, and the leaves tried.

use super::{Answer, Binding, Format, Kind, Node, Quantifier, Refusal};

const MOST_VARIABLES_TRIED: usize = 20;

impl Format {
    /// Trial: the verdict and the leaves tried.
    pub fn trial(self, sheet: &[u8]) -> Answer<(bool, u64)> {
        self.tried(sheet).into()
    }

    fn tried(self, sheet: &[u8]) -> Result<(bool, u64), Refusal> {
        let formula = self.parse(sheet)?;
        if formula.prefix.len() > MOST_VARIABLES_TRIED {
            return Err((14, 0));
        }
        let mut leaves = 0;
        let mut assignment = vec![false; formula.highest_variable() + 1];
        let verdict = turn(&formula.prefix, &formula.matrix, &mut assignment, &mut leaves);
        Ok((verdict, leaves))
    }
}

/// One turn: value 0 first; exists stops at true, for all at false.
fn turn(prefix: &[Binding], matrix: &Node, assignment: &mut [bool], leaves: &mut u64) -> bool {
    let Some((&(quantifier, z), rest)) = prefix.split_first() else {
        *leaves += 1;
        return value_under(matrix, assignment);
    };
    let wanted = quantifier == Quantifier::Exists;
    for value in [false, true] {
        assignment[z] = value;
        if turn(rest, matrix, assignment, leaves) == wanted {
            return wanted;
        }
    }
    !wanted
}

fn value_under(node: &Node, assignment: &[bool]) -> bool {
    match node {
        Node::Lit { positive, var } => assignment[*var] == *positive,
        Node::Op { kind: Kind::And, children } => {
            children.iter().all(|child| value_under(child, assignment))
        }
        Node::Op { kind: Kind::Or, children } => {
            children.iter().any(|child| value_under(child, assignment))
        }
    }
}
