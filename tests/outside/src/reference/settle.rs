//! Settling: the value put in, Settle.

use super::{Answer, Formula, Node, Operation, Reading, Refusal, Rules, Variable};

/// The value put in, by quantifier (exists, for all) and sign (negative, positive).
const SETTLE_VALUE: [[bool; 2]; 2] = [[false, true], [true, false]];

/// The value with which `x` may be settled, if it may.
pub fn settle_value(formula: &Formula, x: Variable) -> Option<bool> {
    let quantifier = formula.quantifier(x)?;
    let mut signs = Vec::new();
    collect_signs(&formula.matrix, x, &mut signs);
    if signs.is_empty() {
        return Some(false);
    }
    let sign = unit_sign(&formula.matrix, x).or_else(|| only_sign(&signs))?;
    Some(SETTLE_VALUE[quantifier as usize][usize::from(sign)])
}

fn collect_signs(node: &Node, x: Variable, signs: &mut Vec<bool>) {
    signs.extend(node.sign_of(x));
    for child in node.children() {
        collect_signs(child, x, signs);
    }
}

/// The sign of a literal of `x` that is the root or a child of the root.
fn unit_sign(matrix: &Node, x: Variable) -> Option<bool> {
    let of_child = || matrix.children().iter().find_map(|child| child.sign_of(x));
    matrix.sign_of(x).or_else(of_child)
}

fn only_sign(signs: &[bool]) -> Option<bool> {
    signs.iter().all(|&sign| sign == signs[0]).then_some(signs[0])
}

impl Rules {
    /// Settling on formulas: `value` for `x`, its row gone, tidied.
    pub fn settle_formula(&self, formula: &Formula, x: Variable, value: bool) -> Formula {
        Formula {
            prefix: formula.prefix_without(x),
            matrix: self.tidy_node(formula.matrix.assign(x, value)),
        }
    }
}

impl Reading {
    /// Settle: the new sheet's length.
    pub fn settle(&self, sheet: &[u8], x: Variable, output: &mut [u8]) -> Answer<usize> {
        self.format.answer(self.settled(sheet, x, output.len()), output)
    }

    fn settled(&self, sheet: &[u8], x: Variable, room: usize) -> Result<Formula, Refusal> {
        let formula = self.parse_tidy(sheet)?;
        formula.quantifier(x).ok_or((10, 0))?;
        let value = settle_value(&formula, x).ok_or((12, 0))?;
        if room < self.format.least_output(Operation::Settle, &formula, x) {
            return Err((13, 0));
        }
        Ok(self.rules.settle_formula(&formula, x, value))
    }
}
