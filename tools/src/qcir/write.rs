//! A formula as QCIR, in the cleansed form: numbers for names.

use crate::formula::{Formula, Row, AND, FOR_ALL, NEGATIVE};

/// The text of a formula. Read again it has the same rows: every operator is a
/// gate of its own, numbered from the root on above the highest variable, and
/// defined before it is used.
pub fn write(formula: &Formula) -> String {
    let highest = formula.prefix.iter().map(|row| row.argument).max().unwrap_or(0);
    let gates = formula.matrix.iter().filter(|row| !row.is_literal()).count();
    let mut text = format!("#QCIR-G14 {}\n", highest + gates);
    for block in formula.prefix.chunk_by(|one, next| one.kind == next.kind) {
        let quantifier = if block[0].kind == FOR_ALL { "forall" } else { "exists" };
        let variables: Vec<String> = block.iter().map(|row| row.argument.to_string()).collect();
        text += &format!("{quantifier}({})\n", variables.join(", "));
    }
    let (root, definitions) = definitions(&formula.matrix, highest + gates);
    text += &format!("output({root})\n");
    text + &definitions
}

/// What stands for the root, and the gates from the last row to the first.
fn definitions(matrix: &[Row], highest: usize) -> (String, String) {
    let mut text = String::new();
    // What stands for the subtrees behind the row that have no parent yet, the next one last.
    let mut subtrees: Vec<String> = Vec::new();
    let mut gate = highest;
    for row in matrix.iter().rev() {
        if row.is_literal() {
            let sign = if row.kind == NEGATIVE { "-" } else { "" };
            subtrees.push(format!("{sign}{}", row.argument));
            continue;
        }
        let mut children = subtrees.split_off(subtrees.len() - row.children());
        children.reverse();
        let operator = if row.kind == AND { "and" } else { "or" };
        text += &format!("{gate} = {operator}({})\n", children.join(", "));
        subtrees.push(gate.to_string());
        gate -= 1;
    }
    (subtrees.concat(), text)
}
