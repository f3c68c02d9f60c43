//! Sheets at and past each limit, and formulas as wide or as deep as there are.

use crate::reference::{Format, Formula, Kind, Node, Quantifier};

/// A sheet at or past a limit, with Check's refusal number, 0 if it is accepted.
pub struct LimitSheet {
    pub name: String,
    pub sheet: Vec<u8>,
    pub refusal: u8,
}

pub fn limit_sheets(format: Format) -> Vec<LimitSheet> {
    let Format { most_variables, most_nodes, .. } = format;
    let highest = format.highest_number();
    let mut sheets = Vec::new();
    let mut add = |name: String, sheet: Vec<u8>, refusal: u8| {
        sheets.push(LimitSheet { name, sheet, refusal });
    };
    for (v, refusal) in around(0, most_variables) {
        add(format!("{v} variables"), format.encode(&with_variables(v)), refusal);
        let deep = format.encode(&deep_formula(v, most_nodes));
        add(format!("{v} variables, deep"), deep, refusal);
    }
    for (n, refusal) in around(1, most_nodes) {
        add(format!("{n} nodes wide"), format.encode(&wide_formula(n)), refusal);
        add(format!("{n} nodes deep"), format.encode(&deep_formula(1, n)), refusal);
    }
    add("no node".into(), format.sheet_of(0, &[]), 2);
    add("no node, one variable".into(), format.sheet_of(1, &[(1, 1)]), 2);
    let (last, past) = (most_variables, most_variables + 1);
    for (number, refusal) in [(0, 5), (1, 0), (last, 0), (past, 5), (highest, 5)] {
        let sheet = format.sheet_of(1, &[(1, number), (5, 0)]);
        add(format!("variable number {number}"), sheet, refusal);
    }
    for (number, refusal) in [(0, 7), (1, 0), (2, 7), (last, 7), (past, 7), (highest, 7)] {
        let sheet = format.sheet_of(1, &[(1, 1), (3, number)]);
        add(format!("literal of {number} under 1"), sheet, refusal);
    }
    for (count, refusal) in [(0, 8), (1, 8), (2, 0), (3, 8), (most_nodes, 8), (highest, 8)] {
        let sheet = format.sheet_of(1, &[(1, 1), (5, count), (3, 1), (3, 1)]);
        add(format!("two children said to be {count}"), sheet, refusal);
    }
    // Sizes whose sum is 1 if its upper bits are lost, with the length of one row.
    for v in [highest, highest - 1, highest / 2 + 1, 2, 3] {
        let mut sheet = Vec::new();
        format.push_number(v, &mut sheet);
        format.push_number(highest - v + 2, &mut sheet);
        sheet.resize(format.sheet_length(0, 1), 5);
        add(format!("V = {v}, V+N = {}", highest + 2), sheet, 2);
    }
    for (name, sheet, refusal) in upper_bytes(format) {
        add(name, sheet, refusal);
    }
    sheets
}

/// "exists 1: 1 and 1" with a byte above the lowest set in each of its numbers
/// in turn, with Check's number: every byte counts.
fn upper_bytes(format: Format) -> Vec<(String, Vec<u8>, u8)> {
    let good = format.sheet_of(1, &[(1, 1), (5, 2), (3, 1), (3, 1)]);
    let argument = |row| format.argument_at(4, row);
    let places = [0, format.width, argument(0), argument(1), argument(3)];
    let mut sheets = Vec::new();
    for byte in 1..format.width {
        let added = 1 << (8 * byte);
        let refusals = [
            if 1 + added > format.most_variables { 2 } else { 3 },
            if 3 + added > format.most_nodes { 2 } else { 3 },
            if 1 + added > format.most_variables { 5 } else { 7 },
            8,
            7,
        ];
        for (place, refusal) in places.into_iter().zip(refusals) {
            let mut sheet = good.clone();
            sheet[place + byte] = 1;
            sheets.push((format!("{added} more in the number at {place}"), sheet, refusal));
        }
    }
    sheets
}

/// Sizes at both ends and one past the upper, with Check's number.
fn around(least: usize, most: usize) -> [(usize, u8); 5] {
    [(least, 0), (least + 1, 0), (most - 1, 0), (most, 0), (most + 1, 2)]
}

/// All exists, 1 to `v`, over AND of nothing.
pub fn with_variables(v: usize) -> Formula {
    let prefix = (1..=v).map(|var| (Quantifier::Exists, var)).collect();
    Formula { prefix, matrix: Node::constant(true) }
}

/// AND of `n` - 1 literals of variable 1.
pub fn wide_formula(n: usize) -> Formula {
    let matrix = Node::and(vec![Node::literal(1); n - 1]);
    Formula { matrix, ..with_variables(1) }
}

/// One-child operators nested `n` rows deep.
pub fn deep_formula(v: usize, n: usize) -> Formula {
    let mut matrix = if v > 0 { Node::literal(1) } else { Node::constant(true) };
    for level in 1..n {
        let kind = if level % 3 == 0 { Kind::And } else { Kind::Or };
        matrix = Node::Op { kind, children: vec![matrix] };
    }
    Formula { matrix, ..with_variables(v) }
}

/// Alternating operators with a literal each, as deep as a tidy tree of `n`
/// rows (an odd number) can be, over all variables of the format. Variable 1
/// stands in the innermost operator and, if it is to have two literals, in the
/// outermost one too.
pub fn ladder_formula(format: Format, n: usize, literals_of_1: usize) -> Formula {
    let (rungs, others) = ((n - 3) / 2, format.most_variables - 1);
    let mut kind = Kind::Or;
    let mut matrix = Node::or(vec![Node::literal(1), Node::literal(2)]);
    for rung in 1..=rungs {
        let at_the_end = literals_of_1 == 2 && rung == rungs;
        let var = if at_the_end { 1 } else { 2 + rung % others };
        kind = kind.other();
        let literal = Node::Lit { positive: rung % 4 < 2, var };
        matrix = Node::Op { kind, children: vec![literal, matrix] };
    }
    Formula { matrix, ..with_variables(format.most_variables) }
}

#[cfg(test)]
mod tests {
    use super::*;
    use crate::with_deep_stack;

    #[test]
    fn limit_sheets_stand_where_they_say() {
        with_deep_stack(|| {
            for format in [Format::NARROW, Format::WIDE] {
                for LimitSheet { name, sheet, refusal } in limit_sheets(format) {
                    let number = format.check(&sheet).err().map_or(0, |fault| fault.0);
                    assert_eq!(number, refusal, "{name}");
                }
            }
        });
    }
}
