//! The sheet: Check, and formulas from and to bytes.

use super::{Answer, Format, Formula, Kind, Node, Quantifier, Refusal, Variable};

/// Kind and argument.
pub type Row = (u8, usize);

impl Format {
    fn read_rows(self, sheet: &[u8], count: usize) -> Vec<Row> {
        let argument = |row| self.number_at(sheet, self.argument_at(count, row));
        (0..count)
            .map(|row| (sheet[self.header() + row], argument(row).expect("the length is right")))
            .collect()
    }

    /// Check: V and N, or the first refusal of 1 to 8.
    pub fn check(self, sheet: &[u8]) -> Result<(usize, usize), Refusal> {
        let (v, rows) = self.checked_rows(sheet)?;
        Ok((v, rows.len() - v))
    }

    /// V and all rows of a sheet that Check accepts.
    pub(super) fn checked_rows(self, sheet: &[u8]) -> Result<(usize, Vec<Row>), Refusal> {
        let (v, n) = self.sizes(sheet).ok_or((1, 0))?;
        if v > self.most_variables || !(1..=self.most_nodes).contains(&n) {
            return Err((2, 0));
        }
        if sheet.len() != self.sheet_length(v, n) {
            return Err((3, 0));
        }
        let rows = self.read_rows(sheet, v + n);
        self.check_rows(&rows, v)?;
        check_one_tree(&rows, v)?;
        Ok((v, rows))
    }

    fn check_rows(self, rows: &[Row], v: usize) -> Result<(), Refusal> {
        let mut bound = Vec::new();
        for (place, &row) in rows.iter().enumerate() {
            let fault = if place < v {
                self.quantifier_fault(row, &bound)
            } else {
                node_fault(row, &bound)
            };
            if let Some(number) = fault {
                return Err((number, place));
            }
            if place < v {
                bound.push(row.1);
            }
        }
        Ok(())
    }

    fn quantifier_fault(self, (kind, variable): Row, bound: &[Variable]) -> Option<u8> {
        if !matches!(kind, 1 | 2) {
            Some(4)
        } else if !(1..=self.most_variables).contains(&variable) {
            Some(5)
        } else if bound.contains(&variable) {
            Some(6)
        } else {
            None
        }
    }

    pub fn parse(self, sheet: &[u8]) -> Result<Formula, Refusal> {
        let (v, rows) = self.checked_rows(sheet)?;
        let prefix = rows[..v].iter().map(|row| (quantifier_of(row.0), row.1)).collect();
        Ok(Formula { prefix, matrix: parse_node(&mut rows[v..].iter().copied()) })
    }

    /// The sheet of a formula. Sizes past the limits are written too, as long as
    /// numbers hold them, so that the generator can step over a limit.
    pub fn encode(self, formula: &Formula) -> Vec<u8> {
        let mut rows: Vec<Row> = formula.prefix.iter().map(|row| (kind_of(row.0), row.1)).collect();
        push_rows(&formula.matrix, &mut rows);
        self.sheet_of(formula.prefix.len(), &rows)
    }

    /// The sheet of V and all rows, good or not.
    pub fn sheet_of(self, v: usize, rows: &[Row]) -> Vec<u8> {
        let mut sheet = Vec::with_capacity(self.sheet_length(0, rows.len()));
        self.push_number(v, &mut sheet);
        self.push_number(rows.len() - v, &mut sheet);
        sheet.extend(rows.iter().map(|row| row.0));
        for row in rows {
            self.push_number(row.1, &mut sheet);
        }
        sheet
    }

    /// The sheet at the front, zeros behind; returns the sheet's length.
    pub(super) fn write(self, formula: &Formula, output: &mut [u8]) -> usize {
        let sheet = self.encode(formula);
        let (front, behind) = output.split_at_mut(sheet.len());
        front.copy_from_slice(&sheet);
        behind.fill(0);
        sheet.len()
    }

    /// The answer of an operation that writes a sheet; refused, it writes nothing.
    pub(super) fn answer(
        self,
        result: Result<Formula, Refusal>,
        output: &mut [u8],
    ) -> Answer<usize> {
        result.map(|formula| self.write(&formula, output)).into()
    }
}

fn node_fault((kind, argument): Row, bound: &[Variable]) -> Option<u8> {
    match kind {
        3 | 4 if bound.contains(&argument) => None,
        3 | 4 => Some(7),
        5 | 6 => None,
        _ => Some(4),
    }
}

/// One node is owed at first; each row pays one and adds its children.
fn check_one_tree(rows: &[Row], v: usize) -> Result<(), Refusal> {
    let mut owed = 1;
    for (place, &(kind, argument)) in rows.iter().enumerate().skip(v) {
        if owed == 0 {
            return Err((8, place));
        }
        owed -= 1;
        if matches!(kind, 5 | 6) {
            owed += argument;
        }
    }
    if owed == 0 {
        Ok(())
    } else {
        Err((8, rows.len()))
    }
}

fn quantifier_of(kind: u8) -> Quantifier {
    if kind == 1 {
        Quantifier::Exists
    } else {
        Quantifier::ForAll
    }
}

fn kind_of(quantifier: Quantifier) -> u8 {
    match quantifier {
        Quantifier::Exists => 1,
        Quantifier::ForAll => 2,
    }
}

/// Takes one subtree's rows off a checked list.
pub(super) fn parse_node(rows: &mut impl Iterator<Item = Row>) -> Node {
    let (kind, argument) = rows.next().expect("checked rows hold a whole tree");
    match kind {
        3 => Node::Lit { positive: true, var: argument },
        4 => Node::Lit { positive: false, var: argument },
        5 => Node::and(parse_children(argument, rows)),
        _ => Node::or(parse_children(argument, rows)),
    }
}

fn parse_children(count: usize, rows: &mut impl Iterator<Item = Row>) -> Vec<Node> {
    (0..count).map(|_| parse_node(rows)).collect()
}

fn push_rows(node: &Node, rows: &mut Vec<Row>) {
    rows.push(match node {
        Node::Lit { positive: true, var } => (3, *var),
        Node::Lit { positive: false, var } => (4, *var),
        Node::Op { kind: Kind::And, children } => (5, children.len()),
        Node::Op { kind: Kind::Or, children } => (6, children.len()),
    });
    for child in node.children() {
        push_rows(child, rows);
    }
}
