//! Formulas as rows: how a sheet is laid out in bytes.

use crate::format::Format;
use std::fmt::{self, Display, Formatter};

/// A row's kind and argument, as a sheet has them.
#[derive(Clone, Copy, Debug, PartialEq, Eq)]
pub struct Row {
    pub kind: u8,
    pub argument: usize,
}

pub const EXISTS: u8 = 1;
pub const FOR_ALL: u8 = 2;
pub const POSITIVE: u8 = 3;
pub const NEGATIVE: u8 = 4;
pub const AND: u8 = 5;
pub const OR: u8 = 6;

impl Row {
    pub fn new(kind: u8, argument: usize) -> Row {
        Row { kind, argument }
    }

    pub fn is_literal(self) -> bool {
        self.kind == POSITIVE || self.kind == NEGATIVE
    }

    pub fn is_literal_of(self, x: usize) -> bool {
        self.is_literal() && self.argument == x
    }

    /// What a quantifier's row is called.
    pub fn quantifier(self) -> &'static str {
        if self.kind == EXISTS {
            "exists"
        } else {
            "for all"
        }
    }

    /// What an operator's row is called.
    pub fn operator(self) -> &'static str {
        if self.kind == AND {
            "AND"
        } else {
            "OR"
        }
    }

    /// The truth of an operator without children.
    pub fn constant(self) -> Option<bool> {
        (!self.is_literal() && self.argument == 0).then_some(self.kind == AND)
    }

    /// How many children the row has.
    pub fn children(self) -> usize {
        if self.is_literal() {
            0
        } else {
            self.argument
        }
    }
}

/// What a row of any sheet says, a bad one too.
impl Display for Row {
    fn fmt(&self, to: &mut Formatter) -> fmt::Result {
        let Row { kind, argument } = self;
        match *kind {
            EXISTS => write!(to, "kind 1, exists {argument}"),
            FOR_ALL => write!(to, "kind 2, for all {argument}"),
            POSITIVE => write!(to, "kind 3, the literal {argument}"),
            NEGATIVE => write!(to, "kind 4, the literal not {argument}"),
            AND => write!(to, "kind 5, AND of {argument}"),
            OR => write!(to, "kind 6, OR of {argument}"),
            _ => write!(to, "kind {kind}, argument {argument}"),
        }
    }
}

/// Row `at` of any bytes, counted from 0, if they go so far.
pub fn row_at(format: &Format, bytes: &[u8], at: usize) -> Option<Row> {
    let rows = format.number(bytes, 0)? + format.number(bytes, format.width)?;
    let kind = *bytes.get(format.header() + at).filter(|_| at < rows)?;
    let argument = format.number(bytes, format.header() + rows + format.width * at)?;
    Some(Row { kind, argument })
}

/// The value of a tree's rows, in preorder, where each variable has the value at its number.
pub fn value(rows: &[Row], values: &[bool]) -> bool {
    // The values of the subtrees behind the row that have no parent yet, the next one last.
    let mut open: Vec<bool> = Vec::new();
    for row in rows.iter().rev() {
        let value = if row.is_literal() {
            values[row.argument] == (row.kind == POSITIVE)
        } else {
            let children = open.split_off(open.len() - row.children());
            children.contains(&(row.kind == OR)) == (row.kind == OR)
        };
        open.push(value);
    }
    open.pop().unwrap_or_default()
}

/// Quantifier rows, outermost first, and node rows in preorder.
#[derive(Clone, Debug, PartialEq, Eq)]
pub struct Formula {
    pub prefix: Vec<Row>,
    pub matrix: Vec<Row>,
}

impl Formula {
    /// The rows of bytes that Check accepts.
    pub fn decode(format: &Format, bytes: &[u8]) -> Formula {
        let sizes = format.number(bytes, 0).zip(format.number(bytes, format.width));
        let (v, n) = sizes.expect("a checked sheet");
        let row = |at| row_at(format, bytes, at).expect("a checked sheet");
        Formula { prefix: (0..v).map(row).collect(), matrix: (v..v + n).map(row).collect() }
    }

    /// How many operators each node row is under.
    pub fn depths(&self) -> Vec<usize> {
        // How many children each operator above the next row still has to come.
        let mut owed: Vec<usize> = Vec::new();
        let mut depths = Vec::with_capacity(self.matrix.len());
        for row in &self.matrix {
            depths.push(owed.len());
            if let Some(last) = owed.last_mut() {
                *last -= 1;
            }
            owed.push(row.children());
            while owed.last() == Some(&0) {
                owed.pop();
            }
        }
        depths
    }

    /// The row behind each node row's subtree.
    pub fn ends(&self) -> Vec<usize> {
        let mut ends = vec![0; self.matrix.len()];
        // Where the subtrees behind the row end that have no parent yet, the next one last.
        let mut open: Vec<usize> = Vec::new();
        for (at, row) in self.matrix.iter().enumerate().rev() {
            let left = open.len() - row.children();
            ends[at] = open.get(left).copied().unwrap_or(at + 1);
            open.truncate(left);
            open.push(ends[at]);
        }
        ends
    }

    pub fn encode(&self, format: &Format) -> Vec<u8> {
        let rows = || self.prefix.iter().chain(&self.matrix);
        let mut bytes = Vec::with_capacity(format.length(rows().count()));
        format.push_number(self.prefix.len(), &mut bytes);
        format.push_number(self.matrix.len(), &mut bytes);
        bytes.extend(rows().map(|row| row.kind));
        rows().for_each(|row| format.push_number(row.argument, &mut bytes));
        bytes
    }
}
