//! The rows of a sheet.

/// What a row is. The quantifiers are those of the prefix, all else are nodes.
#[derive(Clone, Copy, Debug, PartialEq, Eq, Hash)]
#[repr(u8)]
pub enum Kind {
    /// An existential quantifier.
    Exists = 1,
    /// A universal quantifier.
    ForAll = 2,
    /// A variable.
    Positive = 3,
    /// The negation of a variable.
    Negative = 4,
    /// A conjunction.
    And = 5,
    /// A disjunction.
    Or = 6,
}

impl Kind {
    const ALL: [Kind; 6] =
        [Kind::Exists, Kind::ForAll, Kind::Positive, Kind::Negative, Kind::And, Kind::Or];

    /// The kind of a byte in a sheet.
    pub fn from_byte(byte: u8) -> Option<Kind> {
        Kind::ALL.into_iter().find(|&kind| kind as u8 == byte)
    }
}

/// A row: its kind, and the variable of a quantifier or a literal, or how many children an operator
/// has.
#[derive(Clone, Copy, Debug, PartialEq, Eq, Hash)]
pub struct Row {
    /// What it is.
    pub kind: Kind,
    /// The variable, or the number of children.
    pub argument: usize,
}

impl Row {
    /// A row of this kind.
    pub fn new(kind: Kind, argument: usize) -> Row {
        Row { kind, argument }
    }
}
