//! The two formats of sheets.

use std::fmt::{self, Display, Formatter};

/// A format of sheets: two sizes, a kind of a byte for each row, and an argument for each row.
/// Sizes and arguments are numbers of [`width`](Format::width) bytes, low byte first.
#[derive(Clone, Copy, Debug, PartialEq, Eq, Hash)]
pub enum Format {
    /// Document 01's own sheets: numbers of 16 bits.
    Narrow,
    /// Numbers of 32 bits; what the program reads.
    Wide,
}

/// The most variables that Trial takes.
pub const TRIAL_VARIABLES: usize = 20;

impl Format {
    /// Both formats.
    pub const ALL: [Format; 2] = [Format::Narrow, Format::Wide];

    /// What it is called.
    pub const fn name(self) -> &'static str {
        match self {
            Format::Narrow => "narrow",
            Format::Wide => "wide",
        }
    }

    /// Bytes to a number.
    pub const fn width(self) -> usize {
        match self {
            Format::Narrow => 2,
            Format::Wide => 4,
        }
    }

    /// The most variables of a sheet, and the highest number of one.
    pub const fn most_variables(self) -> usize {
        match self {
            Format::Narrow => 256,
            Format::Wide => 1024,
        }
    }

    /// The most nodes of a sheet.
    pub const fn most_nodes(self) -> usize {
        match self {
            Format::Narrow => 4096,
            Format::Wide => 8192,
        }
    }

    /// Where the kinds begin: behind the two sizes.
    pub const fn header(self) -> usize {
        2 * self.width()
    }

    /// Bytes to a row: its kind and its argument.
    pub const fn row(self) -> usize {
        1 + self.width()
    }

    /// The length of a sheet of so many rows.
    pub const fn length(self, rows: usize) -> usize {
        self.header() + self.row() * rows
    }

    /// The number at a byte of a sheet.
    pub(crate) fn number(self, sheet: &[u8], at: usize) -> usize {
        let digits = &sheet[at..at + self.width()];
        digits.iter().rev().fold(0, |value, &digit| value << 8 | usize::from(digit))
    }

    /// Writes a number. One that doesn't fit is written as the highest that does, which is above
    /// all limits, so that Check refuses it where it stands.
    pub(crate) fn push_number(self, number: usize, bytes: &mut Vec<u8>) {
        let highest = usize::MAX >> (usize::BITS as usize - 8 * self.width());
        bytes.extend_from_slice(&number.min(highest).to_le_bytes()[..self.width()]);
    }

    /// The length of the longest sheet. No output and no work buffer needs to be longer.
    pub const fn longest(self) -> usize {
        self.length(self.most_variables() + self.most_nodes())
    }
}

impl Display for Format {
    fn fmt(&self, to: &mut Formatter) -> fmt::Result {
        self.name().fmt(to)
    }
}
