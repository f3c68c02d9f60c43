//! The formats of sheets: sizes and numbers of a width, kinds of a byte.

/// A sheet's numbers have `width` bytes, low byte first; `proved` is what the
/// proved operations call it.
pub struct Format {
    pub name: &'static str,
    pub width: usize,
    pub most_variables: usize,
    pub most_nodes: usize,
    pub proved: plumanchor::Format,
}

pub static NARROW: Format = Format::of(plumanchor::Format::Narrow);

pub static WIDE: Format = Format::of(plumanchor::Format::Wide);

/// Every format of sheets.
pub static FORMATS: [&Format; 2] = [&WIDE, &NARROW];

/// What a sheet is in unless `--from` says otherwise, as for the program.
pub static DEFAULT: &Format = &WIDE;

impl Format {
    const fn of(proved: plumanchor::Format) -> Format {
        Format {
            name: proved.name(),
            width: proved.width(),
            most_variables: proved.most_variables(),
            most_nodes: proved.most_nodes(),
            proved,
        }
    }

    /// Where the kinds begin.
    pub fn header(&self) -> usize {
        2 * self.width
    }

    pub fn length(&self, rows: usize) -> usize {
        self.header() + (1 + self.width) * rows
    }

    /// The length of the program's buffers.
    pub fn longest(&self) -> usize {
        self.length(self.most_variables + self.most_nodes)
    }

    /// The number at a byte, if the bytes go so far.
    pub fn number(&self, bytes: &[u8], at: usize) -> Option<usize> {
        let digits = bytes.get(at..at.checked_add(self.width)?)?;
        Some(digits.iter().rev().fold(0, |value, &digit| value << 8 | usize::from(digit)))
    }

    pub fn push_number(&self, value: usize, bytes: &mut Vec<u8>) {
        bytes.extend_from_slice(&value.to_le_bytes()[..self.width]);
    }
}
