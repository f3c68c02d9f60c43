//! The sheet's numbers, sizes and length, over the bytes to a number and the
//! limits.

#[derive(Clone, Copy, Debug, PartialEq, Eq)]
pub struct Format {
    /// Bytes to a number.
    pub width: usize,
    /// The highest variable number too.
    pub most_variables: usize,
    pub most_nodes: usize,
}

impl Format {
    /// Document 01's own sheets.
    pub const NARROW: Format = Format { width: 2, most_variables: 256, most_nodes: 4096 };
    /// Those of request N11.
    pub const WIDE: Format = Format { width: 4, most_variables: 1024, most_nodes: 8192 };

    /// Where the kinds begin: behind the two sizes.
    pub const fn header(self) -> usize {
        2 * self.width
    }

    /// A kind and an argument.
    pub const fn bytes_to_a_row(self) -> usize {
        1 + self.width
    }

    /// Bytes of a sheet with these sizes.
    pub const fn sheet_length(self, variables: usize, nodes: usize) -> usize {
        self.header() + self.bytes_to_a_row() * (variables + nodes)
    }

    /// Whether a sheet of these sizes keeps to the limit of nodes and to `room` bytes.
    pub const fn fits(self, variables: usize, nodes: usize, room: usize) -> bool {
        nodes <= self.most_nodes && self.sheet_length(variables, nodes) <= room
    }

    /// The program's buffers are this long.
    pub const fn longest_sheet(self) -> usize {
        self.sheet_length(self.most_variables, self.most_nodes)
    }

    pub const fn highest_number(self) -> usize {
        (1 << (8 * self.width)) - 1
    }

    /// Where the argument of a row stands in a sheet of so many rows.
    pub fn argument_at(self, rows: usize, row: usize) -> usize {
        self.header() + rows + self.width * row
    }

    /// A number, low byte first, if the bytes go so far.
    pub fn number_at(self, bytes: &[u8], at: usize) -> Option<usize> {
        let digits = bytes.get(at..at + self.width)?;
        Some(digits.iter().rev().fold(0, |number, &digit| 256 * number + usize::from(digit)))
    }

    /// V and N as the first bytes have them.
    pub fn sizes(self, bytes: &[u8]) -> Option<(usize, usize)> {
        Some((self.number_at(bytes, 0)?, self.number_at(bytes, self.width)?))
    }

    /// The sheet at the front of a buffer, as long as its sizes say.
    pub fn front(self, buffer: &[u8]) -> &[u8] {
        let (v, n) = self.sizes(buffer).expect("a sheet at the front");
        &buffer[..self.sheet_length(v, n)]
    }

    pub fn push_number(self, number: usize, bytes: &mut Vec<u8>) {
        assert!(number <= self.highest_number(), "a number of {} bytes", self.width);
        bytes.extend(&number.to_le_bytes()[..self.width]);
    }
}
