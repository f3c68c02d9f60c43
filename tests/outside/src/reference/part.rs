//! Part: the kind bytes that a subtree covers.

use super::sheet::parse_node;
use super::Format;
use std::ops::Range;

impl Format {
    /// Part: the kind bytes of the subtree of `node`, empty if the sheet or the
    /// node is bad.
    pub fn part(self, sheet: &[u8], node: usize) -> &[u8] {
        &sheet[self.part_range(sheet, node)]
    }

    /// Where in the sheet `part` lies; 0..0 if the sheet or the node is bad.
    pub fn part_range(self, sheet: &[u8], node: usize) -> Range<usize> {
        match self.checked_rows(sheet) {
            Ok((v, rows)) if node < rows.len() - v => {
                let subtree = parse_node(&mut rows[v + node..].iter().copied());
                let start = self.header() + v + node;
                start..start + subtree.rows()
            }
            _ => 0..0,
        }
    }
}
