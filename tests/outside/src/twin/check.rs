//! A sheet read into arrays, with Check's tests.

use super::{is_literal, Twin, NEGATIVE, OR, POSITIVE};
use crate::reference::Refusal;

impl Twin {
    /// Reads prefix and raw matrix of a sheet that Check accepts.
    pub(super) fn read(&mut self, sheet: &[u8]) -> Result<(), Refusal> {
        let format = self.format;
        let (v, n) = format.sizes(sheet).ok_or((1, 0))?;
        if v > format.most_variables || n == 0 || n > format.most_nodes {
            return Err((2, 0));
        }
        if sheet.len() != format.sheet_length(v, n) {
            return Err((3, 0));
        }
        let (kinds, arguments) = sheet[format.header()..].split_at(v + n);
        let argument = |row: usize| {
            let bytes = &arguments[format.width * row..];
            match format.width {
                2 => u32::from(u16::from_le_bytes([bytes[0], bytes[1]])),
                _ => u32::from_le_bytes([bytes[0], bytes[1], bytes[2], bytes[3]]),
            }
        };
        self.read_prefix(&kinds[..v], argument)?;
        self.raw.clear();
        let mut unclosed = 1usize;
        let mut end = None;
        for (row, &kind) in kinds.iter().enumerate().skip(v) {
            let argument = argument(row);
            if !(POSITIVE..=OR).contains(&kind) {
                return Err((4, row));
            }
            if kind <= NEGATIVE && !self.is_bound(argument) {
                return Err((7, row));
            }
            // Of a sheet that is accepted no number is cut off: variables are bound, and children have rows.
            self.raw.push(kind, argument as u16);
            if unclosed == 0 && end.is_none() {
                end = Some(row);
            }
            if end.is_none() {
                unclosed -= 1;
                if !is_literal(kind) {
                    unclosed += argument as usize;
                }
            }
        }
        match end {
            Some(row) => Err((8, row)),
            None if unclosed > 0 => Err((8, v + n)),
            None => Ok(()),
        }
    }

    fn read_prefix(
        &mut self,
        kinds: &[u8],
        argument: impl Fn(usize) -> u32,
    ) -> Result<(), Refusal> {
        self.quantifiers.clear();
        self.variables.clear();
        self.first.fill(0);
        for (row, &kind) in kinds.iter().enumerate() {
            let x = argument(row);
            if !matches!(kind, 1 | 2) {
                return Err((4, row));
            }
            if x == 0 || x as usize > self.format.most_variables {
                return Err((5, row));
            }
            if self.is_bound(x) {
                return Err((6, row));
            }
            // The table of first literals isn't in use yet.
            self.first[x as usize] = 1;
            self.quantifiers.push(kind);
            self.variables.push(x as u16);
        }
        Ok(())
    }

    fn is_bound(&self, x: u32) -> bool {
        self.first.get(x as usize).is_some_and(|&bound| bound == 1)
    }
}
