//! Damage to a sheet's bytes.

use super::Rng;
use crate::reference::Format;

const KINDS: [u8; 9] = [0, 1, 2, 3, 4, 5, 6, 7, 255];

/// More than any sheet with one size at its limit and the other of 16 bits; a
/// size of 32 bits would ask for more bytes than there are.
const LONGEST: usize = 1 << 20;

/// One to three random changes; the result may still be a good sheet.
pub fn damage(rng: &mut Rng, format: Format, sheet: &[u8]) -> Vec<u8> {
    let mut damaged = Damaged { format, bytes: sheet.to_vec() };
    for _ in 0..rng.pick(&[1, 1, 1, 2, 3]) {
        damaged.change(rng);
    }
    damaged.bytes
}

struct Damaged {
    format: Format,
    bytes: Vec<u8>,
}

impl Damaged {
    fn change(&mut self, rng: &mut Rng) {
        match rng.below(12) {
            0 => self.flip_bit(rng),
            1 => self.truncate(rng),
            2 => self.extend(rng),
            3 => self.change_size(rng, 0),
            4 => self.change_size(rng, self.format.width),
            5 | 6 => self.change_kind(rng),
            7 | 8 => self.change_argument(rng),
            9 => self.copy_argument(rng),
            10 => self.nudge_argument(rng),
            _ => self.swap_rows(rng),
        }
    }

    fn flip_bit(&mut self, rng: &mut Rng) {
        if !self.bytes.is_empty() {
            let at = rng.below(self.bytes.len());
            self.bytes[at] ^= 1 << rng.below(8);
        }
    }

    fn truncate(&mut self, rng: &mut Rng) {
        let length = match rng.below(3) {
            0 => rng.below(self.format.header() + 2),
            1 => self.bytes.len().saturating_sub(rng.between(1, 3)),
            _ => rng.below(self.bytes.len() + 1),
        };
        self.bytes.truncate(length);
    }

    fn extend(&mut self, rng: &mut Rng) {
        for _ in 0..rng.between(1, 4) {
            let byte = if rng.one_in(2) { 0 } else { rng.word() as u8 };
            self.bytes.push(byte);
        }
    }

    /// A new V or N, half the time with the length that goes with it.
    fn change_size(&mut self, rng: &mut Rng, at: usize) {
        let Some(old) = self.number(at) else {
            return;
        };
        let size = match rng.below(4) {
            0 => old + 1,
            1 => old.saturating_sub(1),
            2 => rng.pick(&self.sizes()),
            _ => self.format.highest_number(),
        };
        self.set_number(at, size);
        if rng.one_in(2) && size <= self.format.most_nodes + 1 {
            self.resize_to_sizes();
        }
    }

    /// Sizes at and past both limits.
    fn sizes(&self) -> [usize; 9] {
        let Format { most_variables: v, most_nodes: n, .. } = self.format;
        [0, 1, 2, v - 1, v, v + 1, n - 1, n, n + 1]
    }

    fn resize_to_sizes(&mut self) {
        let length = self.format.sizes(&self.bytes).map(|(v, n)| self.format.sheet_length(v, n));
        if let Some(length) = length.filter(|&length| length <= LONGEST) {
            self.bytes.resize(length, 0);
        }
    }

    /// V, and V+N as far as the length bears it out.
    fn rows(&self) -> (usize, usize) {
        let (v, n) = (self.number(0).unwrap_or(0), self.number(self.format.width).unwrap_or(0));
        let behind = self.bytes.len().saturating_sub(self.format.header());
        let rows = (v + n).min(behind / self.format.bytes_to_a_row());
        (v.min(rows), rows)
    }

    fn any_row(&self, rng: &mut Rng) -> Option<usize> {
        let (prefix, rows) = self.rows();
        if rows == 0 {
            None
        } else if prefix > 0 && rng.one_in(3) {
            Some(rng.below(prefix))
        } else {
            Some(rng.below(rows))
        }
    }

    /// Where the argument of any row stands.
    fn any_argument(&self, rng: &mut Rng) -> Option<usize> {
        self.any_row(rng).map(|row| self.argument_at(row))
    }

    fn argument_at(&self, row: usize) -> usize {
        self.format.argument_at(self.rows().1, row)
    }

    fn change_kind(&mut self, rng: &mut Rng) {
        if let Some(row) = self.any_row(rng) {
            self.bytes[self.format.header() + row] = rng.pick(&KINDS);
        }
    }

    fn change_argument(&mut self, rng: &mut Rng) {
        if let Some(at) = self.any_argument(rng) {
            self.set_number(at, rng.pick(&numbers(self.format)));
        }
    }

    /// Likely a variable bound twice, or a literal of another variable.
    fn copy_argument(&mut self, rng: &mut Rng) {
        if let (Some(from), Some(to)) = (self.any_argument(rng), self.any_argument(rng)) {
            if let Some(value) = self.number(from) {
                self.set_number(to, value);
            }
        }
    }

    /// One child more or fewer, or the neighbouring variable.
    fn nudge_argument(&mut self, rng: &mut Rng) {
        let Some(at) = self.any_argument(rng) else {
            return;
        };
        if let Some(old) = self.number(at) {
            let up = (old + 1).min(self.format.highest_number());
            let new = if rng.one_in(2) { up } else { old.saturating_sub(1) };
            self.set_number(at, new);
        }
    }

    fn swap_rows(&mut self, rng: &mut Rng) {
        if let (Some(a), Some(b)) = (self.any_row(rng), self.any_row(rng)) {
            self.bytes.swap(self.format.header() + a, self.format.header() + b);
            let (a, b) = (self.argument_at(a), self.argument_at(b));
            (0..self.format.width).for_each(|digit| self.bytes.swap(a + digit, b + digit));
        }
    }

    fn number(&self, at: usize) -> Option<usize> {
        self.format.number_at(&self.bytes, at)
    }

    /// The low digits of `value`, if the bytes go so far.
    fn set_number(&mut self, at: usize, value: usize) {
        let width = self.format.width;
        if let Some(digits) = self.bytes.get_mut(at..at + width) {
            digits.copy_from_slice(&value.to_le_bytes()[..width]);
        }
    }
}

/// Arguments at and past the limits of a format.
pub(super) fn numbers(format: Format) -> [usize; 7] {
    let Format { most_variables: v, most_nodes, .. } = format;
    [0, 1, v - 1, v, v + 1, most_nodes, format.highest_number()]
}

#[cfg(test)]
mod tests {
    use super::*;
    use crate::generate::{cases, sheet, Limits};

    #[test]
    fn damage_reaches_every_refusal_of_check() {
        for format in [Format::NARROW, Format::WIDE] {
            let mut seen = [0; 9];
            cases(20_000, |rng| {
                let whole = sheet(rng, Limits::small(format));
                let refusal = format.check(&damage(rng, format, &whole)).err();
                seen[usize::from(refusal.map_or(0, |fault| fault.0))] += 1;
            });
            assert!(seen.iter().all(|&count| count > 100), "{seen:?}");
        }
    }
}
