//! Solve once more, tuned: kinds and numbers in arrays in preorder, no tree, and
//! no allocation inside a step. It is what the proved code's speed is held
//! against; its own lines are held to the reference's.

mod check;
mod expand;
mod tidy;

use crate::reference::{Format, SolveAnswer};

const EXISTS: u8 = 1;
const POSITIVE: u8 = 3;
const NEGATIVE: u8 = 4;
const AND: u8 = 5;
const OR: u8 = 6;

/// Rows in preorder.
#[derive(Default)]
struct Rows {
    kinds: Vec<u8>,
    arguments: Vec<u16>,
}

impl Rows {
    fn with_room(rows: usize) -> Rows {
        Rows { kinds: Vec::with_capacity(rows), arguments: Vec::with_capacity(rows) }
    }

    fn len(&self) -> usize {
        self.kinds.len()
    }

    fn clear(&mut self) {
        self.kinds.clear();
        self.arguments.clear();
    }

    fn push(&mut self, kind: u8, argument: u16) {
        self.kinds.push(kind);
        self.arguments.push(argument);
    }
}

fn is_literal(kind: u8) -> bool {
    kind <= NEGATIVE
}

/// AND of nothing is true, OR of nothing is false.
fn constant(value: bool) -> u8 {
    if value {
        AND
    } else {
        OR
    }
}

/// All that a run needs, allocated once and used for any number of sheets.
pub struct Twin {
    format: Format,
    /// Quantifier kinds and variables, outermost first.
    quantifiers: Vec<u8>,
    variables: Vec<u16>,
    /// The tidy matrix reached, with the rows of each subtree and each row's parent.
    rows: Rows,
    sizes: Vec<u16>,
    parents: Vec<u16>,
    /// The raw matrix of a step.
    raw: Rows,
    tidying: tidy::Tidying,
    /// By variable number: signs that occur (bits 0 and 1) and occur at the root (2 and 3).
    signs: Vec<u8>,
    /// By variable number the first and the last literal; by row the next one.
    first: Vec<u16>,
    last: Vec<u16>,
    next: Vec<u16>,
}

/// No row.
const NONE: u16 = u16::MAX;

impl Twin {
    pub fn new(format: Format) -> Twin {
        let (rows, numbers) = (2 * format.most_nodes + 8, format.most_variables + 1);
        Twin {
            format,
            quantifiers: Vec::with_capacity(numbers),
            variables: Vec::with_capacity(numbers),
            rows: Rows::with_room(rows),
            sizes: Vec::with_capacity(rows),
            parents: vec![NONE; rows],
            raw: Rows::with_room(rows),
            tidying: tidy::Tidying::new(rows, numbers),
            signs: vec![0; numbers],
            first: vec![NONE; numbers],
            last: vec![NONE; numbers],
            next: vec![NONE; rows],
        }
    }

    /// Solve with buffers of which the shorter has `room` bytes.
    pub fn solve(&mut self, sheet: &[u8], room: usize) -> SolveAnswer {
        if let Err((number, place)) = self.read(sheet) {
            return SolveAnswer::Refused(number, place);
        }
        if room < sheet.len() {
            return SolveAnswer::Refused(13, 0);
        }
        self.tidy_raw();
        let (mut settled, mut expanded) = (0, 0);
        loop {
            if self.rows.len() == 1 && !is_literal(self.rows.kinds[0]) {
                let verdict = self.rows.kinds[0] == AND;
                return SolveAnswer::Ended { verdict, settled, expanded };
            }
            if let Some((at, value)) = self.settleable() {
                self.settle(at, value);
                settled += 1;
                continue;
            }
            let (at, raw_rows) = self.cheapest();
            let variables = self.variables.len() - 1;
            let fits = raw_rows <= self.format.most_nodes
                && self.format.sheet_length(variables, raw_rows) <= room;
            if !fits {
                let variable = usize::from(self.variables[at]);
                return SolveAnswer::Stopped { variable, settled, expanded };
            }
            self.expand(at);
            expanded += 1;
        }
    }

    /// Tidies the raw rows and makes them the rows reached.
    fn tidy_raw(&mut self) {
        self.tidying.tidy(&self.raw, &mut self.rows, &mut self.sizes);
    }

    fn remove_row(&mut self, at: usize) {
        self.quantifiers.remove(at);
        self.variables.remove(at);
    }

    fn mark_signs(&mut self) {
        self.signs.fill(0);
        for (&kind, &argument) in self.rows.kinds.iter().zip(&self.rows.arguments) {
            if is_literal(kind) {
                self.signs[usize::from(argument)] |= 1 << (kind - POSITIVE);
            }
        }
        if is_literal(self.rows.kinds[0]) {
            self.signs[usize::from(self.rows.arguments[0])] |= 4 << (self.rows.kinds[0] - POSITIVE);
            return;
        }
        let mut child = 1;
        while child < self.rows.len() {
            let kind = self.rows.kinds[child];
            if is_literal(kind) {
                self.signs[usize::from(self.rows.arguments[child])] |= 4 << (kind - POSITIVE);
            }
            child += usize::from(self.sizes[child]);
        }
    }

    /// The lowest-numbered variable that may be settled: its prefix row, and its value.
    fn settleable(&mut self) -> Option<(usize, bool)> {
        self.mark_signs();
        let mut best: Option<(u16, usize, bool)> = None;
        for (at, &x) in self.variables.iter().enumerate() {
            if best.is_some_and(|best| best.0 < x) {
                continue;
            }
            let exists = self.quantifiers[at] == EXISTS;
            let value = match self.signs[usize::from(x)] {
                0 => false,
                signs if signs & 2 == 0 || signs & 4 != 0 => exists,
                signs if signs & 1 == 0 || signs & 8 != 0 => !exists,
                _ => continue,
            };
            best = Some((x, at, value));
        }
        best.map(|(_, at, value)| (at, value))
    }

    fn settle(&mut self, at: usize, value: bool) {
        let x = self.variables[at];
        self.raw.clear();
        for (&kind, &argument) in self.rows.kinds.iter().zip(&self.rows.arguments) {
            if is_literal(kind) && argument == x {
                self.raw.push(constant((kind == POSITIVE) == value), 0);
            } else {
                self.raw.push(kind, argument);
            }
        }
        self.remove_row(at);
        self.tidy_raw();
    }
}

#[cfg(test)]
mod tests {
    use super::*;
    use crate::generate::{self, cases, Limits};
    use crate::literature::LITERATURE;
    use crate::reference::Reading;
    use crate::with_deep_stack;

    fn agree(twin: &mut Twin, reading: Reading, sheet: &[u8], room: usize) {
        let (mut first, mut second) = (vec![0; room], vec![0; room]);
        let expected = reading.solve(sheet, &mut first, &mut second);
        assert_eq!(twin.solve(sheet, room), expected, "{sheet:?}");
    }

    fn agree_in(reading: Reading) {
        with_deep_stack(move || {
            let (format, mut twin) = (reading.format, Twin::new(reading.format));
            let longest = format.longest_sheet();
            cases(2_000, |rng| {
                let sheet = generate::sheet(rng, Limits::small(format));
                agree(&mut twin, reading, &sheet, longest);
                agree(&mut twin, reading, &sheet, sheet.len() + rng.below(40));
                agree(&mut twin, reading, &generate::damage(rng, format, &sheet), longest);
            });
            cases(50, |rng| {
                let formula = generate::solver_formula(rng, format);
                agree(&mut twin, reading, &format.encode(&formula), longest);
                let sheet = generate::sheet(rng, Limits::full(format));
                agree(&mut twin, reading, &sheet, longest);
            });
            for family in LITERATURE {
                for n in 1..6 {
                    agree(&mut twin, reading, &format.encode(&family.formula(n)), longest);
                }
            }
        });
    }

    #[test]
    fn the_twin_says_the_references_line_of_narrow_sheets() {
        agree_in(Reading::NARROW);
    }

    #[test]
    fn the_twin_says_the_references_line_of_wide_sheets() {
        agree_in(Reading::WIDE);
    }
}
