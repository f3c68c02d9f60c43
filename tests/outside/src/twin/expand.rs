//! The price of an expansion and its raw rows.

use super::{constant, is_literal, Twin, EXISTS, NONE, POSITIVE};
use super::{AND, OR};

/// The deepest operator above all literals of a variable, or its only literal.
struct Part {
    at: usize,
    /// Relevant children, and their rows in all.
    children: usize,
    rows: usize,
    all: bool,
}

impl Twin {
    /// The prefix row of the innermost block with the fewest raw rows, ties to the lower number.
    pub(super) fn cheapest(&mut self) -> (usize, usize) {
        self.link();
        let last = self.variables.len() - 1;
        let kind = self.quantifiers[last];
        let block = (0..=last).rev().take_while(|&at| self.quantifiers[at] == kind);
        let priced = block.map(|at| (self.raw_rows(self.variables[at]), self.variables[at], at));
        let (rows, _, at) = priced.min().expect("a block is never empty");
        (at, rows)
    }

    /// Parents, and the literals of each variable in order.
    fn link(&mut self) {
        self.first.fill(NONE);
        self.last.fill(NONE);
        self.parents[0] = NONE;
        for row in 0..self.rows.len() {
            if is_literal(self.rows.kinds[row]) {
                let x = usize::from(self.rows.arguments[row]);
                match self.last[x] {
                    NONE => self.first[x] = row as u16,
                    before => self.next[usize::from(before)] = row as u16,
                }
                self.last[x] = row as u16;
                self.next[row] = NONE;
                continue;
            }
            let (mut child, end) = (row + 1, row + usize::from(self.sizes[row]));
            while child < end {
                self.parents[child] = row as u16;
                child += usize::from(self.sizes[child]);
            }
        }
    }

    fn raw_rows(&self, x: u16) -> usize {
        let part = self.part(x);
        let joint = if part.all { 1 } else { 2 };
        self.rows.len() + 1 + part.rows + joint
    }

    /// Every variable that is expanded has a literal: without one it would be settled.
    fn part(&self, x: u16) -> Part {
        let (first, last) = (self.first[usize::from(x)], self.last[usize::from(x)]);
        if first == last {
            return Part { at: usize::from(first), children: 0, rows: 0, all: true };
        }
        let mut at = usize::from(self.parents[usize::from(first)]);
        while at + usize::from(self.sizes[at]) <= usize::from(last) {
            at = usize::from(self.parents[at]);
        }
        let (mut children, mut rows) = (0, 0);
        self.each_relevant(x, at, |_, size| {
            children += 1;
            rows += size;
        });
        Part { at, children, rows, all: children == usize::from(self.rows.arguments[at]) }
    }

    /// The children of the operator at `at` that hold a literal of `x`, with their sizes.
    fn each_relevant(&self, x: u16, at: usize, mut found: impl FnMut(usize, usize)) {
        let mut literal = self.first[usize::from(x)];
        let few = self.rows.arguments[at] <= 8;
        let mut child = at + 1;
        while literal != NONE {
            let row = usize::from(literal);
            if few {
                while child + usize::from(self.sizes[child]) <= row {
                    child += usize::from(self.sizes[child]);
                }
            } else {
                child = row;
                while usize::from(self.parents[child]) != at {
                    child = usize::from(self.parents[child]);
                }
            }
            let size = usize::from(self.sizes[child]);
            found(child, size);
            while literal != NONE && usize::from(literal) < child + size {
                literal = self.next[usize::from(literal)];
            }
        }
    }

    /// Expands the variable of a prefix row of the innermost block.
    pub(super) fn expand(&mut self, at: usize) {
        let x = self.variables[at];
        let joint = if self.quantifiers[at] == EXISTS { OR } else { AND };
        let part = self.part(x);
        let mut raw = std::mem::take(&mut self.raw);
        raw.clear();
        self.copy(&mut raw, 0, part.at);
        let kind = self.rows.kinds[part.at];
        let end = part.at + usize::from(self.sizes[part.at]);
        if is_literal(kind) {
            raw.push(joint, 2);
            raw.push(constant(kind != POSITIVE), 0);
            raw.push(constant(kind == POSITIVE), 0);
        } else if part.all {
            self.copy_twice(&mut raw, joint, x, &part);
        } else {
            let others = usize::from(self.rows.arguments[part.at]) - part.children;
            raw.push(kind, others as u16 + 1);
            let (mut done, mut copied) = (part.at + 1, false);
            self.each_relevant(x, part.at, |child, size| {
                self.copy(&mut raw, done, child);
                if !copied {
                    self.copy_twice(&mut raw, joint, x, &part);
                    copied = true;
                }
                done = child + size;
            });
            self.copy(&mut raw, done, end);
        }
        self.copy(&mut raw, end, self.rows.len());
        self.raw = raw;
        self.remove_row(at);
        self.tidy_raw();
    }

    fn copy(&self, raw: &mut super::Rows, from: usize, to: usize) {
        raw.kinds.extend_from_slice(&self.rows.kinds[from..to]);
        raw.arguments.extend_from_slice(&self.rows.arguments[from..to]);
    }

    /// The relevant children under an operator of their kind, with 0 and with 1 for `x`.
    fn copy_twice(&self, raw: &mut super::Rows, joint: u8, x: u16, part: &Part) {
        raw.push(joint, 2);
        for value in [false, true] {
            raw.push(self.rows.kinds[part.at], part.children as u16);
            self.each_relevant(x, part.at, |child, size| {
                for row in child..child + size {
                    let (kind, argument) = (self.rows.kinds[row], self.rows.arguments[row]);
                    if is_literal(kind) && argument == x {
                        raw.push(constant((kind == POSITIVE) == value), 0);
                    } else {
                        raw.push(kind, argument);
                    }
                }
            });
        }
    }
}
