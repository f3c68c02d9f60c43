//! Tidying from the last row to the first. What is done stands behind `top`,
//! each subtree in preorder with its size at its first row, so that the children
//! of an operator are the subtrees that follow one another from `top` on.

use super::{is_literal, Rows, AND, OR, POSITIVE};

pub(super) struct Tidying {
    kinds: Vec<u8>,
    arguments: Vec<u16>,
    sizes: Vec<u16>,
    top: usize,
    /// By variable number: the operator that a sign was seen under, twice as a number plus the sign.
    marks: Vec<u32>,
    stamp: u32,
    /// The children that stay, each by its first row.
    kept: Vec<u16>,
    /// By row a print of the subtree there: equal subtrees have equal prints.
    prints: Vec<u32>,
    /// The operator children listed so far, by their prints: the operator that one was listed
    /// under, and its row. A tidied operator has three rows, so that half of the places stay empty.
    listed: Vec<(u32, u16)>,
}

fn mixed(print: u32, next: u32) -> u32 {
    (print.rotate_left(5) ^ next).wrapping_mul(0x9e37_79b1)
}

fn dual(kind: u8) -> u8 {
    AND + OR - kind
}

/// What becomes of an operator's children.
struct Sifted {
    end: usize,
    decided: bool,
    changed: bool,
}

impl Tidying {
    pub(super) fn new(rows: usize, numbers: usize) -> Tidying {
        Tidying {
            kinds: vec![0; rows],
            arguments: vec![0; rows],
            sizes: vec![0; rows],
            top: rows,
            marks: vec![0; numbers],
            stamp: 0,
            kept: Vec::with_capacity(rows),
            prints: vec![0; rows],
            listed: vec![(0, 0); (2 * rows / 3).next_power_of_two()],
        }
    }

    pub(super) fn tidy(&mut self, raw: &Rows, tidied: &mut Rows, sizes: &mut Vec<u16>) {
        self.top = self.kinds.len();
        for (&kind, &argument) in raw.kinds.iter().zip(&raw.arguments).rev() {
            if is_literal(kind) {
                self.put(kind, argument, 1, mixed(u32::from(kind), u32::from(argument)));
            } else {
                self.combine(kind, argument);
            }
        }
        tidied.clear();
        tidied.kinds.extend_from_slice(&self.kinds[self.top..]);
        tidied.arguments.extend_from_slice(&self.arguments[self.top..]);
        sizes.clear();
        sizes.extend_from_slice(&self.sizes[self.top..]);
    }

    fn put(&mut self, kind: u8, argument: u16, size: u16, print: u32) {
        self.top -= 1;
        self.prints[self.top] = print;
        self.kinds[self.top] = kind;
        self.arguments[self.top] = argument;
        self.sizes[self.top] = size;
    }

    /// An operator over the `children` subtrees at `top`.
    fn combine(&mut self, kind: u8, children: u16) {
        self.stamp += 1;
        if self.stamp == u32::MAX / 2 {
            self.marks.fill(0);
            self.listed.fill((0, 0));
            self.stamp = 1;
        }
        let sifted = self.sift(kind, children);
        if sifted.decided {
            self.top = sifted.end;
            self.put(dual(kind), 0, 1, u32::from(dual(kind)));
            return;
        }
        let count = self.kept.len() as u16;
        let prints = self.kept.iter().map(|&at| self.prints[usize::from(at)]);
        let print = prints.fold(u32::from(kind), mixed);
        if sifted.changed {
            self.pack(sifted.end);
        }
        if count != 1 {
            let rows = (sifted.end - self.top) as u16;
            self.put(kind, count, rows + 1, print);
        }
    }

    /// Splices, looks for what decides, and lists the children that stay.
    fn sift(&mut self, kind: u8, children: u16) -> Sifted {
        self.kept.clear();
        let (mut at, mut decided, mut changed) = (self.top, false, false);
        for _ in 0..children {
            let end = at + usize::from(self.sizes[at]);
            if self.kinds[at] == kind {
                changed = true;
                at += 1;
                while at < end {
                    decided |= self.sift_child(kind, at, &mut changed);
                    at += usize::from(self.sizes[at]);
                }
            } else {
                decided |= self.sift_child(kind, at, &mut changed);
                at = end;
            }
        }
        Sifted { end: at, decided, changed }
    }

    /// Whether a child decides its operator; one that stays is listed.
    fn sift_child(&mut self, kind: u8, at: usize, changed: &mut bool) -> bool {
        let own = self.kinds[at];
        if !is_literal(own) {
            if self.list(at) {
                self.kept.push(at as u16);
            } else {
                *changed = true;
            }
            return own == dual(kind) && self.sizes[at] == 1;
        }
        let mark = &mut self.marks[usize::from(self.arguments[at])];
        let seen = 2 * self.stamp + u32::from(own - POSITIVE);
        if *mark == seen {
            *changed = true;
            return false;
        }
        if *mark == seen ^ 1 {
            return true;
        }
        *mark = seen;
        self.kept.push(at as u16);
        false
    }

    /// Lists an operator child, if no child listed under the same operator equals it.
    fn list(&mut self, at: usize) -> bool {
        let mask = self.listed.len() - 1;
        // The lower bits of a product are the poorer ones.
        let mut place = (self.prints[at] >> 7) as usize & mask;
        while self.listed[place].0 == self.stamp {
            if self.equals(usize::from(self.listed[place].1), at) {
                return false;
            }
            place = (place + 1) & mask;
        }
        self.listed[place] = (self.stamp, at as u16);
        true
    }

    fn equals(&self, one: usize, other: usize) -> bool {
        let size = usize::from(self.sizes[one]);
        self.prints[one] == self.prints[other]
            && self.sizes[one] == self.sizes[other]
            && self.kinds[one..one + size] == self.kinds[other..other + size]
            && self.arguments[one..one + size] == self.arguments[other..other + size]
    }

    /// Moves the children that stay together before `end`.
    fn pack(&mut self, end: usize) {
        let mut to = end;
        for at in self.kept.iter().rev() {
            let at = usize::from(*at);
            let size = usize::from(self.sizes[at]);
            to -= size;
            if to != at {
                self.kinds.copy_within(at..at + size, to);
                self.arguments.copy_within(at..at + size, to);
                self.sizes.copy_within(at..at + size, to);
                self.prints.copy_within(at..at + size, to);
            }
        }
        self.top = to;
    }
}
