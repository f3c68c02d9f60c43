//! Families of clause sets from the literature on proof systems for quantified
//! formulas, each with its verdict, in the notation of the papers.

use crate::formulas::{and, clause};
use crate::qdimacs::Qdimacs;
use crate::reference::{Binding, Formula, Quantifier, Variable};
use Quantifier::{Exists, ForAll};

#[derive(Clone, Copy)]
pub struct Literature {
    pub name: &'static str,
    pub verdict: bool,
    clauses: fn(&mut Builder, usize),
}

pub const LITERATURE: [Literature; 5] = [
    // Kleine Büning, Karpinski, Flögel: Resolution for quantified Boolean formulas, 1995.
    Literature { name: "KBKF", verdict: false, clauses: kbkf },
    // Beyersdorff, Blinkhorn, Hinde: Size, cost and capacity, 2018.
    Literature { name: "equality", verdict: false, clauses: equality },
    // Beyersdorff, Chew, Janota: Proof complexity of resolution-based QBF calculi, 2015.
    Literature { name: "QParity", verdict: false, clauses: parity },
    // Janota, Marques-Silva: Expansion-based QBF solving versus Q-resolution, 2015.
    Literature { name: "CR", verdict: false, clauses: completion },
    // Turn by turn the answer repeats the signal.
    Literature { name: "copycat", verdict: true, clauses: copycat },
];

impl Literature {
    /// The formula of size `n`, at least 1.
    pub fn formula(&self, n: usize) -> Formula {
        let builder = self.built(n);
        let clauses = builder.clauses.iter().map(|literals| clause(literals)).collect();
        Formula { prefix: builder.prefix, matrix: and(clauses) }
    }

    /// The same as a clause set.
    pub fn qdimacs(&self, n: usize) -> Qdimacs {
        let Builder { prefix, clauses } = self.built(n);
        Qdimacs::of_clauses(&prefix, clauses)
    }

    fn built(&self, n: usize) -> Builder {
        let mut builder = Builder { prefix: Vec::new(), clauses: Vec::new() };
        (self.clauses)(&mut builder, n);
        builder
    }
}

/// A prefix and clauses of signed variable numbers.
struct Builder {
    prefix: Vec<Binding>,
    clauses: Vec<Vec<i32>>,
}

impl Builder {
    fn bind(&mut self, quantifier: Quantifier) -> i32 {
        let x: Variable = self.prefix.len() + 1;
        self.prefix.push((quantifier, x));
        x as i32
    }

    fn block(&mut self, quantifier: Quantifier, count: usize) -> Vec<i32> {
        (0..count).map(|_| self.bind(quantifier)).collect()
    }

    fn add(&mut self, literals: &[i32]) {
        self.clauses.push(literals.to_vec());
    }
}

fn negated(literals: &[i32]) -> Vec<i32> {
    literals.iter().map(|literal| -literal).collect()
}

/// exists d1 e1, for all x1, .., exists dn en, for all xn, exists f1 .. fn.
fn kbkf(b: &mut Builder, n: usize) {
    let mut turns = Vec::new();
    for _ in 0..n {
        turns.push((b.bind(Exists), b.bind(Exists), b.bind(ForAll)));
    }
    let f = b.block(Exists, n);
    b.add(&[-turns[0].0, -turns[0].1]);
    for (at, &(d, e, x)) in turns.iter().enumerate() {
        let next = turns.get(at + 1).map_or(negated(&f), |turn| vec![-turn.0, -turn.1]);
        b.add(&[&[d, x][..], &next].concat());
        b.add(&[&[e, -x][..], &next].concat());
    }
    for (turn, f) in turns.iter().zip(f) {
        b.add(&[turn.2, f]);
        b.add(&[-turn.2, f]);
    }
}

/// exists x, for all u, exists t: some ti, where ti is false if ui is xi.
fn equality(b: &mut Builder, n: usize) {
    let (x, u, t) = (b.block(Exists, n), b.block(ForAll, n), b.block(Exists, n));
    for i in 0..n {
        b.add(&[x[i], u[i], -t[i]]);
        b.add(&[-x[i], -u[i], -t[i]]);
    }
    b.add(&t);
}

/// exists x, for all z, exists t: z differs from the parity of x.
fn parity(b: &mut Builder, n: usize) {
    let (x, z) = (b.block(Exists, n), b.bind(ForAll));
    let mut last = x[0];
    for &x in &x[1..] {
        let t = b.bind(Exists);
        for (a, c, d) in [(1, 1, -1), (1, -1, 1), (-1, 1, 1), (-1, -1, -1)] {
            b.add(&[a * last, c * x, d * t]);
        }
        last = t;
    }
    b.add(&[z, last]);
    b.add(&[-z, -last]);
}

/// exists x of n by n, for all z, exists a b: no full row is answered, no full column.
fn completion(b: &mut Builder, n: usize) {
    let (x, z) = (b.block(Exists, n * n), b.bind(ForAll));
    let (rows, columns) = (b.block(Exists, n), b.block(Exists, n));
    for i in 0..n {
        for j in 0..n {
            b.add(&[x[n * i + j], z, rows[i]]);
            b.add(&[-x[n * i + j], -z, columns[j]]);
        }
    }
    b.add(&negated(&rows));
    b.add(&negated(&columns));
}

/// for all u1, exists e1, for all u2, ..: each e is its u.
fn copycat(b: &mut Builder, n: usize) {
    for _ in 0..n {
        let (u, e) = (b.bind(ForAll), b.bind(Exists));
        b.add(&[-u, e]);
        b.add(&[u, -e]);
    }
}

#[cfg(test)]
mod tests {
    use super::*;
    use crate::depqbf;
    use crate::truth;

    #[test]
    fn verdicts_are_those_of_the_papers() {
        for family in LITERATURE {
            for n in 1..=3 {
                let formula = family.formula(n);
                if formula.prefix.len() <= 16 {
                    assert_eq!(truth::is_true(&formula), family.verdict, "{} {n}", family.name);
                }
                let text = family.qdimacs(n).text();
                let theirs = depqbf::verdict_of(&text).expect("depqbf is installed");
                assert_eq!(theirs, Some(family.verdict), "{} {n}", family.name);
            }
        }
    }
}
