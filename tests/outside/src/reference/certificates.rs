//! Certificates: derivations of clauses, which refute, and of cubes, which
//! prove, judged step by step, Certify.

use super::{Answer, Formula, Kind, Node, Quantifier, Reading, Variable};
use std::collections::{HashMap, HashSet};

#[derive(Clone, Copy, Debug, PartialEq, Eq, PartialOrd, Ord, Hash)]
pub struct Literal {
    pub positive: bool,
    pub variable: Variable,
}

impl Literal {
    /// `of(3)` is variable 3, `of(-3)` its negation.
    pub fn of(signed: i32) -> Literal {
        Literal { positive: signed > 0, variable: signed.unsigned_abs() as Variable }
    }

    pub fn complement(self) -> Literal {
        Literal { positive: !self.positive, ..self }
    }
}

/// A clause or a cube.
pub type Constraint = Vec<Literal>;

/// What a step's constraint comes from; antecedents are steps by number, from 0 on.
#[derive(Clone, Copy, Debug, PartialEq, Eq)]
pub enum Reason {
    Initial,
    Derived { pivot: Literal, antecedents: [usize; 2] },
}

#[derive(Clone, Debug, PartialEq, Eq)]
pub struct Inference {
    pub reason: Reason,
    pub constraint: Constraint,
}

/// The verdict, or how many steps are valid up to the first that isn't; of all
/// steps, if the last constraint isn't empty.
#[derive(Clone, Copy, Debug, PartialEq, Eq)]
pub enum Certified {
    Certain(bool),
    Uncertain(usize),
}

/// One derivation over one formula. OR is the side of clauses, AND that of cubes.
struct Judge<'a> {
    side: Kind,
    matrix: &'a Node,
    /// Place in the prefix, and quantifier.
    rows: HashMap<Variable, (usize, Quantifier)>,
}

impl Judge<'_> {
    fn of(side: Kind, formula: &Formula) -> Judge<'_> {
        let places = formula.prefix.iter().enumerate();
        let rows = places.map(|(place, row)| (row.1, (place, row.0))).collect();
        Judge { side, matrix: &formula.matrix, rows }
    }

    /// A clause all of whose literals being false makes the node false, a cube
    /// all of whose literals being true makes it true.
    fn settles(&self, constraint: &HashSet<Literal>, node: &Node) -> bool {
        match node {
            Node::Lit { positive, var } => {
                constraint.contains(&Literal { positive: *positive, variable: *var })
            }
            Node::Op { kind, children } if *kind == self.side => {
                children.iter().all(|child| self.settles(constraint, child))
            }
            Node::Op { children, .. } => {
                children.iter().any(|child| self.settles(constraint, child))
            }
        }
    }

    /// The quantifier whose literals no reduction passes: exists in a clause.
    fn own(&self) -> Quantifier {
        if self.side == Kind::Or {
            Quantifier::Exists
        } else {
            Quantifier::ForAll
        }
    }

    /// Each literal of the resolvent is in the constraint, or may go: it is bound
    /// by the other quantifier, no literal of the own one in either stands behind
    /// it, and its complement is in neither.
    fn follows(&self, resolvent: &HashSet<Literal>, constraint: &HashSet<Literal>) -> bool {
        let both: HashSet<Literal> = resolvent.union(constraint).copied().collect();
        let rows = both.iter().filter_map(|literal| self.rows.get(&literal.variable));
        let last_own = rows.filter(|row| row.1 == self.own()).map(|row| row.0).max();
        resolvent.difference(constraint).all(|literal| {
            let row = self.rows.get(&literal.variable);
            let loose = |&(place, quantifier): &(usize, Quantifier)| {
                quantifier != self.own() && last_own.is_none_or(|last| last < place)
            };
            row.is_some_and(loose) && !both.contains(&literal.complement())
        })
    }

    fn is_valid(&self, earlier: &[HashSet<Literal>], step: &Inference) -> bool {
        let constraint = step.constraint.iter().copied().collect();
        match step.reason {
            Reason::Initial => self.settles(&constraint, self.matrix),
            Reason::Derived { pivot, antecedents: [a, b] } => {
                let (Some(a), Some(b)) = (earlier.get(a), earlier.get(b)) else {
                    return false;
                };
                let a = a.iter().filter(|literal| **literal != pivot);
                let b = b.iter().filter(|literal| **literal != pivot.complement());
                self.follows(&a.chain(b).copied().collect(), &constraint)
            }
        }
    }
}

/// What the steps are worth for a side: clauses refute, cubes prove.
pub fn certified(side: Kind, formula: &Formula, steps: &[Inference]) -> Certified {
    let judge = Judge::of(side, formula);
    let mut earlier = Vec::new();
    for step in steps {
        if !judge.is_valid(&earlier, step) {
            return Certified::Uncertain(earlier.len());
        }
        earlier.push(step.constraint.iter().copied().collect());
    }
    match earlier.last() {
        Some(last) if last.is_empty() => Certified::Certain(side == Kind::And),
        _ => Certified::Uncertain(earlier.len()),
    }
}

/// Literals are coded in so many binary digits of a word.
const CODE_DIGITS: u32 = 12;

impl Literal {
    /// Twice the variable, and one more for the negation.
    fn code(self) -> u32 {
        let code = 2 * self.variable as u32 + u32::from(!self.positive);
        assert!(code < 1 << CODE_DIGITS, "a variable that has a code");
        code
    }

    fn of_word(word: u32) -> Literal {
        let code = word & ((1 << CODE_DIGITS) - 1);
        Literal { positive: code & 1 == 0, variable: (code >> 1) as Variable }
    }
}

/// The steps that words say, four a step: 0 or the pivot's code and 1, two
/// antecedents, and where its codes end; they begin where those before end.
pub fn steps_said(heads: &[u32], codes: &[u32]) -> Vec<Inference> {
    let mut begin = 0;
    let mut steps = Vec::new();
    for head in heads.chunks_exact(4) {
        let [a, b, end] = [1, 2, 3].map(|at| head[at] as usize);
        let reason = match head[0] {
            0 => Reason::Initial,
            word => Reason::Derived { pivot: Literal::of_word(word - 1), antecedents: [a, b] },
        };
        let words = codes.iter().take(end).skip(begin);
        steps.push(Inference { reason, constraint: words.map(|&w| Literal::of_word(w)).collect() });
        begin = end;
    }
    steps
}

/// The words that say these steps.
pub fn words_of(steps: &[Inference]) -> (Vec<u32>, Vec<u32>) {
    let (mut heads, mut codes) = (Vec::new(), Vec::new());
    for Inference { reason, constraint } in steps {
        codes.extend(constraint.iter().map(|literal| literal.code()));
        heads.extend(match *reason {
            Reason::Initial => [0; 3],
            Reason::Derived { pivot, antecedents: [a, b] } => {
                [pivot.code() + 1, a as u32, b as u32]
            }
        });
        heads.push(codes.len() as u32);
    }
    (heads, codes)
}

impl Reading {
    /// Certify: what the steps that the words say are worth for a side.
    pub fn certify(
        &self,
        sheet: &[u8],
        side: Kind,
        heads: &[u32],
        codes: &[u32],
    ) -> Answer<Certified> {
        let formula = self.format.parse(sheet);
        formula.map(|formula| certified(side, &formula, &steps_said(heads, codes))).into()
    }
}
