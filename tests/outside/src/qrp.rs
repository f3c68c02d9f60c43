//! Traces in the QRP format, as `depqbf` writes them: every clause or cube with
//! the ones that it comes from, by identifier.

use crate::reference::{Constraint, Inference, Literal, Quantifier, Reason, Variable};
use std::collections::{BTreeMap, BTreeSet, HashMap};

#[derive(Clone, Debug, PartialEq, Eq)]
pub struct Trace {
    pub quantifiers: BTreeMap<Variable, Quantifier>,
    /// In the order of the text.
    pub lines: Vec<Line>,
    /// What the last line says: SAT has cubes, UNSAT clauses.
    pub verdict: bool,
}

#[derive(Clone, Debug, PartialEq, Eq)]
pub struct Line {
    pub identifier: usize,
    pub constraint: Constraint,
    /// None of an initial one, one of a reduction, two of a resolution.
    pub antecedents: Vec<usize>,
}

impl Trace {
    pub fn read(text: &str) -> Option<Trace> {
        let mut lines = text.lines().filter(|line| !line.starts_with('c'));
        lines.next()?.strip_prefix("p qrp ")?;
        let mut trace = Trace { quantifiers: BTreeMap::new(), lines: Vec::new(), verdict: false };
        let mut verdict = None;
        for line in lines {
            let words: Vec<&str> = line.split_whitespace().collect();
            match words[..] {
                ["r", "SAT"] => verdict = Some(true),
                ["r", "UNSAT"] => verdict = Some(false),
                ["a", ref rest @ .., "0"] => trace.bind(Quantifier::ForAll, rest)?,
                ["e", ref rest @ .., "0"] => trace.bind(Quantifier::Exists, rest)?,
                _ => trace.lines.push(Line::read(&words)?),
            }
        }
        trace.verdict = verdict?;
        Some(trace)
    }

    fn bind(&mut self, quantifier: Quantifier, words: &[&str]) -> Option<()> {
        for word in words {
            self.quantifiers.insert(word.parse().ok()?, quantifier);
        }
        Some(())
    }

    /// The steps that lead to the last line, in their order; nothing if a line
    /// comes from one that isn't there or has no pivot.
    pub fn steps(&self) -> Option<Vec<Inference>> {
        let lines: HashMap<usize, &Line> =
            self.lines.iter().map(|line| (line.identifier, line)).collect();
        let (mut cone, mut open) = (BTreeSet::new(), vec![self.lines.last()?.identifier]);
        while let Some(identifier) = open.pop() {
            if cone.insert(identifier) {
                open.extend(&lines.get(&identifier)?.antecedents);
            }
        }
        let (mut numbers, mut steps) = (HashMap::new(), Vec::new());
        for line in self.lines.iter().filter(|line| cone.contains(&line.identifier)) {
            let reason = match line.antecedents[..] {
                [] => Reason::Initial,
                // Nothing is resolved: the pivot is no variable.
                [one] => {
                    let pivot = Literal { positive: true, variable: 0 };
                    Reason::Derived { pivot, antecedents: [*numbers.get(&one)?; 2] }
                }
                [a, b] => {
                    let antecedents = [*numbers.get(&a)?, *numbers.get(&b)?];
                    Reason::Derived { pivot: self.pivot(lines[&a], lines[&b])?, antecedents }
                }
                _ => return None,
            };
            numbers.insert(line.identifier, steps.len());
            steps.push(Inference { reason, constraint: line.constraint.clone() });
        }
        Some(steps)
    }

    /// A literal of the first whose complement is in the second: existential in
    /// clauses, universal in cubes.
    fn pivot(&self, a: &Line, b: &Line) -> Option<Literal> {
        let own = if self.verdict { Quantifier::ForAll } else { Quantifier::Exists };
        let clashes = |literal: &&Literal| {
            b.constraint.contains(&literal.complement())
                && self.quantifiers.get(&literal.variable) == Some(&own)
        };
        a.constraint.iter().find(clashes).copied()
    }
}

impl Line {
    fn read(words: &[&str]) -> Option<Line> {
        let numbers: Vec<i32> =
            words.iter().map(|word| word.parse().ok()).collect::<Option<_>>()?;
        let [identifier, rest @ .., 0] = &numbers[..] else {
            return None;
        };
        let end = rest.iter().position(|&number| number == 0)?;
        let natural = |&number: &i32| usize::try_from(number).ok();
        Some(Line {
            identifier: natural(identifier)?,
            constraint: rest[..end].iter().map(|&number| Literal::of(number)).collect(),
            antecedents: rest[end + 1..].iter().map(natural).collect::<Option<_>>()?,
        })
    }
}

#[cfg(test)]
mod tests {
    use super::*;

    const TEXT: &str = "\
p qrp 4 6
a 1 0
e 2 4 0
a 3 0
1 -1 2 0 0
3 1 -4 3 0 0
7 -1 4 3 0 0
8 -1 4 0 7 0
9 -1 -4 -3 0 0
10 -1 -4 0 9 0
12 -1 0 10 8 0
13 0 12 0
r UNSAT
";

    #[test]
    fn the_steps_are_those_of_the_last_line() {
        let trace = Trace::read(TEXT).expect("a trace");
        assert_eq!((trace.lines.len(), trace.verdict), (8, false));
        let none = Literal { positive: true, variable: 0 };
        let expected = [
            (None, [0, 0], &[-1, 4, 3][..]),
            (Some(none), [0, 0], &[-1, 4]),
            (None, [0, 0], &[-1, -4, -3]),
            (Some(none), [2, 2], &[-1, -4]),
            (Some(Literal::of(-4)), [3, 1], &[-1]),
            (Some(none), [4, 4], &[]),
        ];
        let steps = trace.steps().expect("a whole trace");
        assert_eq!(steps.len(), expected.len());
        for (step, (pivot, antecedents, literals)) in steps.iter().zip(expected) {
            let derived = |pivot| Reason::Derived { pivot, antecedents };
            assert_eq!(step.reason, pivot.map_or(Reason::Initial, derived));
            let literals: Constraint = literals.iter().map(|&signed| Literal::of(signed)).collect();
            assert_eq!(step.constraint, literals);
        }
    }

    #[test]
    fn what_is_no_whole_trace() {
        for (text, other) in [
            ("r UNSAT\n", ""),
            ("p qrp", "p cnf"),
            ("1 -1 2 0 0", "1 -1 2 0"),
            ("1 -1 2 0 0", "1 -1 two 0 0"),
            ("9 -1 -4 -3 0 0", "-9 -1 -4 -3 0 0"),
        ] {
            assert_eq!(Trace::read(&TEXT.replace(text, other)), None, "{other}");
        }
        // An antecedent that isn't there or comes later, three of them, and no pivot.
        for (text, other) in [
            ("8 -1 4 0 7 0", "8 -1 4 0 6 0"),
            ("8 -1 4 0 7 0", "8 -1 4 0 12 0"),
            ("0 10 8 0", "0 10 8 9 0"),
            ("0 10 8 0", "0 10 9 0"),
            ("e 2 4 0\na 3 0", "e 2 0\na 4 3 0"),
        ] {
            let trace = Trace::read(&TEXT.replace(text, other)).expect("a trace");
            assert_eq!(trace.steps(), None, "{other}");
        }
    }
}
