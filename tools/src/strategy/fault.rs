//! Why a strategy is refused, in words. That it is, and the number, is the proved operation's.

use super::{kind_of, pairs, read_by, side_words, Tree};
use crate::formula::{Formula, Row};
use crate::names::Names;
use plumanchor::Quantifier;
use std::collections::{BTreeMap, BTreeSet};

/// A strategy of a side for a formula, and what its variables are called.
pub struct Tested<'a> {
    pub side: Quantifier,
    pub formula: &'a Formula,
    pub names: &'a Names,
    pub strategy: &'a Formula,
}

impl Tested<'_> {
    /// What there is against its form or what it covers.
    pub fn form(&self) -> Option<String> {
        let Tested { side, formula, strategy, .. } = self;
        if formula.prefix != strategy.prefix {
            return Some("its prefix is another one".into());
        }
        let Some(pairs) = pairs(strategy) else {
            return Some("it is not OR of ANDs of a variable and its function".into());
        };
        let own: Vec<usize> = formula
            .prefix
            .iter()
            .filter(|row| row.kind == kind_of(*side))
            .map(|row| row.argument)
            .collect();
        let mut seen = BTreeSet::new();
        for (x, _) in &pairs {
            let name = self.names.of(*x);
            if !own.contains(x) {
                return Some(format!(
                    "'{name}' is no variable of the side '{}'",
                    side_words(*side)
                ));
            }
            if !seen.insert(*x) {
                return Some(format!("'{name}' has two functions"));
            }
        }
        let missing = own.iter().find(|x| !seen.contains(x))?;
        Some(format!("'{}' has no function", self.names.of(*missing)))
    }

    /// What the function of the pair in a row reads that it may not.
    pub fn reading(&self, place: usize) -> Option<String> {
        let (pairs, ends) = (pairs(self.strategy)?, self.strategy.ends());
        // The rows of the pairs, one behind the other's end.
        let mut rows = std::iter::successors(Some(1), |&row| Some(ends[row]));
        let row = place.checked_sub(self.strategy.prefix.len())?;
        let at = rows.by_ref().take(pairs.len()).position(|pair| pair == row)?;
        let (x, function) = &pairs[at];
        let behind: BTreeMap<usize, &Tree> =
            pairs[at + 1..].iter().map(|(x, tree)| (*x, tree)).collect();
        let fault = read_by(function).into_iter().find_map(|y| self.fault(*x, y, &behind))?;
        Some(format!("'{}' reads {fault}", self.names.of(*x)))
    }

    /// Why the function of `x` may not read `y`, where these pairs come later.
    fn fault(&self, x: usize, y: usize, behind: &BTreeMap<usize, &Tree>) -> Option<String> {
        let name = |x: usize| format!("'{}'", self.names.of(x));
        if x == y {
            return Some("itself".into());
        }
        if self.is_own(y) {
            let Some(function) = behind.get(&y) else {
                return Some(format!("{}, which isn't known before it", name(y)));
            };
            let through =
                self.depends(function, behind).into_iter().find(|&z| !self.is_before(z, x));
            return through.map(|z| {
                format!("{}, which depends on {}, and that comes behind it", name(y), name(z))
            });
        }
        (!self.is_before(y, x)).then(|| format!("{}, which comes behind it", name(y)))
    }

    /// The other side's variables that a function depends on, directly or through later pairs.
    fn depends(&self, function: &[Row], behind: &BTreeMap<usize, &Tree>) -> BTreeSet<usize> {
        let mut todo: Vec<usize> = read_by(function).into_iter().collect();
        let (mut seen, mut others) = (BTreeSet::new(), BTreeSet::new());
        while let Some(x) = todo.pop() {
            match behind.get(&x).filter(|_| seen.insert(x)) {
                Some(function) => todo.extend(read_by(function)),
                None if !self.is_own(x) => _ = others.insert(x),
                None => {}
            }
        }
        others
    }

    fn is_own(&self, x: usize) -> bool {
        self.formula.prefix.contains(&Row::new(kind_of(self.side), x))
    }

    fn is_before(&self, y: usize, x: usize) -> bool {
        let first = self.formula.prefix.iter().find(|row| row.argument == x || row.argument == y);
        first.is_some_and(|row| row.argument == y)
    }
}
