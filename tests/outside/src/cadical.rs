//! Debian's solver `cadical`, run as a process on the clauses of a claim: a
//! formula of one quantifier.

use crate::qdimacs::translate;
use crate::reference::{negated, Formula, Quantifier};
use std::io::{Result, Write};
use std::process::{Command, Stdio};

/// What one run may cost, so that it is bounded and the same everywhere.
const CONFLICTS: u32 = 20_000;

/// Whether clauses in DIMACS can be satisfied, if the solver comes to an end.
pub fn satisfiable(text: &str) -> Result<Option<bool>> {
    let mut process = Command::new("cadical")
        .args(["-q", "-n", "-c", &CONFLICTS.to_string()])
        .stdin(Stdio::piped())
        .stdout(Stdio::null())
        .stderr(Stdio::null())
        .spawn()?;
    process.stdin.take().expect("a piped input").write_all(text.as_bytes())?;
    Ok(match process.wait()?.code() {
        Some(10) => Some(true),
        Some(20) => Some(false),
        _ => None,
    })
}

/// The truth of a formula whose rows are all of this quantifier: for all, its
/// negation can't be satisfied.
pub fn verdict(quantifier: Quantifier, formula: &Formula) -> Option<bool> {
    assert!(formula.prefix.iter().all(|row| row.0 == quantifier), "a formula of one quantifier");
    let satisfiable = |formula| satisfiable(&translate(formula).dimacs());
    let answer = match quantifier {
        Quantifier::Exists => satisfiable(formula),
        Quantifier::ForAll => {
            let (prefix, matrix) = (formula.prefix.clone(), negated(&formula.matrix));
            satisfiable(&Formula { prefix, matrix }).map(|answer| answer.map(|answer| !answer))
        }
    };
    answer.expect("cadical is installed")
}

#[cfg(test)]
mod tests {
    use super::*;
    use crate::generate::{self, Limits};
    use crate::reference::Format;
    use crate::truth;

    #[test]
    fn verdicts_are_the_truth() {
        let mut verdicts = [0; 2];
        generate::cases(150, |rng| {
            let quantifier = rng.pick(&[Quantifier::Exists, Quantifier::ForAll]);
            let mut formula = generate::formula(rng, Limits::small(Format::NARROW));
            formula.prefix.iter_mut().for_each(|row| row.0 = quantifier);
            let said = verdict(quantifier, &formula);
            assert_eq!(said, Some(truth::is_true(&formula)), "{formula:?}");
            verdicts[usize::from(said == Some(true))] += 1;
        });
        assert!(verdicts.iter().all(|&count| count > 20), "{verdicts:?}");
    }
}
