//! Where a text of QDIMACS is at fault that the proved reader refuses.

use super::text::{Text, Word};
use crate::format::Format;
use plumanchor::refusals;
use std::collections::BTreeSet;

/// Where a text is at fault that is refused with a number for a sheet of a format.
pub fn fault(text: &[u8], number: u8, format: &Format) -> Option<String> {
    let text = Text::of(text);
    let (line, why) = match number {
        refusals::BAD_HEADER => text.header_fault(format),
        refusals::BAD_LISTS => text.list_fault(),
        refusals::BEYOND_HEADER => text.above_header().or_else(|| text.other_count()),
        refusals::BOUND_TWICE => text.bound_twice(),
        refusals::SIZE_OUTSIDE => {
            let (nodes, most) = (text.nodes(), format.most_nodes);
            return Some(format!(
                "it takes {nodes} nodes, and a {} sheet has at most {most}",
                format.name
            ));
        }
        _ => None,
    }?;
    Some(format!("line {line}: {why}"))
}

impl Text<'_> {
    fn header_fault(&self, format: &Format) -> Option<(usize, String)> {
        let Some(first) = self.header.first() else {
            return Some((self.last_line, "the text ends without one".to_string()));
        };
        let shown: Vec<String> = self.header.iter().take(6).map(Word::shown).collect();
        let shown = shown.join(" ");
        let why = match &self.header[..] {
            [_, kind, ..] if kind.letters == b"dnf" => {
                "cubes, 'p dnf', are not read, only clauses".to_string()
            }
            [_, _, variables, clauses]
                if variables.is_number() && clauses.is_number() && shown.starts_with("p cnf ") =>
            {
                let (most, name) = (format.most_variables, format.name);
                let hint = "'--renumber' takes it if no more occur";
                format!(
                    "{} variables, and a {name} sheet has at most {most}; {hint}",
                    variables.shown()
                )
            }
            _ => format!("'{shown}'"),
        };
        Some((first.line, why))
    }

    /// The first word that doesn't belong where it stands.
    fn list_fault(&self) -> Option<(usize, String)> {
        let (mut open, mut quantified, mut clauses) = (false, false, false);
        for word in &self.below {
            let shown = word.shown();
            let why = match (word.opens(), word.is_number()) {
                (false, false) => format!("'{shown}' is no whole number"),
                (true, _) if open => format!("'{shown}' inside a list that no 0 has ended"),
                (true, _) if clauses => {
                    format!("'{shown}' behind a clause: quantified lists stand in front")
                }
                (_, true) if quantified && word.is_negative() => {
                    format!("'{shown}' in a list of quantified variables")
                }
                _ => {
                    clauses |= !word.opens() && !quantified;
                    quantified = word.opens() || quantified && !word.is_zero();
                    open = !word.is_zero();
                    continue;
                }
            };
            return Some((word.line, why));
        }
        let last = self.below.last()?;
        Some((last.line, "the last list is not ended by 0".to_string()))
    }

    fn above_header(&self) -> Option<(usize, String)> {
        let most = self.header.get(2)?.variable();
        let above = self.below.iter().find(|word| word.is_number() && word.variable() > most)?;
        let shown = above.shown();
        Some((above.line, format!("'{shown}', and the header says {most} variables")))
    }

    fn other_count(&self) -> Option<(usize, String)> {
        let said = self.header.get(3)?;
        let clauses = self.clauses().1;
        Some((said.line, format!("{} clauses, and there are {clauses}", said.shown())))
    }

    fn bound_twice(&self) -> Option<(usize, String)> {
        let mut bound = BTreeSet::new();
        let (quantified, _) = self.clauses();
        let lists = &self.below[..quantified];
        let twice = lists
            .iter()
            .find(|word| word.is_number() && !word.is_zero() && !bound.insert(word.variable()))?;
        Some((twice.line, format!("variable {}", twice.shown())))
    }

    /// How many words the quantified lists have, and how many clauses are behind them.
    fn clauses(&self) -> (usize, usize) {
        let mut at = 0;
        while self.below.get(at).is_some_and(Word::opens) {
            let rest = &self.below[at..];
            at += rest.iter().position(Word::is_zero).map_or(rest.len(), |end| end + 1);
        }
        (at, self.below[at..].iter().filter(|word| word.is_zero()).count())
    }

    /// AND, an OR for each clause, and the literals.
    fn nodes(&self) -> usize {
        1 + self.below.len() - self.clauses().0
    }
}
