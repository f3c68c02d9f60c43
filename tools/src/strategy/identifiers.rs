//! What variables are called in a language that doesn't take every name.

use crate::formula::Row;
use crate::names::Names;
use std::collections::{BTreeMap, BTreeSet};

/// What a language takes for a name, beyond letters, digits and underscores with no digit in front.
pub struct Rules {
    /// Words with a meaning of their own, in small letters, parted by blanks.
    pub reserved: &'static str,
    /// Whether capitals and small letters are the same.
    pub folds: bool,
    /// Whether underscores stand alone and never last.
    pub lone_underscores: bool,
}

/// A name for each variable of a prefix, no two the same.
pub struct Identifiers {
    names: BTreeMap<usize, String>,
    /// What was called otherwise: the name, and the one that stands for it.
    pub renamed: Vec<(String, String)>,
}

impl Rules {
    fn folded(&self, name: &str) -> String {
        if self.folds {
            name.to_ascii_lowercase()
        } else {
            name.to_string()
        }
    }

    fn takes(&self, name: &str) -> bool {
        let begins = name.starts_with(|letter: char| !letter.is_ascii_digit());
        let reserved = self.reserved.split(' ').any(|word| word == self.folded(name));
        let underscores = name.contains("__") || name.ends_with('_');
        begins && !reserved && !(self.lone_underscores && underscores)
    }

    /// A name that the language takes, made of another one; the first, or one that has a number.
    fn made_of(&self, name: &str, number: usize) -> String {
        let mut made = if name.starts_with(|letter: char| letter.is_ascii_digit()) {
            format!("x{name}")
        } else {
            name.to_string()
        };
        if self.lone_underscores {
            let parts = made.split('_').filter(|part| !part.is_empty());
            made = parts.collect::<Vec<&str>>().join("_");
        }
        match (number, self.takes(&made)) {
            (0, true) => made,
            (0, false) => format!("{made}_x"),
            _ => format!("{made}_x{number}"),
        }
    }
}

impl Identifiers {
    /// A name that the language takes is kept, unless one before it is the same there.
    pub fn new(prefix: &[Row], names: &Names, rules: &Rules) -> Identifiers {
        let variables = || prefix.iter().map(|row| (row.argument, names.of(row.argument)));
        let mut taken = BTreeSet::new();
        let mut known: BTreeMap<usize, String> = variables()
            .filter(|(_, name)| rules.takes(name) && taken.insert(rules.folded(name)))
            .collect();
        let mut renamed = Vec::new();
        for (x, name) in variables().filter(|(x, _)| !known.contains_key(x)).collect::<Vec<_>>() {
            let mut made = (0..).map(|number| rules.made_of(&name, number));
            let free = made.find(|made| rules.takes(made) && taken.insert(rules.folded(made)));
            let free = free.expect("numbers enough");
            renamed.push((name, free.clone()));
            known.insert(x, free);
        }
        Identifiers { names: known, renamed }
    }

    pub fn of(&self, x: usize) -> String {
        self.names.get(&x).cloned().unwrap_or_default()
    }

    /// What was renamed, a line for each.
    pub fn told(&self) -> Vec<String> {
        self.renamed.iter().map(|(name, made)| format!("{made} is the variable {name}")).collect()
    }
}
