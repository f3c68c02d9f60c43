//! What the variables of a sheet are called: names where they are known, else
//! their numbers.

use crate::arguments::{number, Misuse};
use crate::formula::{Row, NEGATIVE};
use plumanchor::Solved;
use std::collections::{BTreeMap, HashMap};

#[derive(Clone, Debug, Default, PartialEq, Eq)]
pub struct Names(BTreeMap<usize, String>);

/// Letters, digits and underscores, as in QCIR.
pub fn is_name(word: &str) -> bool {
    !word.is_empty() && word.bytes().all(|byte| byte.is_ascii_alphanumeric() || byte == b'_')
}

/// How many names a message lists.
const MOST_LISTED: usize = 8;

impl Names {
    pub fn new(names: impl IntoIterator<Item = (usize, String)>) -> Names {
        Names(names.into_iter().collect())
    }

    pub fn is_empty(&self) -> bool {
        self.0.is_empty()
    }

    pub fn of(&self, variable: usize) -> String {
        self.0.get(&variable).cloned().unwrap_or_else(|| variable.to_string())
    }

    /// The variable that a word names: by its name where names are known, else by its number.
    pub fn variable(&self, word: &str) -> Result<usize, Misuse> {
        if self.is_empty() {
            return number("a variable", word);
        }
        if let Some((&variable, _)) = self.0.iter().find(|(_, name)| *name == word) {
            return Ok(variable);
        }
        // A variable that has no name goes by its number.
        match word.parse().map(|variable| (variable, self.0.get(&variable))) {
            Ok((variable, None)) if word.bytes().all(|byte| byte.is_ascii_digit()) => Ok(variable),
            Ok((variable, Some(name))) => {
                Err(Misuse::new(format!("variable {variable} is called '{name}'")))
            }
            _ => Err(Misuse::new(format!("no variable is called '{word}': {}", self.listed()))),
        }
    }

    fn listed(&self) -> String {
        let names: Vec<&str> = self.0.values().take(MOST_LISTED).map(String::as_str).collect();
        let more = if self.0.len() > MOST_LISTED { ", .." } else { "" };
        format!("there are {}{more}", names.join(", "))
    }

    /// The variables that are called by numbers, by these.
    pub fn numbers(&self) -> HashMap<usize, usize> {
        self.0.iter().filter_map(|(x, name)| Some((name.parse().ok()?, *x))).collect()
    }

    /// A literal's row: the variable, or "not" and the variable.
    pub fn literal(&self, row: Row) -> String {
        let sign = if row.kind == NEGATIVE { "not " } else { "" };
        format!("{sign}{}", self.of(row.argument))
    }

    /// The program's line, without its end, with the name of a variable that it stopped at.
    pub fn line(&self, solved: &Solved) -> String {
        match solved.verdict {
            Some(_) => solved.line(),
            None => {
                let Solved { settled, expanded, variable, .. } = *solved;
                format!("stopped {settled} {expanded} {}", self.of(variable))
            }
        }
    }

    /// A number and a name a line.
    pub fn text(&self) -> String {
        self.0.iter().map(|(variable, name)| format!("{variable} {name}\n")).collect()
    }

    /// Reads what `text` writes.
    pub fn read(text: &[u8]) -> Result<Names, String> {
        let text = std::str::from_utf8(text).map_err(|_| "not a text".to_string())?;
        let mut names = Names::default();
        let mut variables = HashMap::new();
        for (line, at) in text.lines().zip(1..) {
            let words: Vec<&str> = line.split_whitespace().collect();
            let pair = match words[..] {
                [number, name] if is_name(name) => number.parse().ok().zip(Some(name.to_string())),
                _ => None,
            };
            let (variable, name) =
                pair.ok_or_else(|| format!("line {at}: a number and a name, please"))?;
            if let Some(other) = variables.insert(name.clone(), variable) {
                return Err(format!("line {at}: '{name}' is the name of {other} already"));
            }
            if names.0.insert(variable, name).is_some() {
                return Err(format!("line {at}: {variable} has a name already"));
            }
        }
        Ok(names)
    }

    /// The same with more of them.
    pub fn with(mut self, more: Vec<(usize, String)>) -> Names {
        self.0.extend(more);
        self
    }

    /// Only the names of these variables.
    pub fn only(&self, prefix: &[Row]) -> Names {
        let kept = prefix.iter().filter_map(|row| self.0.get_key_value(&row.argument));
        Names::new(kept.map(|(variable, name)| (*variable, name.clone())))
    }

    /// A number that has a name and is none of these variables.
    pub fn beyond(&self, prefix: &[Row]) -> Option<usize> {
        self.0.keys().copied().find(|&variable| prefix.iter().all(|row| row.argument != variable))
    }

    /// The number of a variable without a name that has another one's name, if any: two variables
    /// would go by one word.
    pub fn clash(&self, prefix: &[Row]) -> Option<usize> {
        let unnamed = prefix.iter().map(|row| row.argument).filter(|x| !self.0.contains_key(x));
        unnamed.into_iter().find(|x| self.0.values().any(|name| *name == x.to_string()))
    }
}
