//! N1: QDIMACS 1.1 read into a sheet, by its lines and words.

use super::{Answer, Binding, Formula, Node, Quantifier, Reading, Refusal, Variable};
use std::collections::BTreeSet;

/// What a word below the header is.
#[derive(Clone, PartialEq, Eq)]
enum Word {
    /// e or a.
    Opens(Quantifier),
    /// A whole number: whether it is negative, and its digits without leading zeros.
    Number(bool, String),
}

/// A text by its lists, each without the 0 that ends it.
#[derive(Default)]
struct Lists {
    quantified: Vec<(Quantifier, Vec<String>)>,
    clauses: Vec<Vec<(bool, String)>>,
}

fn words(text: &str) -> impl Iterator<Item = &str> {
    text.split([' ', '\t', '\r', '\n']).filter(|word| !word.is_empty())
}

/// The digits of an unsigned number without leading zeros: none for 0.
fn digits(word: &str) -> Option<String> {
    let all_digits = !word.is_empty() && word.bytes().all(|byte| byte.is_ascii_digit());
    all_digits.then(|| word.trim_start_matches('0').to_string())
}

/// The number that these digits are, if it is no higher than `most`.
fn number_up_to(most: usize, digits: &str) -> Option<usize> {
    let value = if digits.is_empty() { Some(0) } else { digits.parse().ok() };
    value.filter(|&value| value <= most)
}

fn word(word: &str) -> Option<Word> {
    match word {
        "e" => Some(Word::Opens(Quantifier::Exists)),
        "a" => Some(Word::Opens(Quantifier::ForAll)),
        _ => match word.strip_prefix('-') {
            None => digits(word).map(|digits| Word::Number(false, digits)),
            Some(rest) => digits(rest)
                .filter(|digits| !digits.is_empty())
                .map(|digits| Word::Number(true, digits)),
        },
    }
}

/// The header's words and the text below its line.
fn header(text: &str) -> Option<(Vec<&str>, &str)> {
    let mut rest = text;
    loop {
        let (line, below) = rest.split_once('\n').unwrap_or((rest, ""));
        let skipped = line.starts_with('c') || words(line).next().is_none();
        if !skipped {
            return Some((words(line).collect(), below));
        }
        if below.is_empty() {
            return None;
        }
        rest = below;
    }
}

impl Lists {
    /// 16 where the words are no lists.
    fn of(below: &str) -> Option<Lists> {
        let mut lists = Lists::default();
        let mut words = words(below).map(word);
        while let Some(first) = words.next() {
            match first? {
                Word::Opens(quantifier) if lists.clauses.is_empty() => {
                    let list = list(&mut words, Vec::new())?;
                    let unsigned =
                        |(negative, digits): (bool, String)| (!negative).then_some(digits);
                    let variables = list.into_iter().map(unsigned).collect::<Option<_>>()?;
                    lists.quantified.push((quantifier, variables));
                }
                Word::Opens(_) => return None,
                Word::Number(_, digits) if digits.is_empty() => lists.clauses.push(Vec::new()),
                Word::Number(negative, digits) => {
                    lists.clauses.push(list(&mut words, vec![(negative, digits)])?);
                }
            }
        }
        Some(lists)
    }

    /// 17 where a variable is above the header's count.
    fn numbers(self, most: usize) -> Option<Numbers> {
        let number = |digits: String| number_up_to(most, &digits);
        let signed = |(negative, digits): (bool, String)| {
            number(digits).map(|var| Node::Lit { positive: !negative, var })
        };
        let mut prefix = Vec::new();
        for (quantifier, variables) in self.quantified {
            for digits in variables {
                prefix.push((quantifier, number(digits)?));
            }
        }
        let clause =
            |literals: Vec<(bool, String)>| literals.into_iter().map(signed).collect::<Option<_>>();
        let clauses = self.clauses.into_iter().map(clause).collect::<Option<_>>()?;
        Some(Numbers { prefix, clauses })
    }
}

/// The numbers of a list up to the 0 that ends it.
fn list(
    words: &mut impl Iterator<Item = Option<Word>>,
    mut list: Vec<(bool, String)>,
) -> Option<Vec<(bool, String)>> {
    loop {
        match words.next()?? {
            Word::Opens(_) => return None,
            Word::Number(_, digits) if digits.is_empty() => return Some(list),
            Word::Number(negative, digits) => list.push((negative, digits)),
        }
    }
}

struct Numbers {
    prefix: Vec<Binding>,
    clauses: Vec<Vec<Node>>,
}

impl Numbers {
    fn is_bound_twice(&self) -> bool {
        let mut seen = BTreeSet::new();
        !self.prefix.iter().all(|row| seen.insert(row.1))
    }

    /// Free variables are exists rows in front, by number.
    fn formula(self) -> Formula {
        let bound: BTreeSet<Variable> = self.prefix.iter().map(|row| row.1).collect();
        let matrix = Node::and(self.clauses.into_iter().map(Node::or).collect());
        let free = matrix.variables().into_iter().filter(|var| !bound.contains(var));
        let free = free.map(|var| (Quantifier::Exists, var));
        Formula { prefix: free.chain(self.prefix).collect(), matrix }
    }
}

impl Reading {
    /// QDIMACS in: the sheet's length.
    pub fn qdimacs(&self, text: &[u8], output: &mut [u8]) -> Answer<usize> {
        self.format.answer(self.formula_of_text(text, output.len()), output)
    }

    fn formula_of_text(&self, text: &[u8], room: usize) -> Result<Formula, Refusal> {
        // A byte that is none of the format's becomes a letter that is none of them.
        let text: String = text.iter().map(|&byte| char::from(byte)).collect();
        let (header, below) = header(&text).ok_or((15, 0))?;
        let ["p", "cnf", variables, clauses] = header[..] else {
            return Err((15, 0));
        };
        let variables =
            digits(variables).and_then(|n| number_up_to(self.format.most_variables, &n));
        let (variables, clauses) = variables.zip(digits(clauses)).ok_or((15, 0))?;
        let lists = Lists::of(below).ok_or((16, 0))?;
        let count = lists.clauses.len();
        let numbers = lists.numbers(variables).ok_or((17, 0))?;
        if number_up_to(count, &clauses) != Some(count) {
            return Err((17, 0));
        }
        if numbers.is_bound_twice() {
            return Err((6, 0));
        }
        let formula = numbers.formula();
        let nodes = formula.matrix.rows();
        if nodes > self.format.most_nodes {
            return Err((2, 0));
        }
        if room < self.format.sheet_length(formula.prefix.len(), nodes) {
            return Err((13, 0));
        }
        Ok(formula)
    }
}
