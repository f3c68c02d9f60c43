//! One line of QCIR.

use crate::formula::{AND, EXISTS, FOR_ALL, OR};
use crate::names::is_name;

/// A name with or without a minus sign.
#[derive(Clone, Debug, PartialEq, Eq)]
pub struct Signed {
    pub name: String,
    pub negated: bool,
}

/// A gate over inputs of some kind: names at first, then what they stand for.
#[derive(Clone, Debug, PartialEq, Eq)]
pub enum Gate<T> {
    /// AND or OR, by its row's kind.
    Operator(u8, Vec<T>),
    /// If the first then the second, else the third.
    Choice([T; 3]),
}

impl<T> Gate<T> {
    pub fn inputs(&self) -> &[T] {
        match self {
            Gate::Operator(_, inputs) => inputs,
            Gate::Choice(inputs) => inputs,
        }
    }

    pub fn try_map<U, E>(&self, change: impl Fn(&T) -> Result<U, E>) -> Result<Gate<U>, E> {
        Ok(match self {
            Gate::Operator(kind, inputs) => {
                Gate::Operator(*kind, inputs.iter().map(change).collect::<Result<_, E>>()?)
            }
            Gate::Choice([c, t, e]) => Gate::Choice([change(c)?, change(t)?, change(e)?]),
        })
    }
}

#[derive(Debug, PartialEq, Eq)]
pub enum Statement {
    Free(Vec<String>),
    /// The kind of the quantifier rows, and their variables.
    Quantified(u8, Vec<String>),
    Output(Signed),
    Gate(String, Gate<Signed>),
}

/// The statement of a line without blanks around it, or why it is none.
pub fn read(line: &str) -> Result<Statement, String> {
    let (head, inside) = line
        .strip_suffix(')')
        .and_then(|line| line.split_once('('))
        .ok_or("no statement: something(..) or name = something(..)")?;
    match head.split_once('=') {
        None => declaration(head.trim(), inside),
        Some((name, kind)) => Ok(Statement::Gate(plain(name)?, gate(kind.trim(), inside)?)),
    }
}

fn declaration(head: &str, inside: &str) -> Result<Statement, String> {
    match head.to_ascii_lowercase().as_str() {
        "free" => Ok(Statement::Free(variables(inside)?)),
        "exists" => Ok(Statement::Quantified(EXISTS, variables(inside)?)),
        "forall" => Ok(Statement::Quantified(FOR_ALL, variables(inside)?)),
        "output" => Ok(Statement::Output(signed(inside)?)),
        _ => Err(format!("'{head}' is none of free, exists, forall and output")),
    }
}

fn gate(kind: &str, inside: &str) -> Result<Gate<Signed>, String> {
    match kind.to_ascii_lowercase().as_str() {
        "and" => Ok(Gate::Operator(AND, inputs(inside)?)),
        "or" => Ok(Gate::Operator(OR, inputs(inside)?)),
        "ite" => Ok(Gate::Choice(exactly(inputs(inside)?)?)),
        "xor" => {
            let [a, b] = exactly(inputs(inside)?)?;
            let not_b = Signed { negated: !b.negated, ..b.clone() };
            Ok(Gate::Choice([a, not_b, b]))
        }
        "exists" | "forall" => {
            Err("a gate with a quantifier: only prenex circuits can be written as sheets".into())
        }
        _ => Err(format!("'{kind}' is none of and, or, xor and ite")),
    }
}

/// A list, which may be empty.
fn inputs(inside: &str) -> Result<Vec<Signed>, String> {
    if inside.trim().is_empty() {
        return Ok(Vec::new());
    }
    inside.split(',').map(signed).collect()
}

fn exactly<const COUNT: usize>(inputs: Vec<Signed>) -> Result<[Signed; COUNT], String> {
    let found = inputs.len();
    inputs.try_into().map_err(|_| format!("{found} inputs and not {COUNT}"))
}

fn variables(inside: &str) -> Result<Vec<String>, String> {
    inside.split(',').map(plain).collect()
}

fn signed(word: &str) -> Result<Signed, String> {
    let word = word.trim();
    let negation = word.strip_prefix('-');
    Ok(Signed { name: plain(negation.unwrap_or(word))?, negated: negation.is_some() })
}

fn plain(word: &str) -> Result<String, String> {
    let word = word.trim();
    if !is_name(word) {
        return Err(format!("'{word}' is no name: letters, digits and underscores"));
    }
    Ok(word.to_string())
}
