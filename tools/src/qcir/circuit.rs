//! A whole text of QCIR, with every name resolved.

use super::statement::{self, Gate, Signed, Statement};
use super::Fault;
use crate::format::Format;
use crate::formula::{Row, AND, EXISTS};
use crate::names::Names;
use std::collections::HashMap;

/// What a name stands for, by its place among the variables or the gates.
#[derive(Clone, Copy, Debug, PartialEq, Eq)]
pub enum Target {
    Variable(usize),
    Gate(usize),
}

#[derive(Clone, Copy, Debug, PartialEq, Eq)]
pub struct Literal {
    pub target: Target,
    pub negated: bool,
}

/// Something that a line of the text says.
pub struct Said<T> {
    pub line: usize,
    pub what: T,
}

struct Variable {
    name: String,
    quantifier: u8,
    line: usize,
}

pub struct Circuit {
    variables: Vec<Variable>,
    pub output: Said<Literal>,
    pub gates: Vec<Said<Gate<Literal>>>,
    /// What the gates are called.
    names: Vec<String>,
}

/// The statements so far, in the order that the format gives them: free,
/// quantifiers, output, gates.
#[derive(Default)]
struct Lines {
    variables: Vec<Variable>,
    output: Option<Said<Signed>>,
    gates: Vec<Said<Gate<Signed>>>,
    names: Vec<String>,
    meanings: HashMap<String, Target>,
}

impl Circuit {
    pub fn read(text: &[u8]) -> Result<Circuit, Fault> {
        let (first, below) = text.split_at(text.iter().take_while(|&&byte| byte != b'\n').count());
        header(&String::from_utf8_lossy(first))?;
        let (statements, last_line) = statements(below)?;
        let mut read = Lines::default();
        for Said { line, what } in statements {
            let statement = statement::read(&what).map_err(|why| Fault::new(line, why))?;
            read.take(statement, line).map_err(|why| Fault::new(line, why))?;
        }
        read.resolved(last_line)
    }

    /// What a literal is called, or its negation.
    fn called(&self, literal: &Literal, negated: bool) -> String {
        let name = match literal.target {
            Target::Variable(at) => &self.variables[at].name,
            Target::Gate(at) => &self.names[at],
        };
        let sign = if literal.negated != negated { "-" } else { "" };
        format!("{sign}{name}")
    }

    pub fn gate_name(&self, gate: usize) -> &str {
        &self.names[gate]
    }

    /// A name for the variable that stands for a gate or its negation: the gate's, or one that
    /// nothing else has.
    pub fn new_name(&self, gate: usize, negated: bool) -> String {
        if !negated {
            return self.names[gate].clone();
        }
        let mut name = format!("not_{}", self.names[gate]);
        while self
            .variables
            .iter()
            .map(|variable| &variable.name)
            .chain(&self.names)
            .any(|known| *known == name)
        {
            name.push('_');
        }
        name
    }

    pub fn output_name(&self) -> [String; 1] {
        [self.called(&self.output.what, false)]
    }

    /// What the children of an output are called that is AND.
    pub fn guards(&self) -> Vec<String> {
        let Literal { target: Target::Gate(output), negated } = self.output.what else {
            return Vec::new();
        };
        match &self.gates[output].what {
            Gate::Operator(kind, inputs) if (*kind == AND) != negated => {
                inputs.iter().map(|input| self.called(input, negated)).collect()
            }
            _ => Vec::new(),
        }
    }

    /// The prefix. Variables that are called by numbers of the format keep them;
    /// if any is not, all are numbered from 1 in their order.
    pub fn numbered(&self, format: &Format) -> Result<(Vec<Row>, Names), Fault> {
        let most = format.most_variables;
        if let Some(variable) = self.variables.get(most) {
            let all = self.variables.len();
            let why = format!("{all} variables, and a {} sheet has at most {most}", format.name);
            return Err(Fault::new(variable.line, why));
        }
        let own = self.variables.iter().map(|variable| own_number(&variable.name, most));
        let own: Option<Vec<usize>> = own.collect();
        let numbers = own.unwrap_or_else(|| (1..=self.variables.len()).collect());
        let pairs = || self.variables.iter().zip(&numbers);
        let prefix = pairs().map(|(variable, &x)| Row::new(variable.quantifier, x)).collect();
        let names = pairs().map(|(variable, &x)| (x, variable.name.clone()));
        Ok((prefix, Names::new(names)))
    }
}

/// The number that a name is, written as a number is.
fn own_number(name: &str, most: usize) -> Option<usize> {
    let number: usize = name.parse().ok()?;
    (1..=most).contains(&number).then_some(number).filter(|number| number.to_string() == name)
}

/// The statements below the header, each with its first line, and the text's last line. A comment
/// ends with its line and may have any bytes; a list goes on until it is closed.
fn statements(below: &[u8]) -> Result<(Vec<Said<String>>, usize), Fault> {
    let mut statements: Vec<Said<String>> = Vec::new();
    let (mut open, mut last_line) = (false, 1);
    for (bytes, line) in below.split(|&byte| byte == b'\n').zip(1..) {
        if bytes.is_empty() {
            continue;
        }
        last_line = line;
        let code = bytes.split(|&byte| byte == b'#').next().unwrap_or_default();
        let words = std::str::from_utf8(code);
        let words = words.map_err(|_| Fault::new(line, "bytes that are no text"))?.trim();
        if words.is_empty() {
            continue;
        }
        match statements.last_mut().filter(|_| open) {
            Some(said) => said.what += &format!(" {words}"),
            None => statements.push(Said { line, what: words.to_string() }),
        }
        open = (open || words.contains('(')) && !words.contains(')');
    }
    match statements.last().filter(|_| open) {
        Some(said) => Err(Fault::new(said.line, "the list is not closed")),
        None => Ok((statements, last_line)),
    }
}

fn header(line: &str) -> Result<(), Fault> {
    let words: Vec<&str> = line.split_whitespace().collect();
    let is_number = |word: &str| word.bytes().all(|byte| byte.is_ascii_digit());
    match words[..] {
        ["#QCIR-G14"] => Ok(()),
        ["#QCIR-G14", highest] if is_number(highest) => Ok(()),
        _ => Err(Fault::new(1, "a QCIR text begins with #QCIR-G14 and at most one number")),
    }
}

impl Lines {
    fn take(&mut self, statement: Statement, line: usize) -> Result<(), String> {
        match statement {
            Statement::Free(_) if !self.variables.is_empty() => {
                Err("free variables come first".into())
            }
            Statement::Free(_) | Statement::Quantified(..) if self.output.is_some() => {
                Err("variables come before the output".into())
            }
            // Outermost exists: is there a way to set them?
            Statement::Free(names) => self.bind(EXISTS, names, line),
            Statement::Quantified(kind, names) => self.bind(kind, names, line),
            Statement::Output(_) if self.output.is_some() => Err("a second output".into()),
            Statement::Output(what) => {
                self.output = Some(Said { line, what });
                Ok(())
            }
            Statement::Gate(..) if self.output.is_none() => {
                Err("gates come after the output".into())
            }
            Statement::Gate(name, what) => {
                self.define(name.clone(), Target::Gate(self.gates.len()))?;
                self.names.push(name);
                self.gates.push(Said { line, what });
                Ok(())
            }
        }
    }

    fn bind(&mut self, quantifier: u8, names: Vec<String>, line: usize) -> Result<(), String> {
        for name in names {
            self.define(name.clone(), Target::Variable(self.variables.len()))?;
            self.variables.push(Variable { name, quantifier, line });
        }
        Ok(())
    }

    fn define(&mut self, name: String, target: Target) -> Result<(), String> {
        match self.meanings.insert(name.clone(), target) {
            None => Ok(()),
            Some(Target::Variable(_)) => Err(format!("'{name}' is a variable already")),
            Some(Target::Gate(_)) => Err(format!("'{name}' is a gate already")),
        }
    }

    fn resolved(self, last_line: usize) -> Result<Circuit, Fault> {
        let meaning = |line: usize, signed: &Signed| {
            let Signed { name, negated } = signed;
            let target = self.meanings.get(name).copied().ok_or_else(|| {
                Fault::new(
                    line,
                    format!("'{name}' is neither a variable nor a gate that is defined"),
                )
            })?;
            Ok(Literal { target, negated: *negated })
        };
        let output = self.output.as_ref().ok_or_else(|| Fault::new(last_line, "no output(..)"))?;
        let output = Said { line: output.line, what: meaning(output.line, &output.what)? };
        let mut gates = Vec::new();
        for Said { line, what } in &self.gates {
            gates.push(Said { line: *line, what: what.try_map(|input| meaning(*line, input))? });
        }
        Ok(Circuit { variables: self.variables, output, gates, names: self.names })
    }
}
