//! QCIR-G14, the QBF community's format for circuits, prenex ones.
//!
//! `statement` reads a line, `circuit` collects the lines and says what each
//! name stands for, `unfold` writes the circuit as a tree in negation normal
//! form, `define` with variables for shared gates where the tree is too large,
//! `write` a sheet as a circuit.

mod circuit;
mod define;
mod statement;
mod unfold;
mod write;

use crate::format::Format;
use crate::formula::{Formula, Row};
use crate::names::Names;
use circuit::Circuit;
use define::Defined;
use std::fmt::{self, Display, Formatter};

pub use write::write;

/// What is wrong with a text, and in which line, counted from 1.
#[derive(Clone, Debug, PartialEq, Eq)]
pub struct Fault {
    pub line: usize,
    pub why: String,
}

impl Fault {
    fn new(line: usize, why: impl Into<String>) -> Fault {
        Fault { line, why: why.into() }
    }
}

impl Display for Fault {
    fn fmt(&self, to: &mut Formatter) -> fmt::Result {
        write!(to, "line {}: {}", self.line, self.why)
    }
}

/// What a circuit says, within the limits of a format.
pub struct Read {
    pub formula: Formula,
    pub names: Names,
    /// What the root's children are called.
    pub guards: Vec<String>,
    /// What is to be told of it.
    pub note: Option<String>,
}

/// The formula of a circuit: its tree, or if that is too large, one with variables for shared gates.
pub fn read(bytes: &[u8], format: &Format) -> Result<Read, Fault> {
    let circuit = Circuit::read(bytes)?;
    let (prefix, names) = circuit.numbered(format)?;
    let size = unfold::size(&circuit)?;
    if size > format.most_nodes as u128 {
        return defined(&circuit, size, prefix, names, format);
    }
    let matrix = unfold::rows(&circuit, &prefix, size as usize);
    let guards = circuit.guards();
    Ok(Read { formula: Formula { prefix, matrix }, names, guards, note: None })
}

fn defined(
    circuit: &Circuit,
    size: u128,
    mut prefix: Vec<Row>,
    names: Names,
    format: &Format,
) -> Result<Read, Fault> {
    let mut defined = Defined::of(circuit)?;
    let Format { name, most_nodes, most_variables, .. } = format;
    let at_least = if size == u128::MAX { "at least " } else { "" };
    let tree = format!(
        "as a tree it has {at_least}{size} nodes, and a {name} sheet has at most {most_nodes}"
    );
    let (shared, rows) = (defined.nodes.len(), defined.size());
    let variables = prefix.len() + shared;
    if rows > *most_nodes as u128 || variables > *most_variables {
        let largest = defined.largest();
        let largest = largest.map_or(String::new(), |(gate, size)| {
            format!("; the largest gate is '{gate}', with {size}")
        });
        let why = format!(
            "{tree}; with variables for {shared} shared gates it has {rows} nodes and {variables} \
             variables{largest}"
        );
        return Err(Fault::new(circuit.output.line, why));
    }
    let named = defined.number(&mut prefix, format);
    let guards =
        circuit.output_name().into_iter().chain(named.iter().map(|new| format!("{}=", new.1)));
    let guards = guards.collect();
    let matrix = defined.rows(&prefix);
    let note = format!(
        "{tree}; {shared} shared gates are variables, innermost, which makes {rows} nodes and keeps the truth"
    );
    let names = names.with(named);
    Ok(Read { formula: Formula { prefix, matrix }, names, guards, note: Some(note) })
}
