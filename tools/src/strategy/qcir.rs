//! A strategy as a circuit of QCIR-G14: the side's variables are gates, their functions, and the
//! output is the matrix with these in it. So it is a formula of the other side's variables alone,
//! with the verdict for which the strategy wins.

use super::circuit::{Circuit, Edge, Node, Seen};
use super::{first_line, Strategy};
use crate::formula::AND;
use crate::names::Names;
use plumanchor::Quantifier;
use std::collections::BTreeSet;

pub fn write(strategy: &Strategy) -> String {
    let Strategy { side, formula, names, functions } = strategy;
    let others: Vec<String> = strategy.others().iter().map(|&x| names.of(x)).collect();
    let mut text = format!("#QCIR-G14\n# {}\n", first_line(*side));
    if !others.is_empty() {
        let quantifier = if *side == Quantifier::Exists { "forall" } else { "exists" };
        text += &format!("{quantifier}({})\n", others.join(", "));
    }
    let taken = formula.prefix.iter().map(|row| names.of(row.argument)).collect();
    let (circuit, words, text_of) = (Circuit::new(), Vec::new(), String::new());
    let mut gates = Gates { names, circuit, words, taken, count: 0, text: text_of };
    for (x, function) in functions {
        let edge = gates.circuit.of_rows(function);
        gates.below(edge);
        gates.define(&names.of(*x), edge);
    }
    gates.text += "# the matrix\n";
    let edge = gates.circuit.of_rows(&formula.matrix);
    gates.below(edge);
    gates.named(edge.gate);
    let output = gates.word(edge);
    text + &format!("output({output})\n") + &gates.text
}

/// The gates that are written so far.
struct Gates<'a> {
    names: &'a Names,
    circuit: Circuit,
    /// What stands for each.
    words: Vec<Option<String>>,
    /// What variables are called.
    taken: BTreeSet<String>,
    /// How many names were made.
    count: usize,
    text: String,
}

impl Gates<'_> {
    /// Writes what an edge needs below it.
    fn below(&mut self, edge: Edge) {
        self.words.resize(self.circuit.nodes.len(), None);
        let needed = self.circuit.needed(edge);
        for gate in (0..edge.gate).filter(|&gate| needed[gate]) {
            self.named(gate);
        }
    }

    /// Writes a gate that has no name yet, unless it is a variable.
    fn named(&mut self, gate: usize) {
        if self.words[gate].is_some() {
            return;
        }
        let name = match self.circuit.nodes[gate] {
            Node::Variable(x) => self.names.of(x),
            _ => {
                let name = self.free();
                self.define(&name, Edge { gate, negated: false });
                name
            }
        };
        self.words[gate] = Some(name);
    }

    /// A name that nothing else has.
    fn free(&mut self) -> String {
        loop {
            self.count += 1;
            let name = format!("g{}", self.count);
            if !self.taken.contains(&name) {
                return name;
            }
        }
    }

    /// What stands for an edge whose gate has a name.
    fn word(&self, edge: Edge) -> String {
        let sign = if edge.negated { "-" } else { "" };
        format!("{sign}{}", self.words[edge.gate].as_deref().unwrap_or_default())
    }

    /// The gate of a name that says what an edge says, by what stands for its inputs.
    fn define(&mut self, name: &str, edge: Edge) {
        let (operator, inputs) = match self.circuit.seen(edge) {
            Seen::Constant(value) => (if value { "and" } else { "or" }, Vec::new()),
            Seen::Literal(x, true) => ("and", vec![self.names.of(x)]),
            Seen::Literal(x, false) => ("and", vec![format!("-{}", self.names.of(x))]),
            Seen::Operator(kind, inputs) => {
                let words = inputs.iter().map(|&input| self.word(input)).collect();
                (if kind == AND { "and" } else { "or" }, words)
            }
            Seen::Xor(inputs, negated) => ("xor", self.two(&inputs, negated)),
        };
        self.text += &format!("{name} = {operator}({})\n", inputs.join(", "));
    }

    /// The two inputs of the last gate of an exclusive or, with gates for all but the last of its
    /// inputs.
    fn two(&mut self, inputs: &[Edge], negated: bool) -> Vec<String> {
        let mut words = inputs.iter().map(|&input| self.word(input)).collect::<Vec<String>>();
        while words.len() > 2 {
            let name = self.free();
            let rest = words.split_off(2);
            self.text += &format!("{name} = xor({})\n", words.join(", "));
            words = [name].into_iter().chain(rest).collect();
        }
        if negated {
            words[0] = format!("-{}", words[0]);
        }
        words
    }
}
