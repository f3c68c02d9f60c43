//! A circuit whose tree is too large, with a new variable for each shared gate
//! that is worth one.
//!
//! In negation normal form a gate and its negation are two nodes, each of which
//! only occurs positively. A node that is defined has a variable that implies it,
//! existential and innermost, and stands for it wherever it is used. Whatever
//! the other variables are, some values of the new ones make the whole true
//! exactly if the circuit is, so the question's truth is the same.

use super::circuit::{Circuit, Literal, Target};
use super::statement::Gate;
use super::unfold::{uses_first, written_out, Piece};
use super::Fault;
use crate::format::Format;
use crate::formula::{Row, AND, EXISTS, NEGATIVE, OR, POSITIVE};
use std::collections::HashSet;

/// A circuit's nodes, two for each gate: as it is, and negated.
pub struct Defined<'a> {
    circuit: &'a Circuit,
    /// The rows of each node, with what is defined in one row.
    sizes: Vec<u128>,
    /// The nodes that get a variable.
    pub nodes: Vec<usize>,
    /// For each node its variable, 0 if it gets none.
    variables: Vec<usize>,
}

fn node_of(literal: &Literal) -> Option<usize> {
    match literal.target {
        Target::Gate(gate) => Some(2 * gate + usize::from(literal.negated)),
        Target::Variable(_) => None,
    }
}

/// The literals that a node is written with, and how many operators.
fn pieces(circuit: &Circuit, node: usize) -> (Vec<Literal>, usize) {
    let written = written_out(&circuit.gates[node / 2].what, node % 2 == 1);
    let all = written.len();
    let literals = written.into_iter().filter_map(|piece| match piece {
        Piece::Literal(literal) => Some(literal),
        Piece::Row(_) => None,
    });
    let literals: Vec<Literal> = literals.collect();
    let operators = all - literals.len();
    (literals, operators)
}

impl<'a> Defined<'a> {
    pub fn of(circuit: &'a Circuit) -> Result<Defined<'a>, Fault> {
        let order = uses_first(&circuit.gates)?;
        let nodes = 2 * circuit.gates.len();
        let mut uses = vec![0u128; nodes];
        if let Some(output) = node_of(&circuit.output.what) {
            uses[output] = 1;
        }
        for node in order.iter().rev().flat_map(|gate| [2 * gate, 2 * gate + 1]) {
            if uses[node] > 0 {
                pieces(circuit, node).0.iter().filter_map(node_of).for_each(|used| uses[used] += 1);
            }
        }
        let (variables, sizes) = (vec![0; nodes], vec![0; nodes]);
        let mut defined = Defined { circuit, sizes, nodes: Vec::new(), variables };
        for node in order.iter().flat_map(|gate| [2 * gate, 2 * gate + 1]) {
            if uses[node] > 0 {
                defined.measure(node, uses[node]);
            }
        }
        Ok(defined)
    }

    /// The size of a node whose inputs have theirs; it is defined where that takes fewer rows.
    fn measure(&mut self, node: usize, uses: u128) {
        let (literals, operators) = pieces(self.circuit, node);
        let add = |total: u128, literal: &Literal| total.saturating_add(self.rows_of(literal));
        let size = literals.iter().fold(operators as u128, add);
        self.sizes[node] = size;
        let copied = uses.saturating_mul(size);
        if uses > 1 && copied > uses.saturating_add(size).saturating_add(2) {
            self.nodes.push(node);
            self.variables[node] = usize::MAX;
        }
    }

    fn rows_of(&self, literal: &Literal) -> u128 {
        match node_of(literal) {
            Some(node) if self.variables[node] == 0 => self.sizes[node],
            _ => 1,
        }
    }

    /// AND of the output and the definitions, each an OR of a negated variable and a node.
    pub fn size(&self) -> u128 {
        let definition =
            |total: u128, node: &usize| total.saturating_add(self.sizes[*node]).saturating_add(2);
        self.nodes.iter().fold(1 + self.rows_of(&self.circuit.output.what), definition)
    }

    /// The gate with the most rows, and these.
    pub fn largest(&self) -> Option<(&str, u128)> {
        let (node, size) = self.sizes.iter().enumerate().max_by_key(|(_, size)| **size)?;
        Some((self.circuit.gate_name(node / 2), *size))
    }

    /// Gives each defined node the lowest number that the prefix leaves, at its end, and a name.
    pub fn number(&mut self, prefix: &mut Vec<Row>, format: &Format) -> Vec<(usize, String)> {
        let bound: HashSet<usize> = prefix.iter().map(|row| row.argument).collect();
        let free = (1..=format.most_variables).filter(|number| !bound.contains(number));
        let mut named = Vec::new();
        for (&node, number) in self.nodes.iter().zip(free) {
            self.variables[node] = number;
            prefix.push(Row::new(EXISTS, number));
            named.push((number, self.circuit.new_name(node / 2, node % 2 == 1)));
        }
        named
    }

    /// The rows of the whole.
    pub fn rows(&self, prefix: &[Row]) -> Vec<Row> {
        let mut rows = vec![Row::new(AND, 1 + self.nodes.len())];
        self.unfold(vec![Piece::Literal(self.circuit.output.what)], prefix, &mut rows);
        for &node in &self.nodes {
            rows.push(Row::new(OR, 2));
            rows.push(Row::new(NEGATIVE, self.variables[node]));
            let gate = &self.circuit.gates[node / 2].what;
            self.unfold(reversed(gate, node % 2 == 1), prefix, &mut rows);
        }
        rows
    }

    /// Writes pieces, the next one last, and what they stand for.
    fn unfold(&self, mut pieces: Vec<Piece>, prefix: &[Row], rows: &mut Vec<Row>) {
        while let Some(piece) = pieces.pop() {
            match piece {
                Piece::Row(row) => rows.push(row),
                Piece::Literal(Literal { target: Target::Variable(x), negated }) => {
                    let kind = if negated { NEGATIVE } else { POSITIVE };
                    rows.push(Row::new(kind, prefix[x].argument));
                }
                Piece::Literal(Literal { target: Target::Gate(gate), negated }) => {
                    match self.variables[2 * gate + usize::from(negated)] {
                        0 => pieces.extend(reversed(&self.circuit.gates[gate].what, negated)),
                        variable => rows.push(Row::new(POSITIVE, variable)),
                    }
                }
            }
        }
    }
}

fn reversed(gate: &Gate<Literal>, negated: bool) -> Vec<Piece> {
    let mut pieces = written_out(gate, negated);
    pieces.reverse();
    pieces
}
