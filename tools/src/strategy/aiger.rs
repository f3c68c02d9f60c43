//! A strategy as an and-inverter graph, in AIGER's ASCII format: the other side's variables are
//! inputs, its own are outputs.

use super::circuit::{Circuit, Edge, Node};
use super::{first_line, Strategy};
use std::collections::{BTreeMap, HashMap};

pub fn write(strategy: &Strategy) -> String {
    let others = strategy.others();
    let mut graph = Graph {
        inputs: others.len(),
        ands: Vec::new(),
        known: HashMap::new(),
        variables: others.iter().zip(1..).map(|(&x, number)| (x, 2 * number)).collect(),
        literals: Vec::new(),
    };
    let mut circuit = Circuit::new();
    for (x, function) in &strategy.functions {
        let edge = circuit.of_rows(function);
        graph.take(&circuit, edge);
        graph.variables.insert(*x, graph.literal(edge));
    }
    let own = strategy.owned();
    let (inputs, outputs, ands) = (others.len(), own.len(), graph.ands.len());
    let mut text = format!("aag {} {inputs} 0 {outputs} {ands}\n", inputs + ands);
    text.extend((1..=inputs).map(|number| format!("{}\n", 2 * number)));
    text.extend(own.iter().map(|x| format!("{}\n", graph.variables[x])));
    for ([one, other], number) in graph.ands.iter().zip(inputs + 1..) {
        text += &format!("{} {one} {other}\n", 2 * number);
    }
    let name = |x: &usize| strategy.names.of(*x);
    text.extend(others.iter().enumerate().map(|(at, x)| format!("i{at} {}\n", name(x))));
    text.extend(own.iter().enumerate().map(|(at, x)| format!("o{at} {}\n", name(x))));
    text + &format!("c\n{}\n", first_line(strategy.side))
}

/// A literal is twice a number, and one more for a negation; 0 is false. Inputs have the first
/// numbers, then come the gates, of two literals each, the higher one first.
struct Graph {
    inputs: usize,
    ands: Vec<[usize; 2]>,
    known: HashMap<[usize; 2], usize>,
    /// The literal of each variable that is known.
    variables: BTreeMap<usize, usize>,
    /// That of each gate of the circuit that was needed so far.
    literals: Vec<Option<usize>>,
}

impl Graph {
    /// The gates that an edge needs. The variables that they read are known.
    fn take(&mut self, circuit: &Circuit, edge: Edge) {
        self.literals.resize(circuit.nodes.len(), None);
        for (gate, needed) in circuit.needed(edge).into_iter().enumerate() {
            if !needed || self.literals[gate].is_some() {
                continue;
            }
            let literal = match &circuit.nodes[gate] {
                Node::True => 1,
                Node::Variable(x) => self.variables.get(x).copied().unwrap_or_default(),
                Node::And(inputs) => {
                    inputs.iter().fold(1, |all, &input| self.and(all, self.literal(input)))
                }
                Node::Xor(inputs) => {
                    inputs.iter().fold(0, |one, &input| self.xor(one, self.literal(input)))
                }
            };
            self.literals[gate] = Some(literal);
        }
    }

    fn literal(&self, edge: Edge) -> usize {
        self.literals[edge.gate].unwrap_or_default() ^ usize::from(edge.negated)
    }

    fn and(&mut self, one: usize, other: usize) -> usize {
        match [one.max(other), one.min(other)] {
            [_, 0] => 0,
            [literal, 1] => literal,
            [higher, lower] if higher == lower => higher,
            [higher, lower] if higher ^ 1 == lower => 0,
            pair => *self.known.entry(pair).or_insert_with(|| {
                self.ands.push(pair);
                2 * (self.inputs + self.ands.len())
            }),
        }
    }

    /// Not both, and not neither.
    fn xor(&mut self, one: usize, other: usize) -> usize {
        let (both, neither) = (self.and(one, other), self.and(one ^ 1, other ^ 1));
        self.and(both ^ 1, neither ^ 1)
    }
}
