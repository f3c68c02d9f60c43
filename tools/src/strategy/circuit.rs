//! Functions as a circuit: equal parts are one gate, a part and its negation too, exclusive ors are
//! seen, and what its neighbours make superfluous is left out. An input of a gate has a lower number than the gate, so nothing recurses.

use super::Tree;
use crate::formula::{Row, AND, NEGATIVE, OR, POSITIVE};
use std::collections::{HashMap, HashSet};

/// A gate, or its negation.
#[derive(Clone, Copy, Debug, PartialEq, Eq, PartialOrd, Ord, Hash)]
pub struct Edge {
    pub gate: usize,
    pub negated: bool,
}

impl Edge {
    pub fn not(self) -> Edge {
        Edge { negated: !self.negated, ..self }
    }

    fn xor(self, negated: bool) -> Edge {
        Edge { negated: self.negated != negated, ..self }
    }
}

/// What a gate is.
#[derive(Clone, Debug, PartialEq, Eq, Hash)]
pub enum Node {
    True,
    Variable(usize),
    /// Two or more, of any sign; an OR is the negation of the AND of its negated inputs.
    And(Vec<Edge>),
    /// Two or more, none negated.
    Xor(Vec<Edge>),
}

/// What is read off an edge, with negations pushed to the inputs.
#[derive(Clone, Debug, PartialEq, Eq)]
pub enum Seen {
    Constant(bool),
    Literal(usize, bool),
    /// AND or OR, by its row's kind.
    Operator(u8, Vec<Edge>),
    /// The exclusive or, or its negation.
    Xor(Vec<Edge>, bool),
}

#[derive(Clone, Debug)]
pub struct Circuit {
    pub nodes: Vec<Node>,
    /// Where a node stands; the inputs of its key are in order.
    known: HashMap<Node, usize>,
}

impl Circuit {
    pub fn new() -> Circuit {
        Circuit { nodes: vec![Node::True], known: HashMap::from([(Node::True, 0)]) }
    }

    pub fn constant(value: bool) -> Edge {
        Edge { gate: 0, negated: !value }
    }

    pub fn literal(&mut self, x: usize, positive: bool) -> Edge {
        self.gate(Node::Variable(x)).xor(!positive)
    }

    /// The AND, with what is plainly superfluous left out.
    pub fn and(&mut self, inputs: Vec<Edge>) -> Edge {
        let mut inputs = inputs;
        loop {
            let Some(kept) = self.flat(&inputs) else { return Circuit::constant(false) };
            let known: HashSet<Edge> = kept.iter().copied().collect();
            let shorter: Vec<Edge> = kept.iter().map(|&input| self.beside(input, &known)).collect();
            if shorter == kept {
                return self.joined(kept);
            }
            inputs = shorter;
        }
    }

    /// The inputs of an AND with those of ANDs among them in their place, each once; nothing if one
    /// of them is false, or two are each other's negation.
    fn flat(&self, inputs: &[Edge]) -> Option<Vec<Edge>> {
        let mut todo: Vec<Edge> = inputs.iter().rev().copied().collect();
        let (mut flat, mut seen) = (Vec::new(), HashSet::new());
        while let Some(input) = todo.pop() {
            match &self.nodes[input.gate] {
                Node::True if input.negated => return None,
                Node::True => {}
                Node::And(more) if !input.negated => todo.extend(more.iter().rev()),
                _ if seen.contains(&input.not()) => return None,
                _ if seen.insert(input) => flat.push(input),
                _ => {}
            }
        }
        Some(flat)
    }

    /// What an input says beside others that hold: an OR that has one of them is true, and a child
    /// of it that one of them denies is left out.
    fn beside(&mut self, input: Edge, known: &HashSet<Edge>) -> Edge {
        let denied = match &self.nodes[input.gate] {
            Node::And(denied) if input.negated => denied,
            _ => return input,
        };
        if denied.iter().any(|child| known.contains(&child.not())) {
            return Circuit::constant(true);
        }
        let left: Vec<Edge> =
            denied.iter().copied().filter(|child| !known.contains(child)).collect();
        if left.len() == denied.len() {
            return input;
        }
        self.joined(left).not()
    }

    /// The AND of inputs of which none is superfluous.
    fn joined(&mut self, inputs: Vec<Edge>) -> Edge {
        match inputs[..] {
            [] => Circuit::constant(true),
            [only] => only,
            [one, other] => match self.exclusive(one, other) {
                Some([a, b]) => self.xor(a, b),
                None => self.gate(Node::And(inputs)),
            },
            _ => self.gate(Node::And(inputs)),
        }
    }

    pub fn or(&mut self, inputs: Vec<Edge>) -> Edge {
        self.and(inputs.into_iter().map(Edge::not).collect()).not()
    }

    /// The exclusive or, with those of its inputs written out.
    pub fn xor(&mut self, a: Edge, b: Edge) -> Edge {
        let mut inputs: Vec<Edge> = Vec::new();
        let mut negated = a.negated != b.negated;
        for gate in [a.gate, b.gate] {
            match &self.nodes[gate] {
                Node::True => negated = !negated,
                Node::Xor(more) => inputs.extend(more),
                _ => inputs.push(Edge { gate, negated: false }),
            }
        }
        // What stands there twice is 0.
        let mut kept: Vec<Edge> = Vec::new();
        for input in inputs {
            match kept.iter().position(|&known| known == input) {
                Some(at) => _ = kept.remove(at),
                None => kept.push(input),
            }
        }
        match kept[..] {
            [] => Circuit::constant(negated),
            [only] => only.xor(negated),
            _ => self.gate(Node::Xor(kept)).xor(negated),
        }
    }

    /// The two of which an AND of two says that exactly one holds: it is (a or b) and (not a or not b).
    fn exclusive(&self, one: Edge, other: Edge) -> Option<[Edge; 2]> {
        let pair = |edge: Edge| match &self.nodes[edge.gate] {
            Node::And(inputs) if edge.negated => <[Edge; 2]>::try_from(&inputs[..]).ok(),
            _ => None,
        };
        let ([a, b], [c, d]) = (pair(one)?, pair(other)?);
        let are_negations = (c, d) == (a.not(), b.not()) || (c, d) == (b.not(), a.not());
        (are_negations && a.gate != b.gate).then_some([a, b])
    }

    fn gate(&mut self, node: Node) -> Edge {
        let mut key = node.clone();
        if let Node::And(inputs) | Node::Xor(inputs) = &mut key {
            inputs.sort_unstable();
        }
        let next = self.nodes.len();
        let gate = *self.known.entry(key).or_insert(next);
        if gate == next {
            self.nodes.push(node);
        }
        Edge { gate, negated: false }
    }

    /// The function of a tree's rows.
    pub fn of_rows(&mut self, rows: &[Row]) -> Edge {
        // The subtrees behind the row that have no parent yet, the next one last.
        let mut open: Vec<Edge> = Vec::new();
        for row in rows.iter().rev() {
            let edge = if row.is_literal() {
                self.literal(row.argument, row.kind == POSITIVE)
            } else {
                let mut children = open.split_off(open.len() - row.children());
                children.reverse();
                if row.kind == AND {
                    self.and(children)
                } else {
                    self.or(children)
                }
            };
            open.push(edge);
        }
        open.pop().unwrap_or(Circuit::constant(true))
    }

    pub fn seen(&self, edge: Edge) -> Seen {
        match &self.nodes[edge.gate] {
            Node::True => Seen::Constant(!edge.negated),
            Node::Variable(x) => Seen::Literal(*x, !edge.negated),
            Node::And(inputs) if edge.negated => {
                Seen::Operator(OR, inputs.iter().map(|input| input.not()).collect())
            }
            Node::And(inputs) => Seen::Operator(AND, inputs.clone()),
            Node::Xor(inputs) => Seen::Xor(inputs.clone(), edge.negated),
        }
    }

    /// Whether each gate up to that of an edge is needed for it.
    pub fn needed(&self, edge: Edge) -> Vec<bool> {
        let mut needed = vec![false; edge.gate + 1];
        needed[edge.gate] = true;
        for gate in (0..=edge.gate).rev() {
            if let (true, Node::And(inputs) | Node::Xor(inputs)) = (needed[gate], &self.nodes[gate])
            {
                inputs.iter().for_each(|input| needed[input.gate] = true);
            }
        }
        needed
    }

    /// How many rows the tree of each gate has; the highest number stands for all above.
    fn sizes(&self) -> Vec<u128> {
        let mut sizes: Vec<u128> = Vec::with_capacity(self.nodes.len());
        for node in &self.nodes {
            let add = |total: u128, input: &Edge| total.saturating_add(sizes[input.gate]);
            sizes.push(match node {
                Node::True | Node::Variable(_) => 1,
                Node::And(inputs) => inputs.iter().fold(1, add),
                // From the last input on: three operators, and both sides twice.
                Node::Xor(inputs) => inputs[..inputs.len() - 1].iter().rev().fold(
                    sizes[inputs[inputs.len() - 1].gate],
                    |total, input| {
                        let both = total.saturating_add(sizes[input.gate]);
                        both.saturating_mul(2).saturating_add(3)
                    },
                ),
            });
        }
        sizes
    }

    /// The rows of an edge's tree, in negation normal form; how many there would be if that is more
    /// than so many.
    pub fn rows(&self, edge: Edge, most: usize) -> Result<Tree, u128> {
        let size = self.sizes()[edge.gate];
        if size > most as u128 {
            return Err(size);
        }
        let mut rows = Vec::with_capacity(size as usize);
        let mut pieces = vec![Piece::Edge(edge)];
        while let Some(piece) = pieces.pop() {
            match piece {
                Piece::Row(row) => rows.push(row),
                Piece::Edge(edge) => self.written_out(edge, &mut pieces),
                Piece::Xor(inputs, negated) => exclusive_pieces(&inputs, negated, &mut pieces),
            }
        }
        Ok(rows)
    }

    fn written_out(&self, edge: Edge, pieces: &mut Vec<Piece>) {
        match self.seen(edge) {
            Seen::Constant(value) => {
                pieces.push(Piece::Row(Row::new(if value { AND } else { OR }, 0)))
            }
            Seen::Literal(x, positive) => {
                pieces.push(Piece::Row(Row::new(if positive { POSITIVE } else { NEGATIVE }, x)))
            }
            Seen::Operator(kind, inputs) => {
                pieces.extend(inputs.iter().rev().map(|&input| Piece::Edge(input)));
                pieces.push(Piece::Row(Row::new(kind, inputs.len())));
            }
            Seen::Xor(inputs, negated) => pieces.push(Piece::Xor(inputs, negated)),
        }
    }
}

/// What is still to be written.
enum Piece {
    Row(Row),
    Edge(Edge),
    Xor(Vec<Edge>, bool),
}

/// (a or b) and (not a or not b); the negation as (a and b) or (not a and not b); b is all inputs
/// but the first.
fn exclusive_pieces(inputs: &[Edge], negated: bool, pieces: &mut Vec<Piece>) {
    let [a, rest @ ..] = inputs else { return };
    let b = |negated: bool| match rest {
        [only] => Piece::Edge(only.xor(negated)),
        _ => Piece::Xor(rest.to_vec(), negated),
    };
    let (outer, inner) = if negated { (OR, AND) } else { (AND, OR) };
    let mut written = vec![Piece::Row(Row::new(outer, 2))];
    for negated in [false, true] {
        let literal = Piece::Edge(a.xor(negated));
        written.extend([Piece::Row(Row::new(inner, 2)), literal, b(negated)]);
    }
    pieces.extend(written.into_iter().rev());
}
