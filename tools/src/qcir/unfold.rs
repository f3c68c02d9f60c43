//! A circuit as a tree in negation normal form: what is shared is copied, and
//! negation is pushed down to the literals. Nothing recurses, since circuits may
//! be deep.

use super::circuit::{Circuit, Literal, Said, Target};
use super::statement::Gate;
use super::Fault;
use crate::formula::{Row, AND, NEGATIVE, OR, POSITIVE};

/// How many rows the output's tree has; the highest number stands for all above.
pub fn size(circuit: &Circuit) -> Result<u128, Fault> {
    let mut sizes = vec![0u128; circuit.gates.len()];
    for gate in uses_first(&circuit.gates)? {
        let of = |literal: &Literal| match literal.target {
            Target::Variable(_) => 1,
            Target::Gate(input) => sizes[input],
        };
        let add = |total: u128, input: &Literal| total.saturating_add(of(input));
        sizes[gate] = match &circuit.gates[gate].what {
            Gate::Operator(_, inputs) => inputs.iter().fold(1, add),
            // Three operators, and the condition twice.
            Gate::Choice([c, t, e]) => [c, c, t, e].into_iter().fold(3, add),
        };
    }
    Ok(match circuit.output.what.target {
        Target::Variable(_) => 1,
        Target::Gate(gate) => sizes[gate],
    })
}

#[derive(Clone, Copy, PartialEq)]
enum Visit {
    New,
    Open,
    Done,
}

/// The gates in an order in which each comes after all that it uses; a gate that
/// uses itself, through others or not, has none.
pub fn uses_first(gates: &[Said<Gate<Literal>>]) -> Result<Vec<usize>, Fault> {
    let mut visits = vec![Visit::New; gates.len()];
    let mut order = Vec::new();
    for start in 0..gates.len() {
        // Gates on the way, each with how many of its inputs were looked at.
        let mut path = if visits[start] == Visit::New { vec![(start, 0)] } else { Vec::new() };
        while let Some((gate, seen)) = path.last_mut() {
            visits[*gate] = Visit::Open;
            match gates[*gate].what.inputs().get(*seen).map(|input| input.target) {
                None => {
                    visits[*gate] = Visit::Done;
                    order.push(*gate);
                    path.pop();
                }
                Some(Target::Gate(input)) if visits[input] == Visit::Open => {
                    return Err(Fault::new(gates[input].line, "the gate depends on itself"));
                }
                Some(target) => {
                    *seen += 1;
                    if let Target::Gate(input) = target {
                        if visits[input] == Visit::New {
                            path.push((input, 0));
                        }
                    }
                }
            }
        }
    }
    Ok(order)
}

/// What is still to be written.
pub enum Piece {
    Row(Row),
    Literal(Literal),
}

/// The node rows of the circuit's output, in preorder, which are so many.
pub fn rows(circuit: &Circuit, prefix: &[Row], size: usize) -> Vec<Row> {
    let mut rows = Vec::with_capacity(size);
    let mut pieces = vec![Piece::Literal(circuit.output.what)];
    while let Some(piece) = pieces.pop() {
        assert!(rows.len() < size, "no more rows than were counted");
        match piece {
            Piece::Row(row) => rows.push(row),
            Piece::Literal(Literal { target: Target::Variable(x), negated }) => {
                let kind = if negated { NEGATIVE } else { POSITIVE };
                rows.push(Row::new(kind, prefix[x].argument));
            }
            Piece::Literal(Literal { target: Target::Gate(gate), negated }) => {
                pieces.extend(written_out(&circuit.gates[gate].what, negated).into_iter().rev());
            }
        }
    }
    rows
}

/// A gate, or its negation, by its inputs.
pub fn written_out(gate: &Gate<Literal>, negated: bool) -> Vec<Piece> {
    let negate = |literal: &Literal, by: bool| {
        Piece::Literal(Literal { negated: literal.negated != by, ..*literal })
    };
    match gate {
        Gate::Operator(kind, inputs) => {
            // De Morgan: the other operator over the negated inputs.
            let kind = if negated { AND + OR - kind } else { *kind };
            let mut pieces = vec![Piece::Row(Row::new(kind, inputs.len()))];
            pieces.extend(inputs.iter().map(|input| negate(input, negated)));
            pieces
        }
        // The negation chooses between the negated two.
        Gate::Choice([c, t, e]) => vec![
            Piece::Row(Row::new(OR, 2)),
            Piece::Row(Row::new(AND, 2)),
            negate(c, false),
            negate(t, negated),
            Piece::Row(Row::new(AND, 2)),
            negate(c, true),
            negate(e, negated),
        ],
    }
}
