//! Sort and Compare (N14) on the shapes that cost them most: many literals
//! under one operator, one child at every level, equal clauses, and an operator
//! in front of a literal at every level.

use crate::page::{section, shown, Table};
use crate::{ratio, time_of};
use differential::LIBRARIES;
use outside::reference::{Formula, Node, Quantifier};

/// So many literals under one operator, from the last to the first.
fn flat(literals: usize, variables: usize) -> Node {
    let literal =
        |i: usize| Node::Lit { positive: i.is_multiple_of(2), var: 1 + i * 7919 % variables };
    Node::or((0..literals).rev().map(literal).collect())
}

/// One child at every level.
fn chain(levels: usize) -> Node {
    (1..levels).fold(Node::literal(1), |below, level| match level % 2 {
        0 => Node::and(vec![below]),
        _ => Node::or(vec![below]),
    })
}

/// Equal clauses of two literals, the literals the wrong way round.
fn clauses(count: usize) -> Node {
    Node::and((0..count).map(|_| Node::or(vec![Node::literal(2), Node::literal(1)])).collect())
}

/// An operator in front of a literal at every level: every run is moved.
fn comb(levels: usize) -> Node {
    (0..levels).fold(Node::literal(1), |below, level| match level % 2 {
        0 => Node::and(vec![below, Node::literal(2)]),
        _ => Node::or(vec![below, Node::literal(2)]),
    })
}

pub fn report() {
    section(
        "Sort and Compare",
        "A sheet sorted, beside the Rust implementation on trees, and compared with its sorted one.",
    );
    let mut table = Table::new(["shape", "rows", "Sort", "ratio", "Compare"]);
    for library in &LIBRARIES {
        let format = library.reading.format;
        let n = format.most_nodes;
        let shapes = [
            ("flat", flat(n - 1, format.most_variables)),
            ("chain", chain(n)),
            ("equal clauses", clauses((n - 1) / 3)),
            ("comb", comb((n - 1) / 2)),
        ];
        for (name, matrix) in shapes {
            let prefix = (1..=format.most_variables).map(|x| (Quantifier::Exists, x)).collect();
            let sheet = format.encode(&Formula { prefix, matrix });
            let (mut out, mut work) = (vec![0; sheet.len()], vec![0; sheet.len()]);
            let proved = time_of(|| {
                library.sort(&sheet, &mut out);
            });
            let sorted = out.clone();
            let reference = time_of(|| {
                library.reading.sort(&sheet, &mut out);
            });
            let compared = time_of(|| {
                library.compare(&sheet, &sorted, &mut out, &mut work);
            });
            let times = format!("{:.2}", ratio(proved, reference));
            table.row([name.into(), n.to_string(), shown(proved), times, shown(compared)]);
        }
    }
    print!("{table}");
}
