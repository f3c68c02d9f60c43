//! Guards on sheets of 500 guards: as many runs of Solve, and one more.

use crate::page::{section, shown, Table};
use differential::LIBRARIES;
use outside::formulas::{all, and, clause, formula, lit};
use outside::generate::Rng;
use outside::reference::{Formula, GuardsAnswer, Node, Quantifier};
use std::time::Instant;

const GUARDS: usize = 500;

/// Each variable leads to the next, the first holds and the last doesn't; the
/// guards behind these repeat links of the chain, as guards pasted twice do.
fn chain(guards: usize) -> Formula {
    let links = (1..=guards as i32 / 2).map(|x| clause(&[-x, x + 1]));
    let mut matrix: Vec<Node> = links.collect();
    matrix.extend([lit(1), lit(-(guards as i32 / 2 + 1))]);
    let again: Vec<Node> = matrix.iter().cycle().take(guards - matrix.len()).cloned().collect();
    matrix.extend(again);
    formula(&all(Quantifier::Exists, 256), and(matrix))
}

/// Clauses that hold together, and in their midst two guards that clash.
fn pair(guards: usize) -> Formula {
    let mut matrix: Vec<Node> = (0..guards - 2)
        .map(|at| clause(&[1 + (at % 200) as i32, 2 + (at % 201) as i32, 3 + (at % 203) as i32]))
        .collect();
    matrix.insert(guards / 3, lit(256));
    matrix.insert(guards / 2, lit(-256));
    formula(&all(Quantifier::Exists, 256), and(matrix))
}

/// Random clauses of three literals over a few variables, which have to be expanded.
fn clauses(guards: usize) -> Formula {
    let mut rng = Rng::new(10);
    let mut literal = || {
        let x = rng.between(1, 9) as i32;
        if rng.one_in(2) {
            x
        } else {
            -x
        }
    };
    let matrix = (0..guards).map(|_| clause(&[literal(), literal(), literal()])).collect();
    formula(&all(Quantifier::Exists, 9), and(matrix))
}

pub fn report() {
    section(
        "Guards",
        &format!("One call on {GUARDS} guards: as many runs of Solve, and one more."),
    );
    let mut table = Table::new(["sheet", "rows", "time", "answer"]);
    for (name, formula) in
        [("chain", chain(GUARDS)), ("pair", pair(GUARDS)), ("clauses", clauses(GUARDS))]
    {
        for (format, library) in ["narrow", "wide"].iter().zip(&LIBRARIES) {
            let sheet = library.reading.format.encode(&formula);
            let longest = library.reading.format.longest_sheet();
            let mut buffers = [(); 3].map(|()| vec![0; longest]);
            let start = Instant::now();
            let answer = library.guards(&sheet, &mut buffers);
            let took = start.elapsed();
            let told = match answer {
                GuardsAnswer::Kept { length, stops } => {
                    let kept =
                        library.reading.format.parse(&buffers[0][..length]).expect("a sheet");
                    format!("{} kept, {stops} runs stopped", kept.matrix.children().len())
                }
                other => format!("{other:?}"),
            };
            let rows = formula.matrix.rows().to_string();
            table.row([format!("{name}, {format}"), rows, shown(took), told]);
        }
    }
    print!("{table}");
}
