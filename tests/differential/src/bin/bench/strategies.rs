//! Strategy beside Solve on the same wide sheets, and how many rows the strategies have: seeded
//! sheets of each family, and the largest sizes of the literature's families that Solve decides.

use crate::page::{section, shown, Table};
use crate::{ratio, time_of};
use differential::WIDE;
use outside::generate::{self, Family, Limits, Rng};
use outside::literature::LITERATURE;
use outside::reference::{line_of, Format, Formula, StrategyAnswer};
use std::time::Duration;

const FORMAT: Format = WIDE.reading.format;

const FAMILIES: [Family; 5] =
    [Family::Clauses, Family::Tidy, Family::Parity, Family::Ladder, Family::Untidy];

/// Variables and rows.
const SIZES: [(usize, usize); 4] = [(20, 100), (60, 500), (160, 2500), (400, 8000)];

/// The sizes of the literature's families, in their order there.
const LITERATURE_SIZES: [usize; 5] = [64, 85, 22, 6, 128];

/// What the answer comes to, and the strategy's rows.
fn told(answer: &StrategyAnswer, variables: usize) -> String {
    match answer {
        StrategyAnswer::Written { length, .. } => {
            let rows = (length - FORMAT.sheet_length(variables, 0)) / FORMAT.sheet_length(0, 1);
            format!("{rows} rows")
        }
        StrategyAnswer::TooLong { rows, .. } => format!("{rows} rows, too many"),
        _ => "none".into(),
    }
}

/// Both on one sheet; the ratio of their times.
fn row(table: &mut Table<7>, name: String, formula: &Formula) -> f64 {
    let sheet = FORMAT.encode(formula);
    let [mut first, mut second, mut output] = [(); 3].map(|()| vec![0; FORMAT.longest_sheet()]);
    let line = line_of(&WIDE.solve(&sheet, &mut first, &mut second));
    let solve = time_of(|| {
        WIDE.solve(&sheet, &mut first, &mut second);
    });
    let answer = WIDE.strategy(&sheet, &mut first, &mut second, &mut output);
    let strategy: Duration = time_of(|| {
        WIDE.strategy(&sheet, &mut first, &mut second, &mut output);
    });
    let times = ratio(strategy, solve);
    let variables = formula.prefix.len();
    table.row([
        name,
        format!("{variables}, {}", formula.matrix.rows()),
        format!("`{line}`"),
        shown(solve),
        shown(strategy),
        format!("{times:.2}"),
        told(&answer, variables),
    ]);
    times
}

pub fn report() {
    section(
        "Strategy",
        "Wide sheets: Solve and Strategy on the same sheet, and the strategy's size. Strategy runs \
         Solve, and once more with the functions.",
    );
    let mut table = Table::new([
        "sheet",
        "variables, rows",
        "line",
        "Solve",
        "Strategy",
        "ratio",
        "the strategy",
    ]);
    let mut ratios = Vec::new();
    for family in FAMILIES {
        let mut rng = Rng::new(generate::run_seed());
        for (variables, nodes) in SIZES {
            let limits = Limits { format: FORMAT, variables, nodes };
            let formula = generate::alternating_formula(&mut rng, family, limits);
            let name = format!("{family:?}").to_lowercase();
            ratios.push(row(&mut table, name, &formula));
        }
    }
    for (family, n) in LITERATURE.into_iter().zip(LITERATURE_SIZES) {
        let name = format!("{}, n = {n}", family.name);
        ratios.push(row(&mut table, name, &family.formula(n)));
    }
    print!("{table}");
    let most = ratios.iter().fold(0.0, |most: f64, ratio| most.max(*ratio));
    let mean = (ratios.iter().map(|ratio| ratio.ln()).sum::<f64>() / ratios.len() as f64).exp();
    println!("\nThe ratio is {mean:.2} as a geometric mean, and {most:.2} at most.");
}
