//! Solve through the static library beside the tuned twin and the reading on
//! trees, side by side on the same sheets, with the geometric means of the
//! ratios for each family and for all. Narrow sheets first, and then the same
//! formulas as wide ones, in buffers with room for as many rows.

use crate::page::{section, Table};
use crate::{ratio, time_of};
use differential::{Library, LIBRARIES, NARROW};
use outside::generate::{self, Family, Limits, Rng};
use outside::reference::Format;
use outside::twin::Twin;

const FAMILIES: [Family; 5] =
    [Family::Clauses, Family::Tidy, Family::Parity, Family::Ladder, Family::Untidy];

/// Variables and rows: some 40 to 800 clauses of about four rows.
const SIZES: [(usize, usize); 7] =
    [(20, 160), (40, 320), (80, 640), (120, 1200), (160, 1800), (200, 2500), (250, 3200)];

/// Sheets for each size.
const ROUNDS: usize = 3;

/// The library's time over the twin's, and over that of the reading on trees.
#[derive(Clone, Copy)]
struct Ratios {
    twin: f64,
    trees: f64,
}

fn mean(ratios: impl ExactSizeIterator<Item = f64>) -> f64 {
    let count = ratios.len() as f64;
    (ratios.map(f64::ln).sum::<f64>() / count).exp()
}

/// The library beside the two others on one sheet.
fn compare(library: &Library, twin: &mut Twin, sheet: &[u8]) -> Ratios {
    let Format { most_variables, most_nodes, .. } = NARROW.reading.format;
    let room = library.reading.format.sheet_length(most_variables, most_nodes);
    let (mut first, mut second) = (vec![0; room], vec![0; room]);
    let answer = library.solve(sheet, &mut first, &mut second);
    assert_eq!(twin.solve(sheet, room), answer, "the twin says another line");
    let proved = time_of(|| {
        library.solve(sheet, &mut first, &mut second);
    });
    let tuned = time_of(|| {
        twin.solve(sheet, room);
    });
    let trees = time_of(|| {
        library.reading.solve(sheet, &mut first, &mut second);
    });
    Ratios { twin: ratio(proved, tuned), trees: ratio(proved, trees) }
}

/// The geometric mean and the range beside the twin, and the mean beside the reading on trees.
fn row(table: &mut Table<6>, format: &str, of: String, ratios: &[Ratios]) {
    let twin = || ratios.iter().map(|ratio| ratio.twin);
    let least = twin().fold(f64::INFINITY, f64::min);
    let most = twin().fold(0.0, f64::max);
    let trees = mean(ratios.iter().map(|ratio| ratio.trees));
    table.row([
        format.into(),
        of,
        ratios.len().to_string(),
        format!("{:.2}", mean(twin())),
        format!("{least:.2} to {most:.2}"),
        format!("{trees:.2}"),
    ]);
}

/// All families at one format: formulas within the narrow limits.
fn report_in(table: &mut Table<6>, library: &Library) {
    let format = library.reading.format;
    let name = if format == Format::WIDE { "wide" } else { "narrow" };
    let (mut twin, mut all) = (Twin::new(format), Vec::new());
    for family in FAMILIES {
        let mut rng = Rng::new(generate::run_seed());
        let mut ratios = Vec::new();
        for (variables, nodes) in SIZES {
            for _ in 0..ROUNDS {
                let limits = Limits { format: NARROW.reading.format, variables, nodes };
                let formula = generate::alternating_formula(&mut rng, family, limits);
                ratios.push(compare(library, &mut twin, &format.encode(&formula)));
            }
        }
        row(table, name, format!("{family:?}").to_lowercase(), &ratios);
        all.extend(ratios);
    }
    row(table, name, "all".into(), &all);
}

pub fn report() {
    section(
        "Solve beside a tuned program",
        "The library's time over that of a Rust program of the same algorithm, which keeps its rows \
         in arrays and marks variables by number, as geometric means and the range on single \
         sheets; and over that of the Rust implementation on trees. Below 1 the proved code is the \
         faster one. The wide sheets have the same formulas.",
    );
    let mut table =
        Table::new(["format", "sheets", "how many", "tuned, mean", "tuned, range", "trees, mean"]);
    for library in &LIBRARIES {
        report_in(&mut table, library);
    }
    print!("{table}");
}
