//! Families from the literature: how far Solve comes within the narrow sheet,
//! and what a solver from outside takes for the same clauses.

use crate::page::{section, shown, Table};
use crate::time_of;
use differential::NARROW;
use outside::depqbf;
use outside::literature::{Literature, LITERATURE};
use outside::reference::{line_of, Format, SolveAnswer};
use std::time::{Duration, Instant};

const FORMAT: Format = NARROW.reading.format;

/// How long the solver from outside is waited for.
const LIMIT: Duration = Duration::from_secs(10);

/// The sheet of size `n`, if it has its place in the format.
fn sheet(family: Literature, n: usize) -> Option<Vec<u8>> {
    let formula = family.formula(n);
    let (v, nodes) = (formula.prefix.len(), formula.matrix.rows());
    (v <= FORMAT.most_variables && nodes <= FORMAT.most_nodes).then(|| FORMAT.encode(&formula))
}

fn solve(sheet: &[u8]) -> SolveAnswer {
    let room = FORMAT.longest_sheet();
    NARROW.solve(sheet, &mut vec![0; room], &mut vec![0; room])
}

fn outside_time(family: Literature, n: usize) -> String {
    let text = family.qdimacs(n).text();
    let start = Instant::now();
    match depqbf::verdict_within(&text, LIMIT) {
        Ok(Some(verdict)) if verdict == family.verdict => shown(start.elapsed()),
        Ok(Some(_)) => "the other verdict".into(),
        Ok(None) => "given up at 10 s".into(),
        Err(_) => "not run".into(),
    }
}

/// One size: the line, Solve's time and the outside solver's.
fn row(table: &mut Table<6>, family: Literature, size: Size) {
    let Size { n, sheet, note } = size;
    let time = time_of(|| {
        solve(&sheet);
    });
    let line = format!("`{}`", line_of(&solve(&sheet)));
    let theirs = outside_time(family, n);
    table.row([family.name.into(), n.to_string(), line, shown(time), theirs, note.into()]);
}

/// A size of a family, its sheet, and what is to be said of it.
struct Size {
    n: usize,
    sheet: Vec<u8>,
    note: &'static str,
}

/// The largest size decided, and the first that is stopped or has no place in a
/// sheet; sizes that double on the way.
fn sizes(family: Literature) -> Vec<Size> {
    let decided = |sheet: &[u8]| matches!(solve(sheet), SolveAnswer::Ended { .. });
    let sheets = (1..).map_while(|n| Some((n, sheet(family, n)?)));
    let (mut sizes, mut last) = (Vec::new(), None);
    for (n, sheet) in sheets {
        if !decided(&sheet) {
            let largest = last.map(|(n, sheet)| Size { n, sheet, note: "largest decided" });
            sizes.extend(largest);
            sizes.push(Size { n, sheet, note: "first stopped" });
            return sizes;
        }
        let passed = last.replace((n, sheet)).filter(|(n, _)| n.is_power_of_two() && *n > 2);
        sizes.extend(passed.map(|(n, sheet)| Size { n, sheet, note: "" }));
    }
    sizes.extend(last.map(|(n, sheet)| Size { n, sheet, note: "largest that a sheet holds" }));
    sizes
}

pub fn report() {
    section(
        "Families from the literature",
        "Where Solve is strong and where it says `stopped`, on narrow sheets in buffers for the \
         largest of them, beside `depqbf` on the same clauses with 10 s at most. The program, \
         which reads wide sheets, has more room.",
    );
    let mut table = Table::new(["family", "n", "line", "Solve, library", "`depqbf`", ""]);
    for family in LITERATURE {
        sizes(family).into_iter().for_each(|size| row(&mut table, family, size));
    }
    print!("{table}");
}
