//! Solve over growing sheets, wide as the program reads them: through the static
//! library beside the independent reading, and the program's process beside that
//! of a solver from outside.

use crate::page::{section, shown, Table};
use crate::{ratio, time_of};
use differential::WIDE;
use outside::depqbf;
use outside::generate::{self, Family, Limits, Rng};
use outside::qdimacs::translate;
use outside::reference::{line_of, Format, Formula};
use std::io::{Result, Write};
use std::process::{Command, Stdio};
use std::time::{Duration, Instant};

const PROGRAM: &str =
    concat!(env!("CARGO_MANIFEST_DIR"), "/../../crates/plumanchor/out/plumanchor");

const FORMAT: Format = WIDE.reading.format;

/// Variables and rows.
const SIZES: [(usize, usize); 8] = [
    (20, 100),
    (40, 250),
    (60, 500),
    (80, 800),
    (120, 1500),
    (160, 2500),
    (200, 4000),
    (400, 8000),
];

const FAMILIES: [Family; 5] =
    [Family::Clauses, Family::Tidy, Family::Parity, Family::Ladder, Family::Untidy];

/// The shortest of three runs of a process, if it can be run at all.
fn time_of_process<T>(mut run: impl FnMut() -> Result<T>) -> Option<(Duration, T)> {
    let timed = || {
        let start = Instant::now();
        let result = run().ok()?;
        Some((start.elapsed(), result))
    };
    let runs: Option<Vec<_>> = std::iter::repeat_with(timed).take(3).collect();
    runs?.into_iter().min_by_key(|run| run.0)
}

fn run_program(sheet: &[u8]) -> Result<String> {
    let mut process = Command::new(PROGRAM).stdin(Stdio::piped()).stdout(Stdio::piped()).spawn()?;
    process.stdin.take().expect("a piped input").write_all(sheet)?;
    let output = process.wait_with_output()?;
    Ok(String::from_utf8_lossy(&output.stdout).trim_end().to_string())
}

fn told(time: Option<Duration>) -> String {
    time.map_or("-".into(), shown)
}

fn row(table: &mut Table<9>, family: Family, formula: &Formula) {
    let sheet = FORMAT.encode(formula);
    let (mut first, mut second) =
        (vec![0; FORMAT.longest_sheet()], vec![0; FORMAT.longest_sheet()]);
    let answer = WIDE.solve(&sheet, &mut first, &mut second);
    let line = line_of(&answer);
    let library = time_of(|| {
        WIDE.solve(&sheet, &mut first, &mut second);
    });
    let reading = time_of(|| {
        WIDE.reading.solve(&sheet, &mut first, &mut second);
    });
    let program = time_of_process(|| run_program(&sheet));
    let text = translate(formula).text();
    let outside = time_of_process(|| depqbf::verdict_of(&text));
    let theirs = match outside {
        Some((time, Some(verdict))) => format!("{verdict} in {}", shown(time)),
        Some((time, None)) => format!("given up after {}", shown(time)),
        None => "not run".into(),
    };
    let steps = answer.counts().map_or(0, |(settled, expanded)| settled + expanded);
    let unequal = program.as_ref().is_some_and(|run| run.1 != line);
    let note = if unequal { ", another line" } else { "" };
    table.row([
        format!("{family:?}").to_lowercase(),
        formula.prefix.len().to_string(),
        formula.matrix.rows().to_string(),
        format!("`{line}`"),
        shown(library),
        format!("{:.2}", ratio(library, reading)),
        shown(library / (1 + steps as u32)),
        format!("{}{note}", told(program.map(|run| run.0))),
        theirs,
    ]);
}

pub fn report() {
    section(
        "Solve",
        "Wide sheets. The library's call, its ratio to the Rust implementation on trees, a step of \
         the run (tidying at first is one too); the program's whole run, and that of `depqbf` on the same formula (the best of three).",
    );
    let mut table = Table::new([
        "sheet",
        "variables",
        "rows",
        "line",
        "library",
        "ratio",
        "a step",
        "program",
        "`depqbf`",
    ]);
    for family in FAMILIES {
        let mut rng = Rng::new(generate::run_seed());
        for (variables, nodes) in SIZES {
            let limits = Limits { format: FORMAT, variables, nodes };
            let formula = generate::alternating_formula(&mut rng, family, limits);
            row(&mut table, family, &formula);
        }
    }
    print!("{table}");
}
