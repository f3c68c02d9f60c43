//! Check, Part and Trial.

use crate::page::{section, shown, Table};
use crate::{ratio, time_of};
use differential::NARROW;
use outside::formulas::{all, and, clause, formula};
use outside::generate::{deep_formula, wide_formula};
use outside::reference::{Format, Formula, Quantifier};

const FORMAT: Format = NARROW.reading.format;

/// For all of `v` variables, a true AND of full clauses: no leaf stops early.
fn longest_trial(v: usize) -> Formula {
    let clauses = (0..FORMAT.most_nodes / 3).map(|i| {
        let x = (i % v + 1) as i32;
        clause(&[x, -x])
    });
    formula(&all(Quantifier::ForAll, v), and(clauses.collect()))
}

fn row(table: &mut Table<4>, name: String, proved: impl FnMut(), reference: impl FnMut()) {
    let (proved, reference) = (time_of(proved), time_of(reference));
    let times = format!("{:.2}", ratio(proved, reference));
    table.row([name, shown(proved), shown(reference), times]);
}

pub fn report() {
    section("Check, Part and Trial", "Narrow sheets, beside the Rust implementation on trees.");
    let mut table = Table::new(["operation and sheet", "library", "Rust on trees", "ratio"]);
    for (name, formula) in
        [("wide", wide_formula(FORMAT.most_nodes)), ("deep", deep_formula(256, FORMAT.most_nodes))]
    {
        let sheet = FORMAT.encode(&formula);
        row(
            &mut table,
            format!("check, 4,096 rows {name}"),
            || assert!(NARROW.check(&sheet).is_ok()),
            || assert!(FORMAT.check(&sheet).is_ok()),
        );
        row(
            &mut table,
            format!("part, 4,096 rows {name}"),
            || assert!(!NARROW.part(&sheet, 0).is_empty()),
            || assert!(!FORMAT.part(&sheet, 0).is_empty()),
        );
    }
    for v in [8, 12, 16] {
        let sheet = FORMAT.encode(&longest_trial(v));
        row(
            &mut table,
            format!("trial, {v} variables, 4,096 rows"),
            || {
                NARROW.trial(&sheet);
            },
            || {
                FORMAT.trial(&sheet);
            },
        );
    }
    print!("{table}");
}
