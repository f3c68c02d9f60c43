//! Tidy, Reduce, Settle, Expand and Outer over rows: flat, random and chain-shaped sheets of
//! 128 to 4,096 rows, narrow, and of 4,096 and 8,192 rows, wide, and how the
//! time grows with each doubling.

use crate::page::{section, shown, Table};
use crate::{ratio, time_of};
use differential::{Library, NARROW, WIDE};
use outside::formulas::{all, and, clause, formula, lit};
use outside::generate::{self, ladder_formula, Family, Limits, Rng};
use outside::reference::*;
use std::time::Duration;
use Quantifier::{Exists, ForAll};

/// A format's sheets, and how many rows they have.
struct Sizes {
    library: Library,
    rows: &'static [usize],
}

const NARROW_SIZES: Sizes = Sizes { library: NARROW, rows: &[128, 256, 512, 1024, 2048, 4096] };

/// A step at 8,192 rows is to take at most 2.2 times as long as at 4,096.
const WIDE_SIZES: Sizes = Sizes { library: WIDE, rows: &[4096, 8192] };

/// A formula of about so many rows, with the variable to settle or to expand.
struct Sheet {
    formula: Formula,
    rows: usize,
    x: Variable,
}

impl Sheet {
    fn new(formula: Formula, x: Variable) -> Sheet {
        Sheet { rows: formula.matrix.rows(), formula, x }
    }

    /// For Expand the rows that are written count.
    fn raw(formula: Formula, x: Variable) -> Sheet {
        Sheet { rows: raw_rows(&formula, x), formula, x }
    }
}

type Writes = fn(&Library, &[u8], Variable, &mut [u8]) -> Answer<usize>;

/// An operation as proved and as read.
type Both = (Writes, Writes);

const TIDY: Both = (
    |library, sheet, _, output| library.tidy(sheet, output),
    |library, sheet, _, output| library.reading.tidy(sheet, output),
);
const REDUCE: Both = (
    |library, sheet, _, output| library.reduce(sheet, output),
    |library, sheet, _, output| library.reading.reduce(sheet, output),
);
const SETTLE: Both = (
    |library, sheet, x, output| library.step(Operation::Settle, sheet, x, output),
    |library, sheet, x, output| library.reading.settle(sheet, x, output),
);
const EXPAND: Both = (
    |library, sheet, x, output| library.step(Operation::Expand, sheet, x, output),
    |library, sheet, x, output| library.reading.expand(sheet, x, output),
);

const OUTER: Both = (
    |library, sheet, x, output| length_of(library.outer(sheet, x, output)),
    |library, sheet, x, output| length_of(library.reading.outer(sheet, x, output)),
);

/// One operation on one shape, over all sizes of both formats.
struct Series<'a> {
    name: &'a str,
    both: Both,
}

/// How long an operation takes on one sheet, as proved and as read.
struct Times {
    rows: usize,
    proved: Duration,
    reference: Duration,
    accepted: bool,
}

impl Series<'_> {
    fn times(&self, library: &Library, sheet: Sheet) -> Times {
        let (proved, reference) = self.both;
        let Sheet { formula, rows, x } = sheet;
        let format = library.reading.format;
        let sheet = format.encode(&formula);
        let mut output = vec![0; format.longest_sheet()];
        let accepted = matches!(proved(library, &sheet, x, &mut output), Answer::Accepted(_));
        let mine = time_of(|| {
            proved(library, &sheet, x, &mut output);
        });
        let theirs = time_of(|| {
            reference(library, &sheet, x, &mut output);
        });
        Times { rows, proved: mine, reference: theirs, accepted }
    }

    /// The largest sheet of a format, and the growth over all doublings of the rows.
    fn row(&self, sizes: &Sizes, sheet_of: impl Fn(Format, usize) -> Sheet) -> [String; 6] {
        let format = sizes.library.reading.format;
        let times: Vec<Times> = sizes
            .rows
            .iter()
            .map(|&rows| self.times(&sizes.library, sheet_of(format, rows)))
            .collect();
        let growths = times.windows(2).map(|two| ratio(two[1].proved, two[0].proved));
        let growths: Vec<String> = growths.map(|growth| format!("{growth:.2}")).collect();
        let last = times.last().expect("a size");
        let note = if times.iter().all(|times| times.accepted) { "" } else { ", refused" };
        [
            format!("{}{note}", self.name),
            if format == Format::WIDE { "wide".into() } else { "narrow".into() },
            last.rows.to_string(),
            shown(last.proved),
            growths.join(", "),
            format!("{:.2}", ratio(last.proved, last.reference)),
        ]
    }
}

/// Literals of 256 variables side by side, each several times.
fn flat_literals(rows: usize) -> Formula {
    let literals = (1..rows).map(|at| lit(1 + (at % 256) as i32));
    formula(&all(Exists, 256), and(literals.collect()))
}

/// Clauses of two variables side by side, no two of them equal; 1 is in every `step`-th too.
fn flat_clauses(rows: usize, step: usize, both_signs: bool) -> Formula {
    let of = |at: usize| {
        let sign = if both_signs && at.is_multiple_of(2 * step) { -1 } else { 1 };
        let (first, second) = (2 + (at / 120) as i32, 130 + (at % 120) as i32);
        if at.is_multiple_of(step) {
            clause(&[sign, first, second])
        } else {
            clause(&[first, second])
        }
    };
    let clauses = (rows - 1) * step / (3 * step + 1);
    formula(&all(Exists, 256), and((0..clauses).map(of).collect()))
}

/// One clause of three literals over and over, of which tidying keeps the first (N4).
fn equal_clauses(rows: usize) -> Formula {
    formula(&all(Exists, 256), and(vec![clause(&[1, 2, 3]); (rows - 1) / 4]))
}

/// Clauses of 64 literals that differ in the last two.
fn common_beginnings(rows: usize) -> Formula {
    let of = |at: usize| {
        let last = [63 + (at / 90) as i32, 160 + (at % 90) as i32];
        clause(&(1..=62).chain(last).collect::<Vec<i32>>())
    };
    formula(&all(Exists, 256), and((0..(rows - 1) / 65).map(of).collect()))
}

/// For all 1, exists 2 to 200: each of these depends on 1 by way of the one before, so all rows are copied.
fn linked_clauses(raw: usize) -> Sheet {
    let of = |at: usize| {
        let (round, first) = (at / 197, 2 + (at % 197) as i32);
        let second = first + 1 + (round / 4) as i32;
        clause(&match round % 4 {
            0 => [-first, second],
            1 => [first, -second],
            2 => [first, second],
            _ => [-first, -second],
        })
    };
    let linked = (0..(raw / 2 - 8) / 3).map(of);
    let clauses = [clause(&[1, 2]), clause(&[-1, -2])].into_iter().chain(linked);
    let prefix: Vec<Binding> =
        [(ForAll, 1)].into_iter().chain((2..=200).map(|x| (Exists, x))).collect();
    let formula = formula(&prefix, and(clauses.collect()));
    Sheet { rows: 2 * formula.matrix.rows() + 1, formula, x: 1 }
}

fn length_of(answer: Answer<Copied>) -> Answer<usize> {
    match answer {
        Answer::Refused(number, place) => Answer::Refused(number, place),
        Answer::Accepted(copied) => Answer::Accepted(copied.length),
    }
}

/// Half the rows clauses, the other half literals behind them, under one operator.
fn mixed(rows: usize) -> Formula {
    let clauses = (0..rows / 6).map(|at| clause(&[1 + (at % 128) as i32, 129 + (at % 127) as i32]));
    let literals = (0..rows / 2).map(|at| lit(1 + (at % 256) as i32));
    formula(&all(Exists, 256), and(clauses.chain(literals).collect()))
}

/// Clauses of four literals, no two of them equal, over a prefix whose
/// quantifiers alternate: of each the last literal goes if it is universal.
fn alternating_clauses(rows: usize) -> Formula {
    let quantifier = |x: usize| if x.is_multiple_of(2) { ForAll } else { Exists };
    let prefix: Vec<Binding> = (1..=256).map(|x| (quantifier(x), x)).collect();
    let of = |at: usize| {
        let (first, more) = (1 + (7 * at % 250) as i32, 2 * (at / 250) as i32);
        let wrapped = |x: i32| 1 + (x - 1) % 256;
        clause(&[first, -first - 1, wrapped(first + 2 + more), wrapped(first + 3 + more)])
    };
    formula(&prefix, and((0..rows / 5).map(of).collect()))
}

/// A chain of one-child operators.
fn one_child_chain(rows: usize) -> Formula {
    generate::deep_formula(256, rows)
}

/// A ladder of an odd number of rows.
fn ladder(format: Format, rows: usize, literals_of_1: usize) -> Formula {
    ladder_formula(format, rows - 1 + rows % 2, literals_of_1)
}

/// A ladder of 1 and 2 with all other rows of the prefix spare and in between.
fn ladder_past_spare_rows(format: Format, rows: usize) -> Formula {
    let mut matrix = clause(&[1, 2]);
    for rung in 1..rows / 2 {
        let literal = Node::Lit { positive: rung % 4 < 2, var: 1 + rung % 2 };
        let kind = if rung.is_multiple_of(2) { Kind::Or } else { Kind::And };
        matrix = Node::Op { kind, children: vec![literal, matrix] };
    }
    let spare = (3..=format.most_variables).map(|x| (ForAll, x));
    let prefix: Vec<Binding> =
        [(Exists, 1)].into_iter().chain(spare).chain([(Exists, 2)]).collect();
    formula(&prefix, matrix)
}

/// Of a hundred random formulas of a family the one with the most rows.
fn random(format: Format, family: Family, rows: usize) -> Formula {
    let limits = Limits { nodes: rows, ..Limits::full(format) };
    let mut rng = Rng::new(generate::run_seed());
    let formulas = (0..100).map(|_| generate::formula_of(&mut rng, family, limits));
    formulas.max_by_key(|formula| formula.matrix.rows()).expect("a hundred formulas")
}

/// A variable that may be settled, the first of the prefix.
fn settleable(formula: &Formula) -> Option<Variable> {
    formula.variables().into_iter().find(|&x| settle_value(formula, x).is_some())
}

fn random_to_settle(format: Format, rows: usize) -> Sheet {
    let formula = random(format, Family::Tidy, rows);
    let x = settleable(&formula).unwrap_or(1);
    Sheet::new(formula, x)
}

/// The variable of the innermost block with the most raw rows that fit.
fn random_to_expand(format: Format, rows: usize) -> Sheet {
    let formula = random(format, Family::Tidy, rows / 2);
    let block = NARROW.reading.rules.innermost_block(&formula).into_iter();
    let fitting = block.filter(|&x| raw_rows(&formula, x) <= format.most_nodes);
    let x = fitting.max_by_key(|&x| raw_rows(&formula, x)).unwrap_or(1);
    Sheet::raw(formula, x)
}

pub fn report() {
    section(
        "Tidy, Reduce and the steps",
        "Each on the largest sheet of its shape; how the time grew with each doubling of the rows, \
         128 to 4,096 on narrow sheets and 4,096 to 8,192 on wide ones; and the ratio to the Rust \
         implementation on trees.",
    );
    let mut table =
        Table::new(["operation and shape", "format", "rows", "time", "growth", "ratio"]);
    let mut series = |name: &str, both: Both, sheet_of: fn(Format, usize) -> Sheet| {
        let series = Series { name, both };
        for sizes in [NARROW_SIZES, WIDE_SIZES] {
            table.row(series.row(&sizes, sheet_of));
        }
    };
    series("tidy, flat", TIDY, |_, n| Sheet::new(flat_literals(n), 1));
    series("tidy, flat clauses", TIDY, |_, n| Sheet::new(flat_clauses(n, 4, true), 1));
    series("tidy, equal clauses", TIDY, |_, n| Sheet::new(equal_clauses(n), 1));
    series("tidy, common beginnings", TIDY, |_, n| Sheet::new(common_beginnings(n), 1));
    series("tidy, mixed", TIDY, |_, n| Sheet::new(mixed(n), 1));
    series("tidy, random", TIDY, |f, n| Sheet::new(random(f, Family::Untidy, n), 1));
    series("tidy, chain", TIDY, |_, n| Sheet::new(one_child_chain(n), 1));
    series("tidy, ladder", TIDY, |f, n| Sheet::new(ladder(f, n, 1), 1));
    series("reduce, clauses", REDUCE, |_, n| Sheet::new(alternating_clauses(n), 1));
    series("settle, flat", SETTLE, |_, n| Sheet::new(flat_clauses(n, 4, false), 1));
    series("settle, random", SETTLE, random_to_settle);
    series("settle, common beginnings", SETTLE, |_, n| Sheet::new(common_beginnings(n), 1));
    series("settle, ladder", SETTLE, |f, n| Sheet::new(ladder(f, n, 1), 1));
    series("expand, flat", EXPAND, |_, n| Sheet::raw(flat_clauses(n / 2 - 1, 1, true), 1));
    series("expand, random", EXPAND, random_to_expand);
    series("expand, ladder copied", EXPAND, |f, n| Sheet::raw(ladder(f, n / 2, 2), 1));
    series("expand, past spare rows", EXPAND, |f, n| {
        Sheet::raw(ladder_past_spare_rows(f, n / 2 - 1), 1)
    });
    series("expand, ladder, one literal", EXPAND, |f, n| Sheet::raw(ladder(f, n - 3, 1), 1));
    series("outer, linked clauses", OUTER, |_, n| linked_clauses(n));
    print!("{table}");
}
