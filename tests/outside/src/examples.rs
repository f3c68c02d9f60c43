//! The sheets of `examples/`: document 01's formulas, some that are refused or
//! stopped at, and a question of the print works, each with the program's line.
//! All are wide, as the program reads them, but for those of `examples/narrow`.
//! Two texts in QDIMACS stand beside them.

use crate::formulas::*;
use crate::literature::LITERATURE;
use crate::reference::{Format, Node, Quantifier};
use Quantifier::{Exists, ForAll};

const WIDE: Format = Format::WIDE;

pub struct Example {
    pub name: &'static str,
    pub says: &'static str,
    pub sheet: Vec<u8>,
    /// Written by hand, and never taken from a solver.
    pub line: &'static str,
}

fn example(name: &'static str, line: &'static str, says: &'static str, sheet: Vec<u8>) -> Example {
    Example { name, says, sheet, line }
}

/// Valve 2 answers signal 1, valve 4 answers both signals, 1 and 3.
fn guards() -> Node {
    let follows = [clause(&[-1, 2]), clause(&[1, -2])];
    let differs =
        [clause(&[1, 3, -4]), clause(&[1, -3, 4]), clause(&[-1, 3, 4]), clause(&[-1, -3, -4])];
    and(follows.into_iter().chain(differs).collect())
}

/// Signal 1, then valve 2, then signal 3, then valve 4.
fn press_line(format: Format) -> Vec<u8> {
    sheet(format, &[(ForAll, 1), (Exists, 2), (ForAll, 3), (Exists, 4)], guards())
}

fn equal_after(format: Format) -> Vec<u8> {
    sheet(format, &[(ForAll, 2), (Exists, 1)], equal_pair())
}

/// Signals 2 to 12, with a valve 1 that every guard needs, no two of them equal. Two copies of the guards have more rows than a sheet
/// may have.
fn crowded() -> Vec<u8> {
    let mut triples = Vec::new();
    for a in 2..=12 {
        for b in a + 1..=12 {
            triples.extend((b + 1..=12).map(|c| [a, b, c]));
        }
    }
    let guards = (0..1200i32).map(|i| {
        let sign = |bit: i32| if i >> bit & 1 == 1 { 1 } else { -1 };
        let [a, b, c] = triples[i as usize / 8];
        clause(&[sign(0) * sign(3), sign(0) * a, sign(1) * b, sign(2) * c])
    });
    let mut prefix: Vec<_> = (2..=12).map(|x| (ForAll, x)).collect();
    prefix.push((Exists, 1));
    sheet(WIDE, &prefix, and(guards.collect()))
}

pub fn examples() -> Vec<Example> {
    vec![
        example("and-of-nothing", "true 0 0 0", "no variable, AND of nothing", sheet(WIDE, &[], and(vec![]))),
        example("or-of-nothing", "false 0 0 0", "no variable, OR of nothing", sheet(WIDE, &[], or(vec![]))),
        example("one-tautology", "true 0 0 0", "for all 1: 1 or not 1", sheet(WIDE, &all(ForAll, 1), clause(&[1, -1]))),
        example("two-tautology", "true 0 1 0", "for all 1, 2: one of the four cases holds", sheet(WIDE, &all(ForAll, 2), four_cubes())),
        example("semantic-tree", "false 1 2 0", "document 001, figure 1", WIDE.encode(&semantic_tree_figure())),
        example("nnf-exists", "true 1 0 0", "document 000, figure 1, all exists", sheet(WIDE, &all(Exists, 4), nnf_tree_figure())),
        example("nnf-for-all", "false 3 0 0", "document 000, figure 1, all for-all", sheet(WIDE, &all(ForAll, 4), nnf_tree_figure())),
        example("equal-after", "true 0 1 0", "for all 2, exists 1: both are equal", equal_after(WIDE)),
        example("equal-before", "false 0 1 0", "exists 1, for all 2: both are equal", sheet(WIDE, &[(Exists, 1), (ForAll, 2)], equal_pair())),
        example(
            "press-line",
            "true 0 3 0",
            "signal 1, then valve 2, then signal 3, then valve 4: 2 follows 1, and 4 is open exactly if one of 1 and 3 is on",
            press_line(WIDE),
        ),
        example(
            "press-line-early",
            "false 0 3 0",
            "the same with valve 4 set before signal 3",
            sheet(WIDE, &[(ForAll, 1), (Exists, 2), (Exists, 4), (ForAll, 3)], guards()),
        ),
        example("crowded", "stopped 0 0 1", "exists 1 innermost, in 1,200 guards: two copies have too many rows", crowded()),
        example("too-many-variables", "refused 0 0 2", "V = 1,025", WIDE.sheet_of(1025, &vec![(1, 1); 1026])),
        example("cut-short", "refused 0 0 3", "the last byte is missing", {
            let mut bytes = equal_after(WIDE);
            bytes.pop();
            bytes
        }),
    ]
}

/// Sheets of 16-bit numbers, each with the line of `solve --from narrow`. The
/// program itself refuses them.
pub fn narrow_examples() -> Vec<Example> {
    vec![
        example(
            "equal-after",
            "true 0 1 0",
            "for all 2, exists 1: both are equal",
            equal_after(Format::NARROW),
        ),
        example("press-line", "true 0 3 0", "the press line", press_line(Format::NARROW)),
    ]
}

/// A text in QDIMACS, with the line of `solve --from qdimacs`.
pub struct TextExample {
    pub name: &'static str,
    pub says: &'static str,
    pub text: String,
    pub line: &'static str,
}

pub fn text_examples() -> Vec<TextExample> {
    let equality = LITERATURE.iter().find(|family| family.name == "equality");
    let equality = equality.expect("a family of the literature").qdimacs(3).text();
    vec![
        TextExample {
            name: "press-line",
            says: "the press line as clauses: the very rows of `press-line`",
            text: String::from(PRESS_LINE),
            line: "true 0 3 0",
        },
        TextExample {
            name: "equality",
            says: "equality for n = 3, of Beyersdorff, Blinkhorn and Hinde, 2018: some t is true, and none \
                   may be whose u is its x",
            text: format!("{EQUALITY}{equality}"),
            line: "false 2 6 0",
        },
    ]
}

const PRESS_LINE: &str = "\
c The press sends signal 1, and valve 2 answers; then it sends signal 3, and valve 4 answers.
c Sheets keep moving if valve 2 is open exactly with signal 1, and valve 4 exactly with one of the signals.
p cnf 4 6
a 1 0
e 2 0
a 3 0
e 4 0
-1 2 0
1 -2 0
1 3 -4 0
1 -3 4 0
-1 3 4 0
-1 -3 -4 0
";

const EQUALITY: &str = "\
c Equality for n = 3: Beyersdorff, Blinkhorn, Hinde, Size, cost and capacity, 2018.
c Exists x1 x2 x3, for all u1 u2 u3, exists t1 t2 t3: some t is true, and ti is false if ui is xi.
";
