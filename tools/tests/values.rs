//! The lines 'V ..' of `solve --to qdimacs`: values of the outermost block by which its owner wins.

mod common;

use common::{called, text, READING};
use outside::generate::{self, Family, Limits, Rng};
use plumanchor::{Format, Kind, Sheet};

const SHEETS: usize = 400;

/// The literals of the lines behind the first.
fn values(output: &str) -> Vec<i32> {
    let value = |line: &str| {
        let literal = line.strip_prefix("V ").and_then(|rest| rest.strip_suffix(" 0"));
        literal.expect("a line of a value").parse().expect("a literal")
    };
    output.lines().skip(1).map(value).collect()
}

/// The outermost block's variables, if it is the winner's.
fn block(sheet: &Sheet, verdict: bool) -> Vec<i32> {
    let winner = if verdict { Kind::Exists } else { Kind::ForAll };
    let rows = sheet.prefix().take_while(|row| row.kind == winner);
    rows.map(|row| row.argument as i32).collect()
}

#[test]
fn the_values_win() {
    let mut rng = Rng::new(41);
    let mut blocks = [0, 0];
    for _ in 0..SHEETS {
        let family = if rng.one_in(2) { Family::Clauses } else { Family::Tidy };
        let limits = Limits { format: READING.format, variables: 12, nodes: 80 };
        let formula = generate::alternating_formula(&mut rng, family, limits);
        let bytes = READING.format.encode(&formula);
        let sheet = Sheet::new(Format::Wide, bytes.clone()).expect("a sheet");
        let Some(verdict) = sheet.solve().expect("a run").verdict else { continue };
        let output = text(called(&["solve", "--to", "qdimacs", "-"], &bytes).output);
        let values = values(&output);
        let variables: Vec<i32> = values.iter().map(|value| value.abs()).collect();
        assert_eq!(variables, block(&sheet, verdict), "{output}");
        let bits: Vec<u8> = values.iter().map(|&value| u8::from(value > 0)).collect();
        let left = sheet.split(&bits).expect("as many values as variables, or less");
        assert_eq!(left.trial().expect("few variables").verdict, verdict, "{output}");
        blocks[usize::from(verdict)] += usize::from(!values.is_empty());
    }
    assert!(blocks.iter().all(|&count| count > 20), "{blocks:?}");
}
