//! docs/BENCHMARKS.md is what the benchmark prints: here of one short section, figures aside.

use std::process::Command;

const PAGE: &str = include_str!("../../../docs/BENCHMARKS.md");

/// A section's lines without what is measured, and when: of a table's row only the first cell.
fn measured_aside(lines: &[&str]) -> Vec<String> {
    let aside = |line: &&str| match line.strip_prefix("| ") {
        Some(cells) => cells.split('|').next().unwrap_or_default().trim().to_string(),
        None if line.starts_with("|-") => String::from("|"),
        None => line.to_string(),
    };
    let kept = |line: &String| !line.is_empty() && !line.starts_with("Measured on ");
    lines.iter().map(aside).filter(kept).collect()
}

#[test]
fn the_page_is_what_the_benchmark_prints() {
    let run = Command::new(env!("CARGO_BIN_EXE_bench")).arg("order").output().expect("a run");
    assert!(run.status.success());
    let printed = String::from_utf8(run.stdout).expect("a text");
    let printed: Vec<&str> = printed.lines().skip_while(|line| !line.starts_with("## ")).collect();
    let heading = printed[0];
    let section: Vec<&str> = PAGE.lines().skip_while(|line| *line != heading).collect();
    let length = 1 + section[1..].iter().take_while(|line| !line.starts_with("## ")).count();
    assert_eq!(measured_aside(&section[..length]), measured_aside(&printed));
}
