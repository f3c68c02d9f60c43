//! The page that the benchmark writes: sections with tables in Markdown, whose
//! columns are aligned for a terminal too.

use std::fmt::{self, Display, Formatter};
use std::process::Command;
use std::time::Duration;

/// A table with so many columns.
pub struct Table<const COLUMNS: usize> {
    head: [&'static str; COLUMNS],
    rows: Vec<[String; COLUMNS]>,
}

impl<const COLUMNS: usize> Table<COLUMNS> {
    pub fn new(head: [&'static str; COLUMNS]) -> Self {
        Table { head, rows: Vec::new() }
    }

    pub fn row(&mut self, cells: [String; COLUMNS]) {
        self.rows.push(cells);
    }
}

impl<const COLUMNS: usize> Display for Table<COLUMNS> {
    fn fmt(&self, to: &mut Formatter) -> fmt::Result {
        let head = self.head.map(String::from);
        let length = |row: &[String; COLUMNS], column: usize| row[column].chars().count();
        let widths: [usize; COLUMNS] = std::array::from_fn(|column| {
            let cells = self.rows.iter().chain([&head]);
            cells.map(|row| length(row, column)).max().unwrap_or(0)
        });
        let line = |to: &mut Formatter, row: &[String; COLUMNS]| {
            let cells = row.iter().zip(widths).map(|(cell, width)| format!("{cell:<width$}"));
            writeln!(to, "| {} |", cells.collect::<Vec<String>>().join(" | "))
        };
        line(to, &head)?;
        writeln!(to, "|{}", widths.map(|width| format!("{}|", "-".repeat(width + 2))).join(""))?;
        self.rows.iter().try_for_each(|row| line(to, row))
    }
}

/// A time with three digits at most.
pub fn shown(time: Duration) -> String {
    let seconds = time.as_secs_f64();
    let (number, unit) = match seconds {
        s if s < 1e-6 => (1e9 * s, "ns"),
        s if s < 1e-3 => (1e6 * s, "µs"),
        s if s < 1.0 => (1e3 * s, "ms"),
        s => (s, "s"),
    };
    let digits = if number < 10.0 { 1 } else { 0 };
    format!("{number:.digits$} {unit}")
}

/// A section's heading, what its tables show, and how it was made.
pub fn section(heading: &str, about: &str) {
    println!("\n## {heading}\n\n{about}\n\n{}.\n", measured());
}

/// How the page is made.
pub fn head(command: &str, sections: &[&str]) {
    println!("# Benchmarks\n");
    println!("This page is what the benchmark prints, section by section:\n\n    {command}\n");
    println!(
        "Behind `bench --` sections can be named: {}. It reports and never fails.",
        sections.iter().map(|name| format!("`{name}`")).collect::<Vec<String>>().join(", "),
    );
}

/// The day, the commit and the machine, as far as they can be found out.
fn measured() -> String {
    let day = said("date", &["-u", "+%Y-%m-%d"]).unwrap_or_else(|| "a day unknown".into());
    let commit = said("git", &["describe", "--always", "--dirty= with changes", "--exclude=*"])
        .unwrap_or_else(|| "unknown".into());
    let cores = std::thread::available_parallelism().map_or(1, usize::from);
    let model = std::fs::read_to_string("/proc/cpuinfo").ok().and_then(|text| model(&text));
    let model = model.unwrap_or_else(|| "a processor unknown".into());
    let load = std::fs::read_to_string("/proc/loadavg").unwrap_or_default();
    let load = load.split(' ').next().unwrap_or("unknown").to_string();
    format!(
        "Measured on {day}, commit {commit}, {model} with {cores} cores, load {load} when it began"
    )
}

fn model(text: &str) -> Option<String> {
    let line = text.lines().find(|line| line.starts_with("model name"))?;
    Some(line.split_once(':')?.1.trim().to_string())
}

/// What a program writes, without its end of line.
fn said(program: &str, arguments: &[&str]) -> Option<String> {
    let output = Command::new(program).args(arguments).output().ok()?;
    let text = String::from_utf8(output.stdout).ok()?;
    (output.status.success()).then(|| text.trim().to_string())
}
