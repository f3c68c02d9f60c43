//! docs/MANUAL.md has the table of commands, and the manual page is made of it.

mod common;

use common::{answered, text};
use std::path::Path;

const PAGE: &str = concat!(env!("CARGO_MANIFEST_DIR"), "/../docs/MANUAL.md");
const START: &str = "<!-- commands -->\n";
const END: &str = "<!-- end of commands -->\n";

/// `MANUAL_WRITE=1` writes the part on commands anew.
#[test]
fn the_manual_has_the_table_of_commands() {
    let page = std::fs::read_to_string(Path::new(PAGE)).expect("the manual");
    let (before, rest) = page.split_once(START).expect("the start of the commands");
    let (_, behind) = rest.split_once(END).expect("the end of the commands");
    let commands = text(answered(&["manual", "--commands"], &[]));
    let written = format!("{before}{START}\n{commands}\n{END}{behind}");
    if std::env::var_os("MANUAL_WRITE").is_some() {
        std::fs::write(PAGE, &written).expect("the manual");
        return;
    }
    assert!(page == written, "MANUAL_WRITE=1 writes the commands anew");
}

/// Every line of the page is a request that is known, or text; every command has a heading.
#[test]
fn the_page_is_made_of_requests_and_text() {
    let page = text(answered(&["manual"], &[]));
    let known = ["TH", "SH", "SS", "PP", "IP", "TP", "RS", "RE", "nf", "fi"];
    for line in page.lines().filter(|line| line.starts_with(['.', '\''])) {
        let request = line[1..].split(' ').next().unwrap_or_default();
        assert!(known.contains(&request), "{line}");
    }
    for section in ["NAME", "SYNOPSIS", "EXIT STATUS", "COMMANDS"] {
        assert!(page.contains(&format!(".SH {section}\n")), "{section}");
    }
    let help = text(answered(&["help"], &[]));
    let names = help.lines().filter_map(|line| line.strip_prefix("  ")?.split(' ').next());
    for name in names.filter(|name| !name.is_empty()) {
        assert!(page.contains(&format!("\n.SS {name}\n")), "{name}");
    }
    let count = |request: &str| page.lines().filter(|line| *line == request).count();
    assert_eq!(count(".nf"), count(".fi"));
    assert_eq!(count(".RE"), page.lines().filter(|line| line.starts_with(".RS")).count());
}
