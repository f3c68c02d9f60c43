//! What the archive for C asks for from outside: `memcpy` and `memset`, which every C library and
//! every compiler's runtime has, and no more. A name more is one more that a caller without a C
//! library has to write.

mod common;

use common::{output, root};
use std::collections::BTreeSet;
use std::process::Command;

#[test]
fn the_archive_asks_for_two_names_alone() {
    let archive = root("target/staticlib/libplumanchor.a");
    let told = output(Command::new("nm").arg("-u").arg(archive), "");
    let names = told.lines().filter_map(|line| line.trim().strip_prefix("U "));
    let asked: BTreeSet<&str> = names.map(str::trim).collect();
    assert_eq!(asked, BTreeSet::from(["memcpy", "memset"]));
}
