//! Writes the test program's input and the lines that it must write.

use outside::{stored, with_deep_stack};
use std::fs;

fn main() -> std::io::Result<()> {
    let folder = concat!(env!("CARGO_MANIFEST_DIR"), "/../../crates/cases");
    with_deep_stack(|| {
        let cases = stored::cases();
        fs::write(format!("{folder}/stdin"), stored::input(&cases))?;
        fs::write(format!("{folder}/stdout"), stored::lines(&cases))
    })
}
