//! Writes the sheets and texts of `examples/` and the tables of what they say.

use outside::examples::{examples, narrow_examples, text_examples, Example};
use std::fs;

const FOLDER: &str = concat!(env!("CARGO_MANIFEST_DIR"), "/../../examples");

/// Writes sheets below `examples/` and returns the rows of their table.
fn write_to(folder: &str, examples: Vec<Example>) -> std::io::Result<String> {
    fs::create_dir_all(format!("{FOLDER}/{folder}"))?;
    let mut table = String::from("| sheet | what it says | line |\n|---|---|---|\n");
    for example in examples {
        let name = format!("{folder}{}", example.name);
        fs::write(format!("{FOLDER}/{name}.sheet"), &example.sheet)?;
        table += &format!("| {name} | {} | `{}` |\n", example.says, example.line);
    }
    Ok(table)
}

fn write_texts() -> std::io::Result<String> {
    let mut table = String::from("| text | what it says | line |\n|---|---|---|\n");
    for example in text_examples() {
        fs::write(format!("{FOLDER}/{}.qdimacs", example.name), &example.text)?;
        table += &format!("| {} | {} | `{}` |\n", example.name, example.says, example.line);
    }
    Ok(table)
}

const CIRCUIT: &str =
    "`press-line.qcir` is the question of `press-line` as a circuit with names, the one of \
     the tour in the main README; it gives the same line. `print-line.qcir` is a line of a real \
     size, with eight signals and nine valves over four turns, true; `print-line-one-air.qcir` is \
     the same with two valves on one line of air, false. `print-line.md` tells both.";

fn main() -> std::io::Result<()> {
    let wide = write_to("", examples())?;
    let narrow = write_to("narrow/", narrow_examples())?;
    let texts = write_texts()?;
    let text = format!(
        "# Examples\n\n`./plumanchor < examples/NAME.sheet` writes the line.\n\n{wide}\n{CIRCUIT}\n\n\
         Texts in QDIMACS are solved by `./plumanchor solve --from qdimacs examples/NAME.qdimacs`.\n\n{texts}\n\
         Sheets of 16-bit numbers are solved by `./plumanchor solve --from narrow examples/NAME.sheet`.\n\n{narrow}"
    );
    fs::write(format!("{FOLDER}/README.md"), text)
}
