//! `plumanchor split K SHEET DIR`.

use crate::arguments::{keep, Arguments, Misuse};
use crate::command::{Answer, Command, Failure};
use crate::input::{self, Input};
use crate::json::Field;
use crate::options::{FROM, JSON, NAMES, RENUMBER};
use crate::refusal::Refusal;
use crate::words::count;
use std::path::Path;

pub const COMMAND: Command = Command {
    name: "split",
    purpose: "a sheet for every list of values of the first variables",
    words: "K SHEET DIR",
    about: "Writes a sheet for every list of values of the first K variables of the prefix, up to 16 of them,\n\
           by the proved operation: that list put in, not tidied. It is named by its values, as in\n\
           '010.sheet', and 'list' has a line for each, the values and the file, below DIR. What decides\n\
           each of them, on as many machines as there are, makes the answers that 'join' takes.\n",
    options: &[&FROM, &RENUMBER, &NAMES, &JSON],
    run,
};

/// The most variables that are split on: 65,536 sheets.
pub const MOST: usize = 16;

fn run(arguments: &mut Arguments) -> Result<Answer, Failure> {
    let k = arguments.number("K")?;
    if !(1..=MOST).contains(&k) {
        return Err(Misuse::new(format!("K is 1 to {MOST}, and not {k}")).into());
    }
    let (Input { sheet, names, .. }, folder) = input::with_file(arguments, "folder")?;
    let prefix = sheet.formula()?.prefix;
    let beyond = |refusal| beyond(refusal, k, prefix.len());
    let mut list = String::new();
    for at in 0..1_u32 << k {
        let bits = format!("{at:0k$b}");
        let values: Vec<u8> = bits.bytes().map(|bit| bit - b'0').collect();
        let part = sheet.split(&values, sheet.format.longest()).map_err(beyond)?;
        if list.is_empty() {
            let unmade = |error| Misuse::new(format!("{}: {error}", folder.to_string_lossy()));
            std::fs::create_dir_all(&folder).map_err(unmade)?;
        }
        let file = format!("{bits}.sheet");
        keep(Path::new(&folder).join(&file).as_os_str(), &part.bytes)?;
        list += &format!("{bits} {file}\n");
    }
    // Behind the sheets: where it stands, all of them do.
    keep(Path::new(&folder).join("list").as_os_str(), list.as_bytes())?;
    let split: Vec<String> = prefix[..k].iter().map(|row| names.of(row.argument)).collect();
    let fields = vec![Field::number("sheets", 1 << k), Field::texts("variables", &split)];
    let note = format!(
        "plumanchor: {} in {}, by the values of {}\n",
        count(1 << k, "sheet"),
        folder.to_string_lossy(),
        split.join(", ")
    );
    Ok(Answer { note, fields, ..Answer::default() })
}

/// A refusal for too many values, with how many there are.
pub fn beyond(refusal: Refusal, k: usize, variables: usize) -> Refusal {
    if k <= variables {
        return refusal;
    }
    refusal.with_evidence(format!("{}, and {}", count(k, "value"), count(variables, "variable")))
}
