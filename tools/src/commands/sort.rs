//! `plumanchor sort [SHEET]`.

use crate::arguments::Arguments;
use crate::command::{Answer, Command, Failure};
use crate::input;
use crate::options::{FROM, RENUMBER};

pub const COMMAND: Command = Command {
    name: "sort",
    purpose: "the sheet with all children in order",
    words: "[SHEET] > SORTED",
    about: "Writes the sheet with the children of every operator in order: literals before AND before\n\
           OR, literals by variable, positive first, operators by number of children, then child after\n\
           child. Sheets that differ only in the order of children have one sorted sheet.\n",
    options: &[&FROM, &RENUMBER],
    run,
};

fn run(arguments: &mut Arguments) -> Result<Answer, Failure> {
    let sheet = input::sheet(arguments)?;
    Ok(sheet.sort(sheet.format.longest())?.bytes.into())
}
