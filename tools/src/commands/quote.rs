//! `plumanchor quote X [SHEET]`.

use crate::arguments::Arguments;
use crate::command::{Answer, Command, Failure};
use crate::input;
use crate::json::Field;
use crate::options::{FROM, JSON, NAMES, RENUMBER};

pub const COMMAND: Command = Command {
    name: "quote",
    purpose: "what expanding a variable costs",
    words: "X [SHEET]",
    about:
        "Writes how many node rows the raw sheet of the expansion of variable X has, before it is\n\
           tidied. Nothing is expanded. Refused as Expand would be, but for want of room.\n",
    options: &[&FROM, &RENUMBER, &NAMES, &JSON],
    run,
};

fn run(arguments: &mut Arguments) -> Result<Answer, Failure> {
    let (x, input) = input::variable_and_input(arguments)?;
    let rows = input.sheet.quote(x)?;
    Ok(Answer::of_words(rows.to_string(), vec![Field::number("rows", rows)]))
}
