//! `plumanchor check [SHEET]`.

use crate::arguments::Arguments;
use crate::command::{Answer, Command, Failure};
use crate::input;
use crate::json::Field;
use crate::options::{FROM, JSON, RENUMBER};
use crate::words::count;

pub const COMMAND: Command = Command {
    name: "check",
    purpose: "whether the bytes are a sheet",
    words: "[SHEET]",
    about:
        "Writes how many variables and nodes the sheet has. Bytes that are none are refused with\n\
           the number, what it means and the row at fault.\n",
    options: &[&FROM, &RENUMBER, &JSON],
    run,
};

fn run(arguments: &mut Arguments) -> Result<Answer, Failure> {
    let (variables, nodes) = input::sheet(arguments)?.check()?;
    let line = format!("{}, {}", count(variables, "variable"), count(nodes, "node"));
    let fields = vec![Field::number("variables", variables), Field::number("nodes", nodes)];
    Ok(Answer::of_words(line, fields))
}
