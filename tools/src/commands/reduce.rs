//! `plumanchor reduce [SHEET]`.

use crate::arguments::Arguments;
use crate::command::{Answer, Command, Failure};
use crate::input;
use crate::options::{FROM, RENUMBER};

pub const COMMAND: Command = Command {
    name: "reduce",
    purpose: "universal reduction of a set of clauses",
    words: "[SHEET] > REDUCED",
    about: "Takes from each clause the universal literals that have no existential literal of that\n\
           clause after them in the prefix, and writes the tidied sheet, as true as the first. The\n\
           sheet is a tidy AND of literals and ORs of literals, or one of these alone.\n",
    options: &[&FROM, &RENUMBER],
    run,
};

fn run(arguments: &mut Arguments) -> Result<Answer, Failure> {
    let sheet = input::sheet(arguments)?;
    Ok(sheet.reduce(sheet.format.longest())?.bytes.into())
}
