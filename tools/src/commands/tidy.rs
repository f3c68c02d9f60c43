//! `plumanchor tidy [SHEET]`.

use crate::arguments::Arguments;
use crate::command::{Answer, Command, Failure};
use crate::input;
use crate::options::{FROM, RENUMBER};

pub const COMMAND: Command = Command {
    name: "tidy",
    purpose: "tidy a sheet",
    words: "[SHEET] > TIDIED",
    about: "Writes the tidied sheet, of the same truth and never longer, in the format of the one given.\n",
    options: &[&FROM, &RENUMBER],
    run,
};

fn run(arguments: &mut Arguments) -> Result<Answer, Failure> {
    let sheet = input::sheet(arguments)?;
    Ok(sheet.tidy(sheet.format.longest())?.bytes.into())
}
