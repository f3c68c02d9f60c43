//! `plumanchor help [COMMAND]`.

use crate::arguments::Arguments;
use crate::command::{Answer, Command, Failure};
use crate::help;

pub const COMMAND: Command = Command {
    name: "help",
    purpose: "what the commands are, or what one does",
    words: "[COMMAND]",
    about: "Lists the commands, as '--help' does, or tells of one, as 'COMMAND --help' does.\n",
    options: &[],
    run,
};

fn run(arguments: &mut Arguments) -> Result<Answer, Failure> {
    arguments.at_most(1)?;
    Ok(match arguments.word()? {
        None => help::whole().into(),
        Some(name) => help::of(help::named(&name)?).into(),
    })
}
