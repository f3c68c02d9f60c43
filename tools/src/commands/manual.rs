//! `plumanchor manual`.

use crate::arguments::Arguments;
use crate::command::{Answer, Command, Failure};
use crate::manual;
use crate::options::Choice;

pub const COMMAND: Command = Command {
    name: "manual",
    purpose: "the manual page",
    words: "> plumanchor.1",
    about: "Writes the manual page, for 'man -l'. Its text is docs/MANUAL.md, whose part on commands is\n\
           made from the table that '--help' prints.\n",
    options: &[&COMMANDS],
    run,
};

static COMMANDS: Choice =
    Choice::flag("commands", "only the part on commands, as docs/MANUAL.md has it");

fn run(arguments: &mut Arguments) -> Result<Answer, Failure> {
    arguments.at_most(0)?;
    let text = if arguments.has(&COMMANDS) { manual::commands() } else { manual::page() };
    Ok(text.into())
}
