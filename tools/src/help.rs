//! What `--help` writes, from the table of commands.

use crate::arguments::Misuse;
use crate::command::Command;
use crate::commands::COMMANDS;

/// The command of a name.
pub fn named(name: &str) -> Result<&'static Command, Misuse> {
    let command = COMMANDS.iter().find(|command| command.name == name);
    command.ok_or_else(|| {
        Misuse::new(format!("no command '{name}'; a sheet is solved by 'plumanchor solve SHEET'"))
    })
}

/// How the tool is called, and its commands.
pub fn whole() -> String {
    let mut text = String::from(
        "Usage: plumanchor < SHEET              solve the sheet: the proved program, one line\n       \
         plumanchor COMMAND [ARGUMENTS]   everything else\n\nCommands:\n",
    );
    for command in COMMANDS {
        text += &format!("  {:<10} {}\n", command.name, command.purpose);
    }
    text + "\n'plumanchor COMMAND --help' tells more, 'plumanchor --version' the version. A sheet is a file, or\n\
            '-' or nothing for standard input; '--from FORMAT' says what it is written in, if its first bytes\n\
            don't. Only the result is on standard output. The exit status is 0 with an answer, 1 for a\n\
            refused input, 2 for wrong use.\n"
}

/// What is to be known of a command: how it is called, what it does, its options.
pub fn of(command: &Command) -> String {
    let mut text = format!("Usage: {}\n\n{}\nOptions:\n", command.usage(), command.about);
    for choice in command.choices() {
        let value = choice.value.map(|value| format!(" {value}")).unwrap_or_default();
        text += &format!("  {:<16} {}\n", format!("--{}{value}", choice.name), choice.purpose);
    }
    text
}
