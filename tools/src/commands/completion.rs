//! `plumanchor completion SHELL`.

use crate::arguments::{Arguments, Misuse};
use crate::command::{Answer, Command, Failure};
use crate::completions;

pub const COMMAND: Command = Command {
    name: "completion",
    purpose: "what completes commands and options in a shell",
    words: "SHELL > FILE",
    about: "Writes what bash, zsh or fish needs to complete the commands, their options and the words\n\
           that these can have. 'source <(plumanchor completion bash)' is enough to try it.\n",
    options: &[],
    run,
};

fn run(arguments: &mut Arguments) -> Result<Answer, Failure> {
    arguments.at_most(1)?;
    let shell = arguments.asked("shell")?;
    let text = match shell.as_str() {
        "bash" => completions::bash(),
        "zsh" => completions::zsh(),
        "fish" => completions::fish(),
        _ => {
            return Err(Misuse::new(format!("no shell '{shell}'; there are bash, zsh, fish")).into())
        }
    };
    Ok(text.into())
}
