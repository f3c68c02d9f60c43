//! `./plumanchor COMMAND ..`: the proved operations for people. This tool is
//! tested, not proved: it reads files, converts, calls the operations and shows
//! what they answer.
//!
//! `commands` has a file for each command. `sheet` is all that calls the proved
//! operations, by the crate `plumanchor`; a `Format` is one width of sheet.

mod arguments;
mod clausal;
mod command;
mod commands;
mod completions;
mod dot;
mod format;
mod formula;
mod help;
mod input;
mod interrupt;
mod json;
mod manual;
mod names;
mod options;
mod panel;
mod picture;
mod progress;
mod qcir;
mod qdimacs;
mod qrp;
mod refusal;
mod relevant;
mod rule;
mod search;
mod sheet;
mod strategy;
mod words;

use arguments::{Arguments, Misuse};
use command::{Answer, Command, Failure};
use options::{JSON, QUIET};
use std::ffi::OsString;
use std::io::{stderr, Read, Write};

/// Exit status, standard output and standard error of a call.
#[derive(Debug, PartialEq, Eq)]
pub struct Ended {
    pub status: u8,
    pub output: Vec<u8>,
    pub message: String,
}

/// Says something on standard error. Where that can't be written there is nobody to tell.
pub fn tell(message: &str) {
    let _ = stderr().write_all(message.as_bytes());
}

/// Carries out a command line.
pub fn call(words: Vec<OsString>, standard_input: impl Read + 'static) -> Ended {
    let answer = answer(words, Box::new(standard_input))
        .unwrap_or_else(|failure| Answer { refusal: Some(failure), ..Answer::default() });
    let Answer { output, note, refusal, status, .. } = answer;
    let usual = refusal.as_ref().map_or(0, Failure::status);
    let message = refusal.map_or(note, |failure| format!("plumanchor: {failure}\n"));
    Ended { status: status.unwrap_or(usual), output, message }
}

fn answer(mut words: Vec<OsString>, standard_input: Box<dyn Read>) -> Result<Answer, Failure> {
    if words.is_empty() {
        return Err(Misuse::new("which command?").into());
    }
    let rest = words.split_off(1);
    match (words[0].to_str(), &rest[..]) {
        (Some("--help" | "-h"), []) => return Ok(help::whole().into()),
        (Some("--version" | "-V"), []) => {
            return Ok(format!("plumanchor {}\n", env!("CARGO_PKG_VERSION")).into());
        }
        _ => {}
    }
    let command = help::named(&words[0].to_string_lossy())?;
    let asks = |word: &&OsString| *word == "--help" || *word == "-h";
    if rest.iter().take_while(|word| *word != "--").any(|word| asks(&word)) {
        return Ok(help::of(command).into());
    }
    carried_out(command, Arguments::new(rest, &command.choices(), standard_input)?)
}

/// A command's answer, or its failure with the file that it is about.
fn carried_out(command: &Command, mut arguments: Arguments) -> Result<Answer, Failure> {
    let as_object = arguments.has(&JSON);
    let quiet = arguments.has(&QUIET);
    let answer = (command.run)(&mut arguments);
    let Arguments { file, taken_for, told, .. } = arguments;
    let about = |failure: Failure| failure.about(file.as_deref(), taken_for);
    let mut answer = answer.map_err(about)?;
    answer.refusal = answer.refusal.map(about);
    answer.note = if quiet { String::new() } else { told + &answer.note };
    if as_object {
        answer.output = json::object(&answer.fields).into_bytes();
    }
    Ok(answer)
}
