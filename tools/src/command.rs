//! What a command is, and how it ends.

use crate::arguments::{Arguments, Misuse};
use crate::json::Field;
use crate::names::Names;
use crate::options::{Choice, HELP, QUIET};
use crate::refusal::Refusal;
use plumanchor::Solved;
use std::fmt::{self, Display, Formatter};

/// A command: its name, what it is for in a line, the words behind it beside options, what is to
/// be known of it, the options that it takes beside those of every command, and what it does.
pub struct Command {
    pub name: &'static str,
    pub purpose: &'static str,
    pub words: &'static str,
    pub about: &'static str,
    pub options: &'static [&'static Choice],
    pub run: fn(&mut Arguments) -> Result<Answer, Failure>,
}

impl Command {
    /// Its own options, and those of every command.
    pub fn choices(&self) -> Vec<&'static Choice> {
        self.options.iter().copied().chain([&QUIET, &HELP]).collect()
    }

    /// How it is called.
    pub fn usage(&self) -> String {
        let words = if self.words.is_empty() { String::new() } else { format!(" {}", self.words) };
        format!("plumanchor {} [OPTIONS]{words}", self.name)
    }
}

/// What goes to standard output, and what is told beside it on standard error. A line that itself
/// says "refused" comes with the refusal. The fields say for programs what the output says.
#[derive(Default)]
pub struct Answer {
    pub output: Vec<u8>,
    pub note: String,
    pub refusal: Option<Failure>,
    pub fields: Vec<Field>,
    /// The exit status, if not the usual one.
    pub status: Option<u8>,
}

impl Answer {
    /// The program's line, behind what else is told.
    pub fn of_run(told: &str, names: &Names, solved: Result<Solved, Failure>) -> Answer {
        let (line, fields, refusal) = match solved {
            Ok(solved) => (names.line(&solved), run_fields(&solved, names), None),
            Err(failure) => {
                let (number, words) = (failure.number(), failure.to_string());
                let fields = vec![
                    Field::text("answer", "refused"),
                    Field::number("number", usize::from(number)),
                    Field::text("message", &words),
                ];
                (format!("refused 0 0 {number}"), fields, Some(failure))
            }
        };
        Answer {
            output: format!("{told}{line}\n").into_bytes(),
            fields,
            refusal,
            ..Answer::default()
        }
    }

    /// A line of words, and the same as fields.
    pub fn of_words(line: String, fields: Vec<Field>) -> Answer {
        Answer { output: format!("{line}\n").into_bytes(), fields, ..Answer::default() }
    }

    /// The same with something told beside it.
    pub fn with_note(self, note: String) -> Answer {
        Answer { note, ..self }
    }
}

fn run_fields(solved: &Solved, names: &Names) -> Vec<Field> {
    let answer = solved.verdict.map_or("stopped".to_string(), |verdict| verdict.to_string());
    let mut fields = vec![
        Field::text("answer", &answer),
        Field::number("settled", solved.settled),
        Field::number("expanded", solved.expanded),
    ];
    if solved.verdict.is_none() {
        fields.push(Field::text("variable", &names.of(solved.variable)));
    }
    fields
}

impl From<Vec<u8>> for Answer {
    fn from(output: Vec<u8>) -> Answer {
        Answer { output, ..Answer::default() }
    }
}

impl From<String> for Answer {
    fn from(text: String) -> Answer {
        text.into_bytes().into()
    }
}

/// Why a command ends without an answer.
#[derive(Debug)]
pub enum Failure {
    /// The command line, or a file that can't be read.
    Misused(Misuse),
    /// An operation's refusal.
    Refused(Refusal),
    /// A text that is none of its format or that no sheet can hold, a node that isn't there, or a
    /// question that the sheet doesn't raise.
    Unusable(String),
    /// What the tool worked out differs from what a proved operation says.
    Contradicted(String),
    /// A failure with the file it is about.
    Of(String, Box<Failure>),
}

impl Failure {
    /// The exit status.
    pub fn status(&self) -> u8 {
        match self {
            Failure::Refused(_) | Failure::Unusable(_) => 1,
            Failure::Misused(_) => 2,
            Failure::Contradicted(_) => 3,
            Failure::Of(_, failure) => failure.status(),
        }
    }

    /// A refusal's number; 0 for a text that is refused in words alone.
    pub fn number(&self) -> u8 {
        match self {
            Failure::Refused(refusal) => refusal.number,
            Failure::Of(_, failure) => failure.number(),
            _ => 0,
        }
    }

    /// The same with the input it is about: its file, and what it was taken for.
    pub fn about(self, file: Option<&str>, taken_for: Option<&'static str>) -> Failure {
        let failure = match (self, taken_for) {
            (Failure::Refused(refusal), Some(taken)) => Failure::Refused(refusal.taken_for(taken)),
            (failure, _) => failure,
        };
        match (failure, file) {
            (failure @ (Failure::Refused(_) | Failure::Unusable(_)), Some(file)) => {
                Failure::Of(file.to_string(), Box::new(failure))
            }
            (failure, _) => failure,
        }
    }
}

impl Display for Failure {
    fn fmt(&self, to: &mut Formatter) -> fmt::Result {
        match self {
            Failure::Misused(misuse) => write!(to, "{misuse}; 'plumanchor --help' tells more"),
            Failure::Refused(refusal) => refusal.fmt(to),
            Failure::Unusable(why) => why.fmt(to),
            Failure::Contradicted(what) => write!(to, "a mistake of this tool: {what}"),
            Failure::Of(file, failure) => write!(to, "{file}: {failure}"),
        }
    }
}

impl From<Misuse> for Failure {
    fn from(misuse: Misuse) -> Failure {
        Failure::Misused(misuse)
    }
}

impl From<Refusal> for Failure {
    fn from(refusal: Refusal) -> Failure {
        Failure::Refused(refusal)
    }
}
