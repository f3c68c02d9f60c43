//! The options that several commands take, as `--help`, the manual page and the
//! completions list them.

/// An option: its name, what its value is called if it takes one, what it is for
/// in a line, and the words that it can have where these are few.
pub struct Choice {
    pub name: &'static str,
    pub value: Option<&'static str>,
    pub purpose: &'static str,
    pub among: &'static [&'static str],
}

impl Choice {
    /// An option with a value.
    pub const fn of(name: &'static str, value: &'static str, purpose: &'static str) -> Choice {
        Choice { name, value: Some(value), purpose, among: &[] }
    }

    /// One that is given or not.
    pub const fn flag(name: &'static str, purpose: &'static str) -> Choice {
        Choice { name, value: None, purpose, among: &[] }
    }

    /// The same with a value among these words.
    pub const fn among(self, among: &'static [&'static str]) -> Choice {
        Choice { among, ..self }
    }
}

pub static FROM: Choice =
    Choice::of("from", "FORMAT", "what the input is written in, if not as its first bytes say")
        .among(&["wide", "narrow", "qcir", "qdimacs"]);
pub static NAMES: Choice =
    Choice::of("names", "FILE", "call variables by names: a number and a name a line");
pub static RENUMBER: Choice =
    Choice::flag("renumber", "number the variables of a QDIMACS text that occur from 1");
pub static ROOM: Choice =
    Choice::of("room", "BYTES", "the length of each work buffer, if not the longest sheet's");
pub static REACHED: Choice =
    Choice::of("reached", "FILE", "keep the sheet that the run reaches, for 'resume'");
pub static STATUS: Choice =
    Choice::flag("status", "exit with 10 for true and 20 for false, as QBF solvers do");
pub static JSON: Choice = Choice::flag("json", "answer with an object of JSON in a line");

/// What every command takes.
pub static QUIET: Choice =
    Choice::flag("quiet", "say nothing on standard error but why there is no answer");
pub static HELP: Choice = Choice::flag("help", "tell of the command (-h)");
