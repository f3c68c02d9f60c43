//! `plumanchor trial [SHEET]`.

use crate::arguments::Arguments;
use crate::command::{Answer, Command, Failure};
use crate::input;
use crate::json::Field;
use crate::options::{FROM, JSON, RENUMBER};

pub const COMMAND: Command = Command {
    name: "trial",
    purpose: "decide a sheet of at most 20 variables by trying values",
    words: "[SHEET]",
    about:
        "Writes the verdict, true or false, and how many leaves were tried. No tidying, settling\n\
           or expanding: a second way to the verdict, for sheets of at most 20 variables.\n",
    options: &[&FROM, &RENUMBER, &JSON],
    run,
};

fn run(arguments: &mut Arguments) -> Result<Answer, Failure> {
    let (verdict, leaves) = input::sheet(arguments)?.trial()?;
    let fields = vec![Field::flag("answer", verdict), Field::number("leaves", leaves)];
    Ok(Answer::of_words(format!("{verdict} {leaves}"), fields))
}
