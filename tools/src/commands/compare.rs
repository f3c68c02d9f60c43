//! `plumanchor compare SHEET SHEET`.

use crate::arguments::Arguments;
use crate::command::{Answer, Command, Failure};
use crate::input;
use crate::json::Field;
use crate::options::{FROM, JSON, RENUMBER};

pub const COMMAND: Command = Command {
    name: "compare",
    purpose: "which of two sheets is filed first",
    words: "SHEET SHEET",
    about: "Writes 'before', 'equal' or 'after': how the first sheet stands beside the second, by their\n\
           prefixes and then by their trees, each with its children in order. Equal sheets differ in\n\
           the order of children alone.\n",
    options: &[&FROM, &RENUMBER, &JSON],
    run,
};

fn run(arguments: &mut Arguments) -> Result<Answer, Failure> {
    let [first, second] = input::two_sheets(arguments)?;
    let order = first.compare(&second)?;
    Ok(Answer::of_words(order.to_string(), vec![Field::text("order", order)]))
}
