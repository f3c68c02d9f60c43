//! `plumanchor part NODE [SHEET]`.

use crate::arguments::Arguments;
use crate::command::{Answer, Command, Failure};
use crate::input;
use crate::json::Field;
use crate::options::{FROM, JSON, RENUMBER};

pub const COMMAND: Command = Command {
    name: "part",
    purpose: "the kinds of the rows of a subtree",
    words: "NODE [SHEET]",
    about:
        "Writes the kinds of the rows that the subtree at a node covers, in preorder. Nodes count\n\
           from 0, the root. Kinds: 3 a variable, 4 its negation, 5 AND, 6 OR.\n",
    options: &[&FROM, &RENUMBER, &JSON],
    run,
};

fn run(arguments: &mut Arguments) -> Result<Answer, Failure> {
    let node = arguments.number("node")?;
    let sheet = input::sheet(arguments)?;
    let (_, nodes) = sheet.check()?;
    match sheet.part(node) {
        [] => {
            let most = nodes - 1;
            Err(Failure::Unusable(format!("node {node} is not there: nodes are 0 to {most}")))
        }
        kinds => {
            let words: Vec<String> = kinds.iter().map(u8::to_string).collect();
            let numbers = kinds.iter().map(|&kind| usize::from(kind));
            Ok(Answer::of_words(words.join(" "), vec![Field::numbers("kinds", numbers)]))
        }
    }
}
