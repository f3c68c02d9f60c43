//! `plumanchor settle X [SHEET]`.

use crate::command::Command;
use crate::input::step;
use crate::options::{FROM, NAMES, RENUMBER};
use crate::sheet::Sheet;

pub const COMMAND: Command = Command {
    name: "settle",
    purpose: "put in the value of a variable that has a pure or a unit literal",
    words: "X [SHEET] > SETTLED",
    about: "Writes the sheet without variable X, of the same truth and tidied. X must have literals of\n\
           one sign only, or a literal at the root or under it; the sheet must be tidy.\n",
    options: &[&FROM, &RENUMBER, &NAMES],
    run: |arguments| step(arguments, Sheet::settle),
};
