//! `plumanchor expand X [SHEET]`.

use crate::command::Command;
use crate::input::step;
use crate::options::{FROM, NAMES, RENUMBER};
use crate::sheet::Sheet;

pub const COMMAND: Command = Command {
    name: "expand",
    purpose: "replace an innermost variable by two copies",
    words: "X [SHEET] > EXPANDED",
    about: "Writes the sheet without variable X, of the same truth and tidied: the relevant subtree\n\
           stands in it twice, with 0 and with 1 put in. X must be in the innermost block; the sheet\n\
           must be tidy. 'quote X' tells beforehand what it costs.\n",
    options: &[&FROM, &RENUMBER, &NAMES],
    run: |arguments| step(arguments, Sheet::expand),
};
