//! `plumanchor response X [SHEET]`.

use crate::arguments::{Arguments, Misuse};
use crate::command::{Answer, Command, Failure};
use crate::input::{self, Input};
use crate::json::Field;
use crate::options::{Choice, FROM, JSON, NAMES, RENUMBER};
use crate::strategy::text;

static TO: Choice =
    Choice::of("to", "FORMAT", "sheet: write the function's sheet, without the row of X")
        .among(&["sheet"]);

pub const COMMAND: Command = Command {
    name: "response",
    purpose: "the function by which a variable answers the others",
    words: "X [SHEET]",
    about: "Writes the function of variable X in a tidy sheet, X = FUNCTION: with its value for X the matrix\n\
           is what X's side can make of it, whatever the other variables are. If X may be settled that is\n\
           the constant that Settle puts in; else X is in the innermost block, and it is what expanding X\n\
           copies, with 1 for an exists variable and 0 for one of for all put in, tidied.\n",
    options: &[&FROM, &RENUMBER, &NAMES, &TO, &JSON],
    run,
};

fn run(arguments: &mut Arguments) -> Result<Answer, Failure> {
    let to_sheet = match arguments.option(&TO)?.as_deref() {
        None => false,
        Some("sheet") => true,
        Some(other) => return Err(Misuse::new(format!("no function as '{other}'")).into()),
    };
    let (x, Input { sheet, names, .. }) = input::variable_and_input(arguments)?;
    let function = sheet.response(x, sheet.format.longest())?;
    let (prefix, rows) = (sheet.formula()?.prefix, function.formula()?.matrix);
    let fields = vec![
        Field::text("variable", &names.of(x)),
        Field::text("function", &text::words(&rows, &prefix, &names)),
    ];
    let line = text::function_line(x, &rows, &prefix, &names).into_bytes();
    let output = if to_sheet { function.bytes } else { line };
    Ok(Answer { output, fields, ..Answer::default() })
}
