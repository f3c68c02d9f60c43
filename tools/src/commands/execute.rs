//! `plumanchor execute X CEILING [SHEET]`.

use crate::arguments::Arguments;
use crate::command::{Answer, Command, Failure};
use crate::input::{self, Input};
use crate::options::{FROM, NAMES, RENUMBER};

pub const COMMAND: Command = Command {
    name: "execute",
    purpose: "expand a variable if it costs no more than a ceiling",
    words: "X CEILING [SHEET] > EXPANDED",
    about: "As 'expand X', but refused if the raw sheet has more node rows than CEILING.\n",
    options: &[&FROM, &RENUMBER, &NAMES],
    run,
};

fn run(arguments: &mut Arguments) -> Result<Answer, Failure> {
    let word = arguments.asked("variable")?;
    let ceiling = arguments.number("ceiling")?;
    let (x, Input { sheet, .. }) = input::with_variable(arguments, &word)?;
    let room = sheet.format.longest();
    let executed = sheet.execute(x, ceiling, room);
    Ok(executed.map_err(|refusal| input::lacking(refusal, &sheet, x, room))?.bytes.into())
}
