//! `plumanchor resume STARTED SETTLED EXPANDED [SHEET]`.

use super::solve::{lacking, Reached};
use crate::arguments::Arguments;
use crate::command::{Answer, Command, Failure};
use crate::format::{DEFAULT, WIDE};
use crate::input::{self, Input};
use crate::options::{FROM, JSON, NAMES, REACHED, RENUMBER, ROOM};
use plumanchor::Counts;

pub const COMMAND: Command = Command {
    name: "resume",
    purpose: "go on from the sheet that a stopped run reached",
    words: "STARTED SETTLED EXPANDED [SHEET]",
    about: "Goes on from the sheet that a stopped run reached, under the wide limits: STARTED is how\n\
           many variables the first sheet has, SETTLED and EXPANDED stand on the run's line. Writes\n\
           the program's line, with those counts added.\n",
    options: &[&FROM, &RENUMBER, &NAMES, &ROOM, &REACHED, &JSON],
    run,
};

fn run(arguments: &mut Arguments) -> Result<Answer, Failure> {
    let started = arguments.number("starting count")?;
    let settled = arguments.number("number settled")?;
    let expanded = arguments.number("number expanded")?;
    let asked = arguments.number_option(&ROOM)?;
    let file = arguments.file_option(&REACHED);
    let Input { sheet, names, .. } = input::input(arguments, DEFAULT)?;
    let room = input::within(WIDE.longest(), asked)?;
    let counts = Counts { started, settled, expanded };
    let run = sheet.resume(counts, room).map_err(|refusal| lacking(refusal, &sheet, room));
    Reached { started, room, file, names }.told(run.map_err(Failure::from))
}
