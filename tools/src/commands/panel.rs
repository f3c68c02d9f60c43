//! `plumanchor panel [SHEET [STRATEGY]]`.

use super::claim::{Claimed, SIDE};
use super::strategy::won;
use crate::arguments::{Arguments, Misuse};
use crate::command::{Answer, Command, Failure};
use crate::format::DEFAULT;
use crate::input::{self, Input};
use crate::options::{FROM, NAMES, RENUMBER};
use crate::panel::{self, Standing};
use std::path::Path;

pub const COMMAND: Command = Command {
    name: "panel",
    purpose: "a page for a tablet, to play against a strategy",
    words: "[SHEET [STRATEGY]] > PAGE",
    about: "Writes a page for a browser, one file that needs no network. Turn by turn the prefix stands\n\
           there as switches and lamps: on true the valves answer by the strategy, and whoever plays\n\
           sends the signals of the press; on false the press answers, and no setting of the valves\n\
           helps. Beside them are the functions, the matrix as a tree that shows what holds now, and\n\
           the outcome. 'Play all' is a table of all plays, up to 256. The address has the play, as\n\
           in 'panel.html#feed=1,jam=0'.\n\
           STRATEGY is any that 'claim' takes: the page answers by it, says whether it wins, and shows\n\
           which plays break it.\n",
    options: &[&FROM, &RENUMBER, &NAMES, &SIDE],
    run,
};

fn run(arguments: &mut Arguments) -> Result<Answer, Failure> {
    let files = arguments.left();
    let title = title(&files);
    if files.len() > 1 {
        let claimed = Claimed::read(arguments)?;
        let standing = claimed.wins()?.map_or(Standing::Open, Standing::Judged);
        return Ok(panel::page(&title, &claimed.strategy, standing, &claimed.guards).into());
    }
    if arguments.has(&SIDE) {
        return Err(Misuse::new("--side is of a strategy that is handed in").into());
    }
    let Input { sheet, names, guards, .. } = input::input(arguments, DEFAULT)?;
    let strategy = won(&sheet.carried(DEFAULT)?, &names)?;
    Ok(panel::page(&title, &strategy, Standing::Found, &guards).into())
}

/// What the files are called.
fn title(files: &[String]) -> String {
    let name = |file: &String| {
        let name = Path::new(file).file_name().filter(|_| file != "-");
        name.map_or("standard input".to_string(), |name| name.to_string_lossy().into_owned())
    };
    match files {
        [] => "standard input".to_string(),
        _ => files.iter().map(name).collect::<Vec<_>>().join(", "),
    }
}
