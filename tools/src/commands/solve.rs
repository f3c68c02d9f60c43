//! `plumanchor solve [SHEET]`.

use super::explain::most_rows;
use crate::arguments::{keep, Arguments, Misuse};
use crate::clausal;
use crate::command::{Answer, Command, Failure};
use crate::format::DEFAULT;
use crate::input::{self, Input};
use crate::json::Field;
use crate::names::Names;
use crate::options::{Choice, FROM, JSON, NAMES, REACHED, RENUMBER, ROOM, STATUS};
use crate::qdimacs;
use crate::refusal::Refusal;
use crate::sheet::Sheet;
use crate::strategy::{found, Found};
use crate::words::count;
use plumanchor::Solved;
use std::ffi::OsString;
use std::time::Instant;

pub const COMMAND: Command = Command {
    name: "solve",
    purpose: "the program's line, also for other formats",
    words: "[SHEET]",
    about: "Writes the program's line: true, false, stopped or refused; how many variables were\n\
           settled; how many expanded; 0, the variable stopped at or the refusal's number, 0 for a\n\
           circuit that is refused in words. A sheet of 16-bit numbers is carried over to the\n\
           program's format first, by the proved operation, and a text in QDIMACS 1.1 is read by one.\n\
           With '--status' the exit status is 10 for true, 20 for false and 0 for stopped. With '--to\n\
           qdimacs' lines 'V ..' have the values of the outermost block by which its owner wins, taken\n\
           from the proved strategy.\n",
    options: &[&FROM, &RENUMBER, &NAMES, &ROOM, &REACHED, &TO, &STATUS, &STATS, &JSON],
    run,
};

static STATS: Choice =
    Choice::flag("stats", "tell the steps, the most rows on the way and the time");
static TO: Choice = Choice::of("to", "FORMAT", "qdimacs: answer with lines 's cnf ..' and 'V ..'")
    .among(&["qdimacs"]);

fn run(arguments: &mut Arguments) -> Result<Answer, Failure> {
    let asked = arguments.number_option(&ROOM)?;
    let file = arguments.file_option(&REACHED);
    let room = input::within(DEFAULT.longest(), asked)?;
    let as_qdimacs = match arguments.option(&TO)?.as_deref() {
        None => false,
        Some("qdimacs") => true,
        Some(other) => return Err(Misuse::new(format!("no answer as '{other}'")).into()),
    };
    let (sheet, names, header) = match input::of_run(arguments)? {
        Ok(Input { sheet, names, header, .. }) => {
            (sheet.carried(DEFAULT).map_err(Failure::from), names, header)
        }
        Err(failure) => (Err(failure), Names::default(), None),
    };
    let sheet = match sheet {
        Ok(sheet) => sheet,
        Err(failure) => return Ok(Answer::of_run("", &names, Err(failure))),
    };
    let (started, began) = (sheet.check()?.0, Instant::now());
    let run = sheet.reach(room).map_err(|refusal| lacking(refusal, &sheet, room));
    let (seconds, solved) = (began.elapsed().as_secs_f64(), run.as_ref().ok().map(|run| run.0));
    let reached = Reached { started, room, file, names: names.clone() };
    let mut answer = reached.told(run.map_err(Failure::from))?;
    let Some(solved) = solved else { return Ok(answer) };
    if as_qdimacs {
        let (values, note) = outermost(&sheet, &names, room, header.is_some())?;
        answer.output = (result_line(&solved, header, &sheet)? + &values).into_bytes();
        answer.note += &note;
    }
    if arguments.has(&STATUS) {
        answer.status = Some(solved.verdict.map_or(0, |verdict| if verdict { 10 } else { 20 }));
    }
    if arguments.has(&STATS) {
        let (steps, rows) = (solved.settled + solved.expanded, most_rows(&sheet, room)?);
        answer.note +=
            &format!("{}, {} at most, {seconds:.6} s\n", count(steps, "step"), count(rows, "row"));
        answer.fields.extend([
            Field::number("steps", steps),
            Field::number("rows", rows),
            Field::seconds("seconds", seconds),
        ]);
    }
    Ok(answer)
}

/// The answer as QBF solvers write it: 1, 0 or -1, and the numbers of the text's header, or of that
/// which the sheet has as a text.
fn result_line(
    solved: &Solved,
    header: Option<(usize, usize)>,
    sheet: &Sheet,
) -> Result<String, Failure> {
    let result = solved.verdict.map_or(-1, i8::from);
    let (variables, clauses) = match header {
        Some(counts) => counts,
        None => qdimacs::counts(&clausal::rows(sheet)?.0),
    };
    Ok(format!("s cnf {result} {variables} {clauses}\n"))
}

/// The values that win of the outermost block, if it is the winner's, as lines 'V ..'; and what is
/// told where the strategy that they are taken from has too many rows. The numbers are the text's
/// own, or those that the sheet has as a text.
fn outermost(
    sheet: &Sheet,
    names: &Names,
    room: usize,
    is_text: bool,
) -> Result<(String, String), Failure> {
    let strategy = match found(sheet, names, room)? {
        Found::Won { strategy, .. } => strategy,
        Found::TooLong { rows, .. } => {
            let rows = count(rows, "row");
            return Ok((String::new(), format!("no values: the strategy has {rows}\n")));
        }
        Found::Stopped(_) => return Ok(Default::default()),
    };
    let number = |x: usize| names.of(x).parse().ok().filter(|_| is_text).unwrap_or(x);
    // Nothing of the other side is in front of them, so that any play of it shows their values.
    let play = strategy.play(&[]);
    let block = strategy.formula.prefix.iter().take_while(|row| strategy.owns(row.argument));
    let line = |x: usize| format!("V {}{} 0\n", if play.values[x] { "" } else { "-" }, number(x));
    Ok((block.map(|row| line(row.argument)).collect(), String::new()))
}

/// A refusal for want of room, with what the sheet takes as it is.
pub fn lacking(refusal: Refusal, sheet: &Sheet, room: usize) -> Refusal {
    let needed = sheet.check().map(|(v, n)| DEFAULT.length(v + n));
    needed.map_or(refusal.clone(), |needed| refusal.lacking(needed, room))
}

/// A run that began with so many variables, in buffers of so many bytes; the file that keeps the
/// sheet reached, and what its variables are called.
pub struct Reached {
    pub started: usize,
    pub room: usize,
    pub file: Option<OsString>,
    pub names: Names,
}

impl Reached {
    /// The line of the run, its sheet kept where a file is named, and after a stop what can be done.
    pub fn told(self, run: Result<(Solved, Sheet), Failure>) -> Result<Answer, Failure> {
        let mut note = String::new();
        if let Ok((solved, sheet)) = &run {
            if let Some(file) = &self.file {
                keep(file, &sheet.bytes)?;
            }
            if solved.verdict.is_none() {
                note = self.advice(solved);
            }
        }
        let run = run.map(|(solved, _)| solved);
        Ok(Answer::of_run("", &self.names, run).with_note(note))
    }

    /// With the longest buffers there is no more room to go on with.
    fn advice(&self, solved: &Solved) -> String {
        let longest = DEFAULT.longest();
        if self.room == longest {
            return format!(
                "plumanchor: no sheet is longer than the {longest} bytes that the run had, so more room \
                 is no help; 'explain' shows where it grows, 'outer' expands a signal before the \
                 valves, 'reduce' shortens clauses\n"
            );
        }
        let (started, Solved { settled, expanded, .. }) = (self.started, solved);
        let from = self
            .file
            .as_ref()
            .map_or("REACHED (kept by --reached REACHED)".into(), |file| file.to_string_lossy());
        format!(
            "plumanchor: to go on with more room than {} bytes, up to {longest}: plumanchor resume \
             {started} {settled} {expanded} {from}\n",
            self.room
        )
    }
}
