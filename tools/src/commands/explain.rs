//! `plumanchor explain [SHEET]`.

use super::solve::lacking;
use crate::arguments::{keep, Arguments, Misuse};
use crate::command::{Answer, Command, Failure};
use crate::format::DEFAULT;
use crate::formula::{Row, POSITIVE};
use crate::input::{self, Input};
use crate::json::Field;
use crate::names::Names;
use crate::options::{Choice, FROM, JSON, NAMES, RENUMBER, ROOM};
use crate::refusal::Refusal;
use crate::rule::{next_move, Move, Reason};
use crate::sheet::Sheet;
use crate::words::count;
use plumanchor::{refusals, Solved};
use std::ffi::OsStr;
use std::path::Path;

static SHEETS: Choice = Choice::of("sheets", "DIR", "keep the sheet after each step in a folder");

pub const COMMAND: Command = Command {
    name: "explain",
    purpose: "the run step by step, and the program's line",
    words: "[SHEET]",
    about: "Writes which variable is settled or expanded in each step and why, with the rows and\n\
           variables that are left; the last line is the program's. Each step is made by the proved\n\
           Settle or Expand, and the line is compared with the proved Solve's. The run is that of the\n\
           program's format.\n",
    options: &[&FROM, &RENUMBER, &NAMES, &ROOM, &SHEETS, &JSON],
    run,
};

fn run(arguments: &mut Arguments) -> Result<Answer, Failure> {
    let asked = arguments.number_option(&ROOM)?;
    let folder = arguments.file_option(&SHEETS);
    let room = input::within(DEFAULT.longest(), asked)?;
    let carried = input::of_run(arguments)?
        .and_then(|Input { sheet, names, .. }| Ok((sheet.carried(DEFAULT)?, names)));
    let (sheet, names) = match carried {
        Ok(carried) => carried,
        Err(failure) => return Ok(Answer::of_run("", &Names::default(), Err(failure))),
    };
    let solved = match sheet.solve(room).map_err(|refusal| lacking(refusal, &sheet, room)) {
        Ok(solved) => solved,
        Err(refusal) => return Ok(Answer::of_run("", &names, Err(refusal.into()))),
    };
    let wrong =
        |what: String| Failure::Contradicted(format!("{what}, and Solve says {}", solved.line()));
    let run = Run::whole(&sheet, room, &names).map_err(|refusal| wrong(refusal.to_string()))?;
    if run.solved != solved {
        return Err(wrong(format!("the steps end with {}", run.solved.line())));
    }
    if let Some(folder) = folder {
        kept(&folder, &run.sheets)?;
    }
    let mut answer = Answer::of_run(&run.text, &names, Ok(solved));
    let steps: Vec<String> = run.text.lines().map(str::to_string).collect();
    answer.fields.push(Field::texts("steps", &steps));
    Ok(answer)
}

/// The rows of the largest sheet on the way, raw ones too.
pub fn most_rows(sheet: &Sheet, room: usize) -> Result<usize, Refusal> {
    Ok(Run::whole(sheet, room, &Names::default())?.most_rows)
}

/// Writes the sheets on the way to a folder, numbered by their steps.
fn kept(folder: &OsStr, sheets: &[(String, Sheet)]) -> Result<(), Misuse> {
    let unwritten = |error| Misuse::new(format!("{}: {error}", folder.to_string_lossy()));
    std::fs::create_dir_all(folder).map_err(unwritten)?;
    for (step, (what, sheet)) in sheets.iter().enumerate() {
        let file = Path::new(folder).join(format!("{step:04}-{what}.sheet"));
        keep(file.as_os_str(), &sheet.bytes)?;
    }
    Ok(())
}

/// A run so far: what was told, the counts, and the sheets on the way, each with
/// what gave it.
struct Run<'a> {
    names: &'a Names,
    room: usize,
    /// The rows of the largest sheet so far, raw ones too.
    most_rows: usize,
    text: String,
    solved: Solved,
    sheets: Vec<(String, Sheet)>,
}

impl<'a> Run<'a> {
    /// The run of a sheet with outputs of so many bytes.
    fn whole(sheet: &Sheet, room: usize, names: &'a Names) -> Result<Run<'a>, Refusal> {
        let mut held = sheet.tidy(room)?;
        let text =
            format!("Tidied: {} of {} stay.\n", held.check()?.1, count(sheet.check()?.1, "row"));
        let sheets = vec![("tidied".to_string(), held.clone())];
        let most_rows = held.check()?.1;
        let mut run = Run { names, room, most_rows, text, solved: Solved::default(), sheets };
        while let Some(next) = run.step(&held)? {
            held = next;
        }
        Ok(run)
    }

    /// The sheet after the next step, nothing at the end.
    fn step(&mut self, held: &Sheet) -> Result<Option<Sheet>, Refusal> {
        match next_move(held, &held.formula()?)? {
            Move::End(verdict) => {
                let operator = if verdict { "AND" } else { "OR" };
                self.text += &format!("Decided: {operator} of nothing.\n");
                self.solved.verdict = Some(verdict);
                Ok(None)
            }
            Move::Settle(row, value, reason) => self.settle(held, row, value, reason).map(Some),
            Move::Expand(row, raw) => self.expand(held, row, raw),
        }
    }

    fn settle(
        &mut self,
        held: &Sheet,
        row: Row,
        value: bool,
        reason: Reason,
    ) -> Result<Sheet, Refusal> {
        let why = match reason {
            Reason::NoLiteral => "no literal".to_string(),
            Reason::Pure(POSITIVE) => "only positive literals".to_string(),
            Reason::Pure(_) => "only negative literals".to_string(),
            Reason::Unit(kind) => {
                let literal = self.names.literal(Row::new(kind, row.argument));
                format!("the literal {literal} stands under the root")
            }
        };
        let next = held.settle(row.argument, self.room)?;
        self.solved.settled += 1;
        let what = format!("Settle {} = {}", self.names.of(row.argument), u8::from(value));
        self.tell(&what, row, &why, &next)?;
        self.sheets.push((format!("settle-{}", self.names.of(row.argument)), next.clone()));
        Ok(next)
    }

    fn expand(&mut self, held: &Sheet, row: Row, raw: usize) -> Result<Option<Sheet>, Refusal> {
        let next = match held.expand(row.argument, self.room) {
            Err(Refusal { number: refusals::NO_ROOM, .. }) => {
                self.stop(held, row, raw)?;
                return Ok(None);
            }
            next => next?,
        };
        self.solved.expanded += 1;
        self.most_rows = self.most_rows.max(raw);
        let what = format!("Expand {}", self.names.of(row.argument));
        self.tell(&what, row, &format!("{raw} raw rows"), &next)?;
        self.sheets.push((format!("expand-{}", self.names.of(row.argument)), next.clone()));
        Ok(Some(next))
    }

    fn tell(&mut self, what: &str, row: Row, why: &str, next: &Sheet) -> Result<(), Refusal> {
        let (variables, rows) = next.check()?;
        let left = format!("{}, {} left", count(rows, "row"), count(variables, "variable"));
        let (step, quantifier) = (self.sheets.len(), row.quantifier());
        self.text += &format!("{step}. {what}: {quantifier}, {why}; {left}.\n");
        Ok(())
    }

    /// Nothing can be settled, and the cheapest expansion doesn't fit.
    fn stop(&mut self, held: &Sheet, row: Row, raw: usize) -> Result<(), Refusal> {
        self.solved.variable = row.argument;
        let most = held.format.most_nodes;
        let length = held.format.length(held.check()?.0 - 1 + raw);
        let limit = if raw > most {
            format!("a sheet has at most {most}")
        } else {
            format!("their sheet has {length} bytes, and a buffer {}", self.room)
        };
        let (name, quantifier) = (self.names.of(row.argument), row.quantifier());
        self.text += &format!("Stopped at {name}: {quantifier}, {raw} raw rows; {limit}.\n");
        Ok(())
    }
}
