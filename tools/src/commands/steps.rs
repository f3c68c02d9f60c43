//! `plumanchor steps LIST [SHEET]`.

use crate::arguments::{is_variable, Arguments, Misuse};
use crate::command::{Answer, Command, Failure};
use crate::format::DEFAULT;
use crate::input::{self, Input};
use crate::json::Field;
use crate::names::Names;
use crate::options::{FROM, JSON, NAMES, RENUMBER, ROOM};
use crate::refusal::Refusal;
use crate::sheet::Sheet;
use plumanchor::{Operation, Step};

pub const COMMAND: Command = Command {
    name: "steps",
    purpose: "a whole list of settle and expand steps",
    words: "LIST [SHEET] > FINAL",
    about: "LIST is as s3,e5: settle 3, then expand 5; with names as s:stop,e:lift; '' for no step. Each is\n\
           made on the sheet that the ones before it left, and a refused step leaves that sheet as it is.\n\
           Writes the final sheet, and what each step answered on standard error: the new sheet's length,\n\
           or its refusal. With '--json' these answers are on standard output in place of the sheet.\n",
    options: &[&FROM, &RENUMBER, &NAMES, &ROOM, &JSON],
    run,
};

fn run(arguments: &mut Arguments) -> Result<Answer, Failure> {
    let list = arguments.asked("steps")?;
    let words = list.split(',').filter(|_| !list.is_empty());
    let parts = words.map(parted).collect::<Result<Vec<(Operation, &str)>, Misuse>>()?;
    let asked = arguments.number_option(&ROOM)?;
    let Input { sheet, names, .. } = input::input(arguments, DEFAULT)?;
    let room = input::within(sheet.room(None), asked)?;
    let step = |&(operation, name): &(Operation, &str)| {
        Ok(Step { operation, variable: names.variable(name)? })
    };
    let steps = parts.iter().map(step).collect::<Result<Vec<Step>, Misuse>>()?;
    let made = sheet.steps(&steps, room);
    let (last, answers) = made.map_err(|refusal| refusal.lacking(sheet.bytes.len(), room))?;
    let list = List { sheet, room, names, steps };
    let answered: Vec<Answered> =
        (answers.into_iter().enumerate()).map(|(at, answer)| list.answered(at, answer)).collect();
    let steps = Field::objects("steps", answered.iter().map(Answered::fields));
    let fields = vec![Field::number("bytes", last.bytes.len()), steps];
    let note = answered.iter().map(Answered::told).collect();
    Ok(Answer { output: last.bytes, note, fields, ..Answer::default() })
}

/// A list of steps on a sheet, in buffers of so many bytes.
struct List {
    sheet: Sheet,
    room: usize,
    names: Names,
    steps: Vec<Step>,
}

impl List {
    fn answered(&self, at: usize, answer: Result<usize, Refusal>) -> Answered {
        let Step { operation, variable } = self.steps[at];
        let operation = match operation {
            Operation::Settle => "settle",
            Operation::Expand => "expand",
        };
        let answer = answer.map_err(|refusal| self.lacking(at, refusal));
        Answered { operation, variable: self.names.of(variable), answer }
    }

    /// A refusal for want of room, with what the step's raw sheet takes.
    fn lacking(&self, at: usize, refusal: Refusal) -> Refusal {
        match self.sheet.steps(&self.steps[..at], self.room) {
            Ok((held, _)) => input::lacking(refusal, &held, self.steps[at].variable, self.room),
            Err(_) => refusal,
        }
    }
}

/// What a step answered: the length of its sheet, or its refusal.
struct Answered {
    operation: &'static str,
    variable: String,
    answer: Result<usize, Refusal>,
}

impl Answered {
    fn told(&self) -> String {
        let Answered { operation, variable, answer } = self;
        match answer {
            Ok(length) => format!("{operation} {variable}: {length} bytes\n"),
            Err(refusal) => format!("{operation} {variable}: {refusal}\n"),
        }
    }

    fn fields(&self) -> Vec<Field> {
        let step = [Field::text("step", self.operation), Field::text("variable", &self.variable)];
        let answer = match &self.answer {
            Ok(length) => vec![Field::number("bytes", *length)],
            Err(refusal) => vec![
                Field::number("refused", usize::from(refusal.number)),
                Field::text("message", &refusal.to_string()),
            ],
        };
        step.into_iter().chain(answer).collect()
    }
}

/// A step of the list: a letter, and then a variable, behind a colon or not.
fn parted(word: &str) -> Result<(Operation, &str), Misuse> {
    let (operation, variable) = match (word.strip_prefix('s'), word.strip_prefix('e')) {
        (Some(variable), _) => (Operation::Settle, variable),
        (_, Some(variable)) => (Operation::Expand, variable),
        _ => return Err(Misuse::new(format!("a step is as s3 or e:lift, and not '{word}'"))),
    };
    let named = variable.strip_prefix(':');
    let is_number = variable.bytes().all(|byte| byte.is_ascii_digit());
    if named.is_none() && !is_number {
        return Err(Misuse::new(format!("a step is as s3 or e:lift, and not '{word}'")));
    }
    let name = named.unwrap_or(variable);
    is_variable(name)?;
    Ok((operation, name))
}
