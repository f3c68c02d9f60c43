//! `plumanchor convert [--from FORMAT] [--to FORMAT] [FILE]`.

use crate::arguments::{Arguments, Misuse};
use crate::clausal;
use crate::command::{Answer, Command, Failure};
use crate::format::DEFAULT;
use crate::input::{self, Input, Notation};
use crate::names::Names;
use crate::options::{Choice, FROM, NAMES, RENUMBER};
use crate::qcir;
use crate::qdimacs;

static TO: Choice =
    Choice::of("to", "FORMAT", "what is written, if not a sheet of the program's format")
        .among(&["wide", "narrow", "qcir", "qdimacs", "names"]);

pub const COMMAND: Command = Command {
    name: "convert",
    purpose: "a sheet from another format, or to another",
    words: "[FILE] > RESULT",
    about: "FORMAT is 'wide', sheets of 32-bit numbers, 'narrow', those of 16 bits, 'qcir', texts in\n\
           QCIR-G14, or 'qdimacs', texts in QDIMACS 1.1. Between the formats of sheets the rows are carried\n\
           by the proved operations, and QDIMACS is read by one: AND of ORs, untidied, free variables as\n\
           exists rows in front. Of a circuit a tree is written: shared gates are copied, or variables if\n\
           the tree is too large, negation is pushed to the literals, xor and ite are written out, and free\n\
           variables are exists rows in front. Variables keep their numbers if all are called by numbers\n\
           that the sheet can have, and are else numbered from 1 in their order. '--to qdimacs' writes\n\
           clauses as they are, and any other tree as the proved operation makes clauses of it: a variable\n\
           for each operator below a clause, innermost. A tree that is too large for that is told, and has\n\
           a variable for each AND below an OR. '--to names' writes a number and a name a line: a circuit's\n\
           names, or those of '--names' that are left in a sheet that steps were made on.\n",
    options: &[&FROM, &RENUMBER, &TO, &NAMES],
    run,
};

fn run(arguments: &mut Arguments) -> Result<Answer, Failure> {
    let to = Notation::option(arguments, &TO)?.unwrap_or(Notation::Sheet(DEFAULT));
    if matches!(to, Notation::Names) {
        return Ok(names(arguments)?.text().into());
    }
    let format = if let Notation::Sheet(format) = to { format } else { DEFAULT };
    let Input { sheet, .. } = input::input(arguments, format)?;
    Ok(match to {
        Notation::Sheet(format) => sheet.carried(format)?.bytes.into(),
        Notation::Qcir => qcir::write(&sheet.formula()?).into(),
        Notation::Qdimacs => {
            let (formula, refusal) = clausal::rows(&sheet)?;
            let told = |refusal| {
                format!(
                    "plumanchor: the clauses are this tool's, and no sheet's, which 'certify' takes: {refusal}\n"
                )
            };
            Answer::from(qdimacs::write(&formula)).with_note(refusal.map_or(String::new(), told))
        }
        Notation::Names => return Err(Misuse::new("no names there").into()),
    })
}

/// A circuit's names, or those of a file that the sheet's variables have.
fn names(arguments: &mut Arguments) -> Result<Names, Failure> {
    let file = arguments.file_option(&NAMES);
    let Input { sheet, names, .. } = input::input(arguments, DEFAULT)?;
    let names = match file {
        Some(file) => input::names_in(&file)?.only(&sheet.formula()?.prefix),
        None => names,
    };
    if names.is_empty() {
        return Err(Misuse::new("no names there").into());
    }
    Ok(names)
}
