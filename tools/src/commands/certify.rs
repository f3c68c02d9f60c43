//! `plumanchor certify SHEET TRACE`.

use crate::arguments::Arguments;
use crate::clausal;
use crate::command::{Answer, Command, Failure};
use crate::input::{self, Input};
use crate::json::Field;
use crate::options::{FROM, JSON, RENUMBER};
use crate::qrp::{Derivation, Trace};
use plumanchor::Certified;

pub const COMMAND: Command = Command {
    name: "certify",
    purpose: "a verdict of a search solver, by its trace",
    words: "SHEET TRACE",
    about: "TRACE is a text in QRP, as 'depqbf --trace --dep-man=simple --no-qbce-dynamic --no-lazy-qpup'\n\
           writes it for what 'convert --to qdimacs SHEET' writes; for SHEET in QDIMACS it is that of the\n\
           text itself, in its own numbers. Writes the verdict, true or false, if the proved operation\n\
           finds that the trace shows it of the sheet, whatever the trace is. Else the trace is refused,\n\
           with the line at fault. Only what leads to its last clause or cube is looked at.\n",
    options: &[&FROM, &RENUMBER, &JSON],
    run,
};

fn run(arguments: &mut Arguments) -> Result<Answer, Failure> {
    let (Input { sheet, names, header, .. }, file) = input::with_file(arguments, "trace")?;
    let clauses = clausal::tidied(&sheet)?;
    let text = arguments.contents(Some(&file))?;
    // A text that was numbered anew has other numbers than the sheet.
    let own = header.filter(|_| !names.is_empty()).map(|_| names.numbers());
    let variable = |x: usize| own.as_ref().map_or(Some(x), |own| own.get(&x).copied());
    let trace = Trace::read(&text).map_err(Failure::Unusable)?;
    let steps = trace.derivation(variable).map_err(Failure::Unusable)?;
    let Derivation { verdict, heads, codes, .. } = &steps;
    if let Certified::No { step } = clauses.certify(*verdict, heads, codes)? {
        return Err(Failure::Unusable(steps.fault(step)));
    }
    let fields = vec![Field::flag("answer", *verdict), Field::number("steps", steps.len())];
    Ok(Answer::of_words(verdict.to_string(), fields))
}
