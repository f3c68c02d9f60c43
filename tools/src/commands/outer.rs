//! `plumanchor outer X [SHEET]`.

use crate::arguments::Arguments;
use crate::command::{Answer, Command, Failure};
use crate::format::Format;
use crate::formula::{Formula, Row};
use crate::input::{self, Input};
use crate::json::Field;
use crate::names::Names;
use crate::options::{FROM, JSON, NAMES, RENUMBER};
use crate::words::count;
use plumanchor::refusals;

pub const COMMAND: Command = Command {
    name: "outer",
    purpose: "the sheet with a universal variable expanded one block out",
    words: "X [SHEET] > NEW",
    about: "Expands the universal variable X before the existential ones behind it: both values side by\n\
           side, and in the copy for 1 every existential variable that depends on X under a new number,\n\
           the smallest that are not in the prefix. What has literals behind X must be any number of\n\
           universal rows and then at least one existential. How many variables were copied, and the\n\
           lowest of them, stands on standard error, and with '--json' on standard output in place of the\n\
           sheet. The sheet is as true as the first.\n",
    options: &[&FROM, &RENUMBER, &NAMES, &JSON],
    run,
};

fn run(arguments: &mut Arguments) -> Result<Answer, Failure> {
    let (x, Input { sheet, names, .. }) = input::variable_and_input(arguments)?;
    let outer = sheet.outer(x, sheet.format.longest());
    let (stepped, copied, lowest) = outer.map_err(|refusal| match refusal.number {
        refusals::WRONG_BLOCK => match sheet.formula() {
            Ok(formula) => refusal.with_evidence(behind(&formula, x, &names)),
            Err(other) => other,
        },
        refusals::NO_ROOM => refusal.with_evidence(too_many(sheet.format)),
        _ => refusal,
    })?;
    let lowest = names.of(lowest);
    let note = match copied {
        0 => String::from("no variable is copied\n"),
        1 => format!("1 variable is copied: {lowest}\n"),
        _ => format!("{} are copied, the lowest is {lowest}\n", count(copied, "variable")),
    };
    let mut fields =
        vec![Field::number("bytes", stepped.bytes.len()), Field::number("copied", copied)];
    if copied > 0 {
        fields.push(Field::text("lowest", &lowest));
    }
    Ok(Answer { output: stepped.bytes, note, fields, ..Answer::default() })
}

fn too_many(format: &Format) -> String {
    let (name, nodes, bytes) = (format.name, format.most_nodes, format.longest());
    format!("the copies make more than the {nodes} nodes or {bytes} bytes of a {name} sheet")
}

/// What a bound variable is, and what has literals behind it.
fn behind(formula: &Formula, x: usize, names: &Names) -> String {
    let Formula { prefix, matrix } = formula;
    let used = |row: &&Row| matrix.iter().any(|node| node.is_literal_of(row.argument));
    let told = |row: &Row| format!("{} {}", row.quantifier(), names.of(row.argument));
    let mut rows = prefix.iter().skip_while(|row| row.argument != x);
    let own = rows.next().map(told).unwrap_or_default();
    let rows: Vec<String> = rows.filter(used).map(told).collect();
    let listed = if rows.is_empty() { "nothing".to_string() } else { rows.join(", ") };
    format!("{own}, and behind it has literals: {listed}")
}
