//! `plumanchor strategy [SHEET]`.

use crate::arguments::{Arguments, Misuse};
use crate::command::{Answer, Command, Failure};
use crate::format::DEFAULT;
use crate::input::{self, Input};
use crate::json::{self, Field};
use crate::names::Names;
use crate::options::{Choice, FROM, JSON, NAMES, RENUMBER, ROOM};
use crate::sheet::Sheet;
use crate::strategy::{
    aiger, first_line, found, qcir, read_by, side_words, structured_text, table, text, verilog,
    wants, winner, Found, Strategy, Tree,
};
use crate::words::count;
use plumanchor::Solved;

static TO: Choice = Choice::of("to", "FORMAT", "what is written, if not lines of text")
    .among(&["text", "sheet", "qcir", "verilog", "st", "aiger", "table", "json"]);

pub const COMMAND: Command = Command {
    name: "strategy",
    purpose: "what to wire: the functions by which the winner answers",
    words: "[SHEET]",
    about: "Solves the sheet, and writes who wins: exists if it is true, for all if it is false; and the\n\
           function of each of that side's variables, a line each, behind all those that it reads. Followed\n\
           they win, whatever the other side does: that is proved of the strategy's sheet, which '--to\n\
           sheet' writes, and 'claim' asks it again of a text that was changed. A variable's function\n\
           depends only on variables of the other side that come before it.\n\
           FORMAT is 'text', 'sheet', or for other programs 'qcir', a circuit with the functions as gates\n\
           whose verdict is the sheet's, 'verilog', a module, 'st', a function block of IEC 61131-3,\n\
           'aiger', 'table', every play of the other side with the values that answer it, up to 4,096 of\n\
           them, or 'json', as '--json'. A name that a language doesn't take is changed, and a comment\n\
           says so. A run that stops, and a strategy that has too many rows, are told instead of it.\n",
    options: &[&FROM, &RENUMBER, &NAMES, &ROOM, &TO, &JSON],
    run,
};

fn run(arguments: &mut Arguments) -> Result<Answer, Failure> {
    let to = arguments.option(&TO)?;
    let to = to.as_deref().unwrap_or(if arguments.has(&JSON) { "json" } else { "text" });
    if !TO.among.contains(&to) {
        let formats = TO.among.join(", ");
        return Err(Misuse::new(format!("no format '{to}'; there are {formats}")).into());
    }
    let asked = arguments.number_option(&ROOM)?;
    let room = input::within(DEFAULT.longest(), asked)?;
    let Input { sheet, names, .. } = input::input(arguments, DEFAULT)?;
    let sheet = sheet.carried(DEFAULT)?;
    let (line, fields) = match found(&sheet, &names, room)? {
        Found::Won { solved, strategy, sheet } => {
            let fields = won_fields(&solved, &strategy);
            let output = match to {
                "json" => json::object(&fields).into_bytes(),
                _ => written(to, &strategy, sheet)?,
            };
            return Ok(Answer { output, fields, ..Answer::default() });
        }
        Found::TooLong { solved, rows } => {
            let side = winner(solved.verdict == Some(true));
            let mut fields = run_fields(&wants(side).to_string(), &solved);
            fields.extend([Field::text("side", side_words(side)), Field::number("rows", rows)]);
            (too_long(&solved, rows), fields)
        }
        Found::Stopped(solved) => {
            let mut fields = run_fields("stopped", &solved);
            fields.push(Field::text("variable", &names.of(solved.variable)));
            (stopped(&solved, &names), fields)
        }
    };
    match to {
        "text" => Ok(Answer::of_words(line, fields)),
        "json" => {
            Ok(Answer { output: json::object(&fields).into_bytes(), fields, ..Answer::default() })
        }
        _ => Err(Failure::Unusable(line)),
    }
}

/// A strategy in a format.
fn written(to: &str, strategy: &Strategy, sheet: Sheet) -> Result<Vec<u8>, Failure> {
    Ok(match to {
        "sheet" => sheet.bytes,
        "qcir" => qcir::write(strategy).into_bytes(),
        "verilog" => verilog::write(strategy).into_bytes(),
        "st" => structured_text::write(strategy).into_bytes(),
        "aiger" => aiger::write(strategy).into_bytes(),
        "table" => table::write(strategy).map_err(too_many_plays)?.into_bytes(),
        _ => text::write(strategy).into_bytes(),
    })
}

fn too_many_plays(variables: usize) -> Failure {
    Failure::Unusable(format!(
        "the other side has {}, so there would be 2^{variables} rows, and a table has at most {}; \
         'play' follows one of them, '--to verilog' and '--to aiger' are for programs that try all",
        count(variables, "variable"),
        table::MOST
    ))
}

fn run_fields(answer: &str, solved: &Solved) -> Vec<Field> {
    let counts = [("settled", solved.settled), ("expanded", solved.expanded)];
    let counts = counts.map(|(name, count)| Field::number(name, count));
    [Field::text("answer", answer)].into_iter().chain(counts).collect()
}

fn won_fields(solved: &Solved, strategy: &Strategy) -> Vec<Field> {
    let Strategy { side, formula, names, functions } = strategy;
    let mut fields = run_fields(&wants(*side).to_string(), solved);
    fields.push(Field::text("side", side_words(*side)));
    let function = |(x, tree): &(usize, Tree)| {
        let reads: Vec<String> = read_by(tree).iter().map(|&y| names.of(y)).collect();
        vec![
            Field::text("variable", &names.of(*x)),
            Field::texts("reads", &reads),
            Field::text("function", &text::words(tree, &formula.prefix, names)),
        ]
    };
    fields.push(Field::objects("functions", functions.iter().map(function)));
    fields
}

/// The winner's strategy, or why there is none to play by.
pub fn won(sheet: &Sheet, names: &Names) -> Result<Strategy, Failure> {
    match found(sheet, names, DEFAULT.longest())? {
        Found::Won { strategy, .. } => Ok(strategy),
        Found::TooLong { solved, rows } => Err(Failure::Unusable(too_long(&solved, rows))),
        Found::Stopped(solved) => Err(Failure::Unusable(stopped(&solved, names))),
    }
}

/// A verdict whose strategy doesn't fit.
fn too_long(solved: &Solved, rows: usize) -> String {
    let wins = first_line(winner(solved.verdict == Some(true)));
    let most = DEFAULT.most_nodes;
    let why = if rows > most {
        format!("and a sheet has at most {most}")
    } else {
        "for which there is no room".into()
    };
    format!("{wins}, but its strategy has {}, {why}", count(rows, "row"))
}

/// A run that stopped.
fn stopped(solved: &Solved, names: &Names) -> String {
    let name = names.of(solved.variable);
    format!("stopped: no verdict, since there is no room to expand {name}")
}
