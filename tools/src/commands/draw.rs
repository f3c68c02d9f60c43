//! `plumanchor draw [SHEET]`.

use crate::arguments::{is_variable, Arguments, Misuse};
use crate::command::{Answer, Command, Failure};
use crate::dot::Drawing;
use crate::format::DEFAULT;
use crate::formula::Formula;
use crate::input::{self, Input};
use crate::names::Names;
use crate::options::{Choice, FROM, NAMES, RENUMBER};
use crate::picture::{shapes, Most};
use crate::relevant::Relevant;
use crate::sheet::Sheet;
use crate::words::count;
use std::io::{ErrorKind, Write};
use std::process::{Command as Program, Stdio};

pub const COMMAND: Command = Command {
    name: "draw",
    purpose: "a picture of the sheet",
    words: "[SHEET] > PICTURE",
    about: "Draws the prefix as a strip on top and the tree below it. Literals have the colour of their\n\
           quantifier. Large sheets are folded: '... 812 more' stands for 812 rows. An operator shows\n\
           the first 12 of what is below it, and the picture some 60 boxes; with '--most' there is\n\
           only that limit. Graphviz does the layout, so its program 'dot' must be installed, unless\n\
           its own language is asked for.\n",
    options: &[&FROM, &RENUMBER, &NAMES, &TO, &EXPAND, &MOST],
    run,
};

static TO: Choice =
    Choice::of("to", "KIND", "svg, for browsers, if not given; or dot, Graphviz's language")
        .among(&["svg", "dot"]);
static EXPAND: Choice =
    Choice::of("expand", "X", "mark the rows that expanding variable X would copy");
static MOST: Choice =
    Choice::of("most", "BOXES", "fold what is beyond so many boxes, and nothing else");

/// A picture has so many boxes, and an operator so many below it, before the rest is folded.
const USUAL: Most = Most { boxes: 60, below: 12 };

fn run(arguments: &mut Arguments) -> Result<Answer, Failure> {
    let svg = match arguments.option(&TO)?.as_deref() {
        None | Some("svg") => true,
        Some("dot") => false,
        Some(other) => return Err(Misuse::new(format!("no picture as '{other}'")).into()),
    };
    let asked = arguments.number_option(&MOST)?;
    let most = asked.map_or(USUAL, |boxes| Most { boxes, below: boxes });
    let word = arguments.option(&EXPAND)?;
    word.as_deref().map(is_variable).transpose()?;
    let Input { sheet, names, .. } = input::input(arguments, DEFAULT)?;
    let expanded = word.map(|word| names.variable(&word)).transpose()?;
    let text = drawing(&sheet, &names, expanded, most)?;
    Ok(if svg { laid_out(&text)?.into() } else { text.into() })
}

fn drawing(
    sheet: &Sheet,
    names: &Names,
    expanded: Option<usize>,
    most: Most,
) -> Result<String, Failure> {
    let formula = &sheet.formula()?;
    let Formula { prefix, matrix } = formula;
    let sizes = [count(prefix.len(), "variable"), count(matrix.len(), "node")];
    let mut caption = sizes.join(", ");
    let mut relevant = Relevant::nothing(formula);
    if let Some(x) = expanded {
        relevant = marked(sheet, formula, x)?;
        let copied = count(relevant.marks.iter().filter(|&&mark| mark).count(), "row");
        caption += &format!(
            "; expanding {} copies the {copied} marked: {} raw rows",
            names.of(x),
            relevant.raw
        );
    }
    let shapes = &shapes(formula, most);
    Ok(Drawing { formula, names, shapes, marks: &relevant.marks, caption }.text())
}

/// What expanding `x` copies, refused as Quote refuses.
fn marked(sheet: &Sheet, formula: &Formula, x: usize) -> Result<Relevant, Failure> {
    let (quoted, relevant) = (sheet.quote(x)?, Relevant::of(formula, x));
    if relevant.raw != quoted {
        let raw = relevant.raw;
        let what = format!("{raw} raw rows by the rows marked, and Quote says {quoted}");
        return Err(Failure::Contradicted(what));
    }
    Ok(relevant)
}

/// The picture that Graphviz makes of a text.
fn laid_out(text: &str) -> Result<Vec<u8>, Misuse> {
    let failed = |error: std::io::Error| match error.kind() {
        ErrorKind::NotFound => Misuse::new(
            "no program 'dot': a picture needs the package 'graphviz' \
             (or '--to dot', and another program to lay it out)",
        ),
        _ => Misuse::new(format!("dot: {error}")),
    };
    let mut dot = Program::new("dot");
    dot.arg("-Tsvg").stdin(Stdio::piped()).stdout(Stdio::piped());
    let mut dot = dot.spawn().map_err(failed)?;
    let mut input = dot.stdin.take().expect("a pipe");
    // Graphviz reads all of its input before it writes.
    input.write_all(text.as_bytes()).map_err(failed)?;
    drop(input);
    let output = dot.wait_with_output().map_err(failed)?;
    if !output.status.success() {
        return Err(Misuse::new("dot could not lay the picture out"));
    }
    Ok(output.stdout)
}
