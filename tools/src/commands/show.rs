//! `plumanchor show [SHEET]`.

use crate::arguments::Arguments;
use crate::command::{Answer, Command, Failure};
use crate::format::DEFAULT;
use crate::formula::{Formula, Row};
use crate::input::{self, Input};
use crate::names::Names;
use crate::options::{FROM, NAMES, RENUMBER};
use crate::words::count;

pub const COMMAND: Command = Command {
    name: "show",
    purpose: "the formula as people write it",
    words: "[SHEET]",
    about: "Writes the prefix block by block, outermost first, and the tree: an operator's children\n\
           stand below it, indented, in their order; literals that follow one another share a line,\n\
           and a line that ends with a comma goes on in the next. From depth 20 on the depth is\n\
           written as a number. FILE has a number and a name a line, as 'convert --to names' writes.\n",
    options: &[&FROM, &RENUMBER, &NAMES],
    run,
};

fn run(arguments: &mut Arguments) -> Result<Answer, Failure> {
    let Input { sheet, names, .. } = input::input(arguments, DEFAULT)?;
    Ok(text(&sheet.formula()?, &names).into())
}

const WIDTH: usize = 96;
const DEEPEST_INDENTED: usize = 19;

/// An operator's line with all its children if they are literals; or literals
/// that follow one another.
struct Line<'a> {
    depth: usize,
    operator: Option<Row>,
    literals: &'a [Row],
}

fn text(formula: &Formula, names: &Names) -> String {
    let Formula { prefix, matrix } = formula;
    let sizes = [count(prefix.len(), "variable"), count(matrix.len(), "node")];
    let mut text = sizes.join(", ") + "\n\n";
    for block in prefix.chunk_by(|one, next| one.kind == next.kind) {
        let quantifier = format!("{} ", block[0].quantifier());
        push_list(&quantifier, block.iter().map(|row| names.of(row.argument)), &mut text);
    }
    if !prefix.is_empty() {
        text.push('\n');
    }
    for Line { depth, operator, literals } in lines(formula) {
        let mut head = margin(depth);
        if let Some(row) = operator {
            head += &operator_words(row);
            head += if literals.is_empty() { "" } else { " " };
        }
        push_list(&head, literals.iter().map(|&row| names.literal(row)), &mut text);
    }
    text
}

fn lines(formula: &Formula) -> Vec<Line<'_>> {
    let (matrix, depths) = (&formula.matrix, formula.depths());
    let mut lines = Vec::new();
    let mut at = 0;
    while at < matrix.len() {
        let operator = Some(matrix[at]).filter(|row| !row.is_literal());
        let start = at + usize::from(operator.is_some());
        // Literals that follow one another at one depth are siblings.
        let is_sibling = |&row: &usize| matrix[row].is_literal() && depths[row] == depths[start];
        let run = (start..matrix.len()).take_while(is_sibling).count();
        let end = start + if operator.is_some_and(|row| row.children() != run) { 0 } else { run };
        lines.push(Line { depth: depths[at], operator, literals: &matrix[start..end] });
        at = end;
    }
    lines
}

fn operator_words(row: Row) -> String {
    match row.constant() {
        Some(value) => format!("{} of nothing ({value})", row.operator()),
        None => row.operator().to_string(),
    }
}

fn margin(depth: usize) -> String {
    match depth.checked_sub(DEEPEST_INDENTED + 1) {
        None => "  ".repeat(depth),
        Some(_) => format!("{}[{depth}] ", "  ".repeat(DEEPEST_INDENTED)),
    }
}

/// Words behind a head, parted by commas and wrapped; a wrapped line ends with
/// its comma.
fn push_list(head: &str, words: impl Iterator<Item = String>, text: &mut String) {
    let margin = head.len() - head.trim_start().len() + 4;
    let mut line = head.to_string();
    for (at, word) in words.enumerate() {
        if at > 0 && line.len() + word.len() + 3 > WIDTH {
            *text += &format!("{line},\n");
            line = " ".repeat(margin) + &word;
        } else {
            line += if at > 0 { ", " } else { "" };
            line += &word;
        }
    }
    *text += &format!("{line}\n");
}
