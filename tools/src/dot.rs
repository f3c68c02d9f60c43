//! Pictures in the language of Graphviz, whose job the layout is.

use crate::formula::{Formula, Row, AND, EXISTS};
use crate::names::Names;
use crate::picture::{Content, Shape};

const EXISTS_COLOUR: &str = "#cfe2f3";
const FOR_ALL_COLOUR: &str = "#fbdcb4";
const OPERATOR_COLOUR: &str = "#eeeeee";
const LINE_COLOUR: &str = "#777777";
const MARK_COLOUR: &str = "#c00000";

const VARIABLES_TO_A_LINE: usize = 24;
const MOST_VARIABLES: usize = 120;

pub struct Drawing<'a> {
    pub formula: &'a Formula,
    pub names: &'a Names,
    pub shapes: &'a [Shape],
    /// For each node row whether it is marked.
    pub marks: &'a [bool],
    pub caption: String,
}

impl Drawing<'_> {
    /// The whole picture: prefix on top, tree below, caption last.
    pub fn text(&self) -> String {
        let mut text = format!(
            "digraph sheet {{\n\
             graph [ordering=out, nodesep=0.15, ranksep=0.35, fontname=\"Helvetica\", fontsize=12, label=\"{}\"];\n\
             node [shape=plain, fontname=\"Helvetica\", fontsize=12];\n\
             edge [arrowhead=none, color=\"{LINE_COLOUR}\"];\n",
            self.caption
        );
        if !self.formula.prefix.is_empty() {
            let label = self.prefix();
            text += &format!("prefix [id=\"prefix\", label=<{label}>];\n");
            text += &format!("prefix -> \"{}\" [style=invis];\n", node_name(&self.shapes[0]));
        }
        self.shapes.iter().for_each(|shape| text += &self.shape(shape));
        text + "}\n"
    }

    fn shape(&self, shape: &Shape) -> String {
        let name = node_name(shape);
        let marked = self.marks[shape.rows.clone()].contains(&true);
        let (colour, width) = if marked { (MARK_COLOUR, 2) } else { (LINE_COLOUR, 1) };
        let looks = match &shape.content {
            Content::Operator(row) => {
                let form = if row.kind == AND { "box" } else { "ellipse" };
                let label = operator_label(*row);
                format!("shape={form}, style=filled, fillcolor=\"{OPERATOR_COLOUR}\", label=\"{label}\"")
            }
            Content::Literals(shown) => format!("label=<{}>", self.literals(shape, *shown)),
            Content::Folded => {
                format!("shape=box, style=dashed, label=\"... {} more\"", shape.rows.len())
            }
        };
        let id = format!("nodes-{}-{}", shape.rows.start, shape.rows.end - 1);
        let mut text =
            format!("\"{name}\" [id=\"{id}\", color=\"{colour}\", penwidth={width}, {looks}];\n");
        if let Some(parent) = shape.parent {
            let both = marked && self.marks[parent];
            let looks = if both {
                format!(" [color=\"{MARK_COLOUR}\", penwidth=2]")
            } else {
                String::new()
            };
            text += &format!("\"node {parent}\" -> \"{name}\"{looks};\n");
        }
        text
    }

    fn literals(&self, shape: &Shape, shown: usize) -> String {
        let mut cells = String::new();
        for at in shape.rows.clone().take(shown) {
            let row = self.formula.matrix[at];
            let quantifier = self.quantifier_of(row.argument);
            cells += &cell(quantifier, self.marks[at], &self.names.literal(row));
        }
        let hidden = shape.rows.start + shown..shape.rows.end;
        table(&[cells + &more(hidden.len(), self.marks[hidden].contains(&true))])
    }

    fn quantifier_of(&self, x: usize) -> u8 {
        let row = self.formula.prefix.iter().find(|row| row.argument == x);
        row.expect("a bound variable").kind
    }

    /// The prefix from left to right, each block behind its quantifier.
    fn prefix(&self) -> String {
        let prefix = &self.formula.prefix;
        let mut lines = vec![String::new()];
        let mut last = 0;
        for (at, row) in prefix.iter().take(MOST_VARIABLES).enumerate() {
            if at > 0 && at % VARIABLES_TO_A_LINE == 0 {
                lines.push(String::new());
            }
            let line = lines.last_mut().expect("a line");
            if row.kind != last {
                *line += &format!("<TD BORDER=\"0\"><B>{}</B></TD>", row.quantifier());
                last = row.kind;
            }
            *line += &cell(row.kind, false, &self.names.of(row.argument));
        }
        *lines.last_mut().expect("a line") +=
            &more(prefix.len().saturating_sub(MOST_VARIABLES), false);
        table(&lines)
    }
}

/// Shown when a pointer rests on the box. Nodes count from 0, as for Part.
fn node_name(shape: &Shape) -> String {
    match shape.rows.len() {
        1 => format!("node {}", shape.rows.start),
        _ => format!("nodes {} to {}", shape.rows.start, shape.rows.end - 1),
    }
}

fn operator_label(row: Row) -> String {
    match row.constant() {
        Some(value) => format!("{} of nothing\\n{value}", row.operator()),
        None => row.operator().to_string(),
    }
}

/// Exists is round and for all square, for those who print in black and white.
fn cell(quantifier: u8, marked: bool, word: &str) -> String {
    let colour = if quantifier == EXISTS { EXISTS_COLOUR } else { FOR_ALL_COLOUR };
    let style = if quantifier == EXISTS { " STYLE=\"ROUNDED\"" } else { "" };
    let (line, width) = if marked { (MARK_COLOUR, 2) } else { (LINE_COLOUR, 1) };
    format!("<TD BGCOLOR=\"{colour}\"{style} COLOR=\"{line}\" BORDER=\"{width}\">{word}</TD>")
}

fn more(hidden: usize, marked: bool) -> String {
    match hidden {
        0 => String::new(),
        _ if marked => format!("<TD COLOR=\"{MARK_COLOUR}\" BORDER=\"2\">... {hidden} more</TD>"),
        _ => format!("<TD BORDER=\"0\">... {hidden} more</TD>"),
    }
}

/// Lines of cells, each as wide as it needs to be.
fn table(lines: &[String]) -> String {
    let line = |cells: &String| {
        format!("<TABLE BORDER=\"0\" CELLBORDER=\"1\" CELLSPACING=\"2\"><TR>{cells}</TR></TABLE>")
    };
    match lines {
        [cells] => line(cells),
        _ => {
            let rows = lines
                .iter()
                .map(|cells| format!("<TR><TD ALIGN=\"LEFT\">{}</TD></TR>", line(cells)));
            format!("<TABLE BORDER=\"0\" CELLPADDING=\"0\">{}</TABLE>", rows.collect::<String>())
        }
    }
}
