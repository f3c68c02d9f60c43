//! The page of a strategy: a panel on which a person plays against it.
//!
//! `panel/panel.html` is the page, with a name in double braces for each part; its script works out
//! all that is shown from the formula and the functions, which are handed to it as data.

use crate::formula::{Row, NEGATIVE};
use crate::json::{object, Field};
use crate::strategy::text::words;
use crate::strategy::{side_words, Strategy};
use std::collections::HashMap;

const PAGE: &str = include_str!("panel/panel.html");
const STYLE: &str = include_str!("panel/panel.css");
const SCRIPT: &str = include_str!("panel/panel.js");

/// What is known of a strategy.
#[derive(Clone, Copy)]
pub enum Standing {
    /// It was found by the proved operations.
    Found,
    /// It was handed in, and wins or loses.
    Judged(bool),
    /// It was handed in, and there is no room to say whether it wins.
    Open,
}

/// The page under a title; `guards` are what the root's children are called, where that is known.
pub fn page(title: &str, strategy: &Strategy, standing: Standing, guards: &[String]) -> String {
    let mut fields = fields(strategy, guards);
    fields.push(Field::text("standing", word(standing)));
    let (title, data) = (escaped(title), in_element(&object(&fields)));
    let part = |name: &str| match name {
        "title" => &title,
        "style" => STYLE,
        "data" => data.trim_end(),
        "script" => SCRIPT,
        _ => "",
    };
    let mut pieces = PAGE.split("{{");
    let mut page = pieces.next().unwrap_or_default().to_string();
    // A part that has braces itself is not read again.
    for (name, behind) in pieces.filter_map(|piece| piece.split_once("}}")) {
        page.extend([part(name), behind]);
    }
    page
}

fn word(standing: Standing) -> &'static str {
    match standing {
        Standing::Found => "found",
        Standing::Judged(true) => "wins",
        Standing::Judged(false) => "loses",
        Standing::Open => "open",
    }
}

fn fields(strategy: &Strategy, guards: &[String]) -> Vec<Field> {
    let Strategy { side, formula, names, functions } = strategy;
    let places = formula.prefix.iter().enumerate().map(|(place, row)| (row.argument, place));
    let places: HashMap<usize, usize> = places.collect();
    let bound = formula.prefix.iter().map(|row| {
        let name = Field::text("name", &names.of(row.argument));
        vec![name, Field::text("quantifier", row.quantifier())]
    });
    let functions = functions.iter().map(|(x, function)| {
        vec![
            Field::number("variable", places[x]),
            Field::text("text", &words(function, &formula.prefix, names)),
            Field::list("rows", rows(function, &places)),
        ]
    });
    vec![
        Field::text("side", side_words(*side)),
        Field::objects("prefix", bound),
        Field::list("matrix", rows(&formula.matrix, &places)),
        Field::texts("guards", &guards.iter().map(|guard| in_words(guard)).collect::<Vec<_>>()),
        Field::objects("functions", functions),
    ]
}

/// A literal as the place of its variable, counted from 1, below 0 for a negation; an operator as
/// its kind and how many children it has.
fn rows<'a>(
    rows: &'a [Row],
    places: &'a HashMap<usize, usize>,
) -> impl Iterator<Item = String> + 'a {
    rows.iter().map(|row| match (row.is_literal(), row.kind) {
        (true, NEGATIVE) => format!("-{}", places[&row.argument] + 1),
        (true, _) => (places[&row.argument] + 1).to_string(),
        (false, _) => {
            let kind = row.operator().to_ascii_lowercase();
            format!("[\"{kind}\",{}]", row.argument)
        }
    })
}

/// A guard's name, which a circuit may have negated.
fn in_words(guard: &str) -> String {
    guard.strip_prefix('-').map_or(guard.to_string(), |name| format!("not {name}"))
}

/// Data that no tag can be in.
fn in_element(data: &str) -> String {
    data.replace('<', "\\u003c")
}

/// Text as HTML has it.
fn escaped(text: &str) -> String {
    let pairs = [('&', "&amp;"), ('<', "&lt;"), ('>', "&gt;"), ('"', "&quot;")];
    pairs.iter().fold(text.to_string(), |text, (letter, entity)| text.replace(*letter, entity))
}
