//! `plumanchor force VALUES [SHEET]`.

use crate::arguments::{Arguments, Misuse};
use crate::command::{Answer, Command, Failure};
use crate::format::DEFAULT;
use crate::formula::Row;
use crate::input::{self, Input};
use crate::json::Field;
use crate::names::{is_name, Names};
use crate::options::{FROM, JSON, NAMES, RENUMBER};
use plumanchor::Outcome;

pub const COMMAND: Command = Command {
    name: "force",
    purpose: "whose turn it is under values given, and which moves win",
    words: "VALUES [SHEET]",
    about: "VALUES is a word of 0 and 1, one for each of the first variables of the prefix, '' for none; or\n\
           the same by name, as in 'feed=1 lift=0' or 'feed=1,lift=0'.\n\
           Writes whose turn is next, 'exists' or 'for-all', and with which value that side forces the\n\
           outcome it wants, true for exists, false for all: 'neither', '0', '1' or 'both'; or 'stopped'\n\
           and the variable at which the run on a value stopped for want of room, value 0's run first. To\n\
           values by name the answer has the variable's name too, as in 'jam: for all, neither'.\n",
    options: &[&FROM, &RENUMBER, &NAMES, &JSON],
    run,
};

fn run(arguments: &mut Arguments) -> Result<Answer, Failure> {
    let mut words = arguments.words_while(is_assignment);
    let by_name = !words.is_empty();
    if !by_name {
        words.push(arguments.asked("values")?);
        digits(&words[0])?;
    }
    let Input { sheet, names, .. } = input::input(arguments, DEFAULT)?;
    let prefix = sheet.formula()?.prefix;
    let values = if by_name { assigned(&words, &prefix, &names)? } else { digits(&words[0])? };
    let (existential, outcome) = sheet.force(&values, sheet.format.longest())?;
    let next = names.of(prefix[values.len()].argument);
    let turn = if existential { "exists" } else { "for-all" };
    let (won, stopped) = match outcome {
        Outcome::Neither => ("neither", None),
        Outcome::Zero => ("0", None),
        Outcome::One => ("1", None),
        Outcome::Both => ("both", None),
        Outcome::Stopped(variable) => ("stopped", Some(names.of(variable))),
    };
    let mut fields = vec![Field::text("turn", turn), Field::text("values", won)];
    let mut line = format!("{turn} {won}");
    if by_name {
        fields.insert(0, Field::text("next", &next));
        line = format!("{next}: {}, {won}", turn.replace('-', " "));
    }
    if let Some(name) = stopped {
        fields.push(Field::text("variable", &name));
        line += &format!(" {name}");
    }
    Ok(Answer::of_words(line, fields))
}

/// Whether a word begins with a name and '='. A file of such a name can be said as './NAME'.
fn is_assignment(word: &str) -> bool {
    word.split_once('=').is_some_and(|(name, _)| is_name(name))
}

/// A value for each digit; that it is 0 or 1 is for the operation to say.
fn digits(word: &str) -> Result<Vec<u8>, Misuse> {
    let digit = |letter: char| letter.to_digit(10).map(|digit| digit as u8);
    let digits: Option<Vec<u8>> = word.chars().map(digit).collect();
    digits.ok_or_else(|| Misuse::new(format!("values are a word of 0 and 1, and not '{word}'")))
}

/// The values of variables given as 'feed=1,lift=0', in the prefix's order: they are its first ones.
fn assigned(words: &[String], prefix: &[Row], names: &Names) -> Result<Vec<u8>, Misuse> {
    let mut values = vec![None; prefix.len()];
    for pair in words.iter().flat_map(|word| word.split(',')) {
        let (name, value) = pair.split_once('=').unwrap_or((pair, ""));
        let (x, value) = (names.variable(name)?, digits(value)?);
        let place = prefix.iter().position(|row| row.argument == x);
        match (place, &value[..]) {
            (None, _) => return Err(Misuse::new(format!("the sheet has no variable '{name}'"))),
            (_, [] | [_, _, ..]) => {
                return Err(Misuse::new(format!("one value, 0 or 1, for '{name}'")))
            }
            (Some(place), _) if values[place].is_some() => {
                return Err(Misuse::new(format!("'{name}' twice")));
            }
            (Some(place), &[value]) => values[place] = Some(value),
        }
    }
    let given: Vec<u8> = values.iter().map_while(|value| *value).collect();
    if values[given.len()..].iter().any(Option::is_some) {
        let next = names.of(prefix[given.len()].argument);
        return Err(Misuse::new(format!(
            "values are those of the first variables, and '{next}' has none"
        )));
    }
    Ok(given)
}
