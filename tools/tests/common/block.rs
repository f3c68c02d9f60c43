//! A reader and runner of Structured Text, IEC 61131-3, as far as a block of assignments goes; also
//! of lines as `strategy` writes them.
#![allow(dead_code)] // No test file needs all of it.

use std::collections::BTreeMap;

/// Inputs, outputs, and assignments in their order.
#[derive(Debug, Default)]
pub struct Block {
    pub inputs: Vec<String>,
    pub outputs: Vec<String>,
    assignments: Vec<(String, Vec<String>)>,
}

/// The words and signs of a text, without what stands between (* and *).
fn words(text: &str) -> Vec<String> {
    let mut code = String::new();
    for (at, piece) in text.split("(*").enumerate() {
        code +=
            if at == 0 { piece } else { piece.split_once("*)").expect("the end of a comment").1 };
    }
    let mut words: Vec<String> = Vec::new();
    let mut inside = false;
    for letter in code.chars() {
        let is_word = letter.is_ascii_alphanumeric() || letter == '_';
        match words.last_mut() {
            Some(last) if is_word && inside => last.push(letter),
            Some(last) if letter == '=' && last == ":" => last.push(letter),
            _ if letter.is_whitespace() => {}
            _ => words.push(letter.to_string()),
        }
        inside = is_word;
    }
    words
}

impl Block {
    /// A function block of Boolean inputs and outputs.
    pub fn read(text: &str) -> Block {
        let words = words(text);
        let mut rest = &words[..];
        let mut block = Block::default();
        let mut take = |count: usize| {
            let (taken, behind) = rest.split_at(count);
            rest = behind;
            taken.iter().map(|word| word.to_ascii_uppercase()).collect::<Vec<String>>()
        };
        assert_eq!(take(1), ["FUNCTION_BLOCK"]);
        assert_eq!(take(1).len(), 1);
        while matches!(rest[0].as_str(), "VAR_INPUT" | "VAR_OUTPUT") {
            let is_input = rest[0] == "VAR_INPUT";
            let end = rest.iter().position(|word| word == "END_VAR").expect("END_VAR");
            for declared in rest[1..end].chunks(4) {
                assert_eq!(declared[1..], [":", "BOOL", ";"]);
                let list = if is_input { &mut block.inputs } else { &mut block.outputs };
                list.push(declared[0].clone());
            }
            rest = &rest[end + 1..];
        }
        let body = rest.strip_suffix(&["END_FUNCTION_BLOCK".to_string()]).expect("its end");
        for statement in body.split(|word| word == ";").filter(|words| !words.is_empty()) {
            assert_eq!(statement[1], ":=");
            block.assignments.push((statement[0].clone(), statement[2..].to_vec()));
        }
        let assigned: Vec<&String> = block.assignments.iter().map(|pair| &pair.0).collect();
        assert!(block.outputs.iter().all(|name| assigned.contains(&name)), "every output is set");
        assert_eq!(assigned.len(), block.outputs.len(), "each once");
        block
    }

    /// One line `name = function`, in the words of `strategy`.
    pub fn of_line(line: &str) -> Block {
        let words = words(line);
        assert_eq!(words[1], "=");
        let upper = words[2..].iter().map(|word| word.to_ascii_uppercase()).collect();
        Block { assignments: vec![(words[0].clone(), upper)], ..Block::default() }
    }

    /// The values that the assignments give, one after the other; what is not yet set is given.
    pub fn run(&self, given: &dyn Fn(&str) -> bool) -> Vec<(String, bool)> {
        let mut set: BTreeMap<String, bool> = BTreeMap::new();
        let mut told = Vec::new();
        for (name, function) in &self.assignments {
            let known = |word: &str| match set.get(word) {
                Some(value) => *value,
                None => {
                    let read = self.inputs.is_empty() || self.inputs.contains(&word.to_string());
                    assert!(read || self.outputs.is_empty(), "{word} is read before it is set");
                    given(word)
                }
            };
            let mut rest = &function[..];
            let value = either(&mut rest, &known);
            assert!(rest.is_empty(), "{rest:?} behind a function");
            set.insert(name.clone(), value);
            told.push((name.clone(), value));
        }
        told
    }
}

/// OR binds least, then XOR, then AND.
fn either(rest: &mut &[String], known: &dyn Fn(&str) -> bool) -> bool {
    let mut value = differ(rest, known);
    while taken(rest, "OR") {
        value |= differ(rest, known);
    }
    value
}

fn differ(rest: &mut &[String], known: &dyn Fn(&str) -> bool) -> bool {
    let mut value = both(rest, known);
    while taken(rest, "XOR") {
        value ^= both(rest, known);
    }
    value
}

fn both(rest: &mut &[String], known: &dyn Fn(&str) -> bool) -> bool {
    let mut value = one(rest, known);
    while taken(rest, "AND") {
        value &= one(rest, known);
    }
    value
}

fn one(rest: &mut &[String], known: &dyn Fn(&str) -> bool) -> bool {
    let (word, behind) = rest.split_first().expect("a function goes on");
    *rest = behind;
    match word.as_str() {
        "NOT" => !one(rest, known),
        "TRUE" => true,
        "FALSE" => false,
        "(" => {
            let value = either(rest, known);
            assert!(taken(rest, ")"), "a bracket is closed");
            value
        }
        name => known(name),
    }
}

fn taken(rest: &mut &[String], word: &str) -> bool {
    let is_there = rest.first().is_some_and(|first| first == word);
    if is_there {
        *rest = &rest[1..];
    }
    is_there
}
