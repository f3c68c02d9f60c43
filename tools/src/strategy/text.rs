//! Functions as lines of text, `stop = feed xor jam`, which a drawer reads, changes and hands in
//! again.

use super::circuit::{Circuit, Edge};
use super::layout::{self, Language};
use super::{first_line, Strategy, Tree};
use crate::formula::{Formula, Row};
use crate::names::{is_name, Names};
use crate::qcir::Fault;
use crate::words::count;
use plumanchor::Quantifier;

/// Words of the text; a variable that is called so stands in quotes.
const WORDS: [&str; 6] = ["and", "or", "xor", "not", "true", "false"];

/// The first line, and one for each function.
pub fn write(strategy: &Strategy) -> String {
    let Strategy { side, formula, names, functions } = strategy;
    let mut text = first_line(*side) + "\n";
    let prefix = &formula.prefix;
    text.extend(functions.iter().map(|(x, tree)| function_line(*x, tree, prefix, names)));
    text
}

/// The line of one function, wrapped if it is long.
pub fn function_line(x: usize, tree: &[Row], prefix: &[Row], names: &Names) -> String {
    let mut circuit = Circuit::new();
    let edge = circuit.of_rows(tree);
    let head = format!("{} = ", quoted(&names.of(x)));
    in_words(prefix, names, |language| layout::lines(&circuit, edge, language, [&head, ""]))
}

/// A function in one line.
pub fn words(tree: &[Row], prefix: &[Row], names: &Names) -> String {
    let mut circuit = Circuit::new();
    let edge = circuit.of_rows(tree);
    in_words(prefix, names, |language| layout::line(&circuit, edge, language))
}

fn in_words(prefix: &[Row], names: &Names, write: impl FnOnce(&Language) -> String) -> String {
    let name = |x: usize| quoted(&names.of(x));
    let numbers = ["0", "1"].iter().any(|word| called(word, prefix, names).is_some());
    let constants = if numbers { ["false", "true"] } else { ["0", "1"] };
    write(&Language { and: "and", or: "or", xor: "xor", not: "not ", constants, name: &name })
}

fn quoted(name: &str) -> String {
    if WORDS.contains(&name) {
        format!("'{name}'")
    } else {
        name.to_string()
    }
}

/// The variable of the prefix that goes by a word.
fn called(word: &str, prefix: &[Row], names: &Names) -> Option<usize> {
    prefix.iter().map(|row| row.argument).find(|&x| names.of(x) == word)
}

/// What a text says: the side that its first line names, and each function, in the text's order.
#[derive(Debug)]
pub struct Text {
    pub side: Option<Quantifier>,
    pub functions: Vec<(usize, Tree)>,
}

/// Reads what `write` writes, and what drawers make of it: lines in any order, comments behind '#',
/// lines that go on where they begin with a blank. A tree has at most so many rows.
pub fn read(text: &[u8], formula: &Formula, names: &Names, most: usize) -> Result<Text, Fault> {
    let mut read = Text { side: None, functions: Vec::new() };
    for (line, statement) in statements(text)? {
        let fault = |why: String| Fault { line, why };
        if let Some(side) = side_said(&statement) {
            let is_first = read.functions.is_empty() && read.side.is_none();
            let side = side.filter(|_| is_first).ok_or_else(|| {
                fault("'true: exists wins' or 'false: for all wins' is the first line".into())
            })?;
            read.side = Some(side);
            continue;
        }
        let pair = Reader { prefix: &formula.prefix, names, circuit: Circuit::new() };
        read.functions.push(pair.pair(&statement, most).map_err(fault)?);
    }
    Ok(read)
}

/// The statements of a text, each with its first line's number.
fn statements(text: &[u8]) -> Result<Vec<(usize, String)>, Fault> {
    let mut statements: Vec<(usize, String)> = Vec::new();
    for (bytes, line) in text.split(|&byte| byte == b'\n').zip(1..) {
        let code = bytes.split(|&byte| byte == b'#').next().unwrap_or_default();
        let code = std::str::from_utf8(code);
        let code = code.map_err(|_| Fault { line, why: "bytes that are no text".into() })?;
        let goes_on = code.starts_with([' ', '\t']);
        match (code.trim(), statements.last_mut()) {
            ("", _) => {}
            (words, Some(last)) if goes_on => last.1 += &format!(" {words}"),
            (words, _) => statements.push((line, words.to_string())),
        }
    }
    Ok(statements)
}

/// The side of a line that says who wins; nothing inside if it says it wrongly.
fn side_said(statement: &str) -> Option<Option<Quantifier>> {
    let words = statement.split_whitespace().collect::<Vec<&str>>().join(" ");
    let sides = [Quantifier::Exists, Quantifier::ForAll];
    let said = || sides.into_iter().find(|side| words == first_line(*side));
    statement.contains(':').then(said)
}

/// A piece of a function's text.
#[derive(Clone, Copy, Debug, PartialEq, Eq)]
enum Token<'a> {
    /// A name or a number, in quotes or not.
    Word(&'a str, bool),
    Sign(char),
}

fn tokens(text: &str) -> Result<Vec<Token<'_>>, String> {
    let mut tokens = Vec::new();
    let mut rest = text.trim_start();
    while let Some(letter) = rest.chars().next() {
        let length = match letter {
            '(' | ')' | '=' => {
                tokens.push(Token::Sign(letter));
                1
            }
            '\'' => {
                let end = rest[1..].find('\'').ok_or("a quote is not closed")?;
                tokens.push(Token::Word(&rest[1..=end], true));
                end + 2
            }
            _ => {
                let end = rest.find(|letter: char| !is_name(letter.encode_utf8(&mut [0; 4])));
                let word = &rest[..end.unwrap_or(rest.len())];
                if word.is_empty() {
                    return Err(format!("'{letter}' is no part of a function"));
                }
                tokens.push(Token::Word(word, false));
                word.len()
            }
        };
        rest = rest[length..].trim_start();
    }
    Ok(tokens)
}

/// What is open: the operator so far, its inputs, and whether the next one is negated.
#[derive(Default)]
struct Open<'a> {
    operator: Option<&'a str>,
    inputs: Vec<Edge>,
    negated: bool,
}

struct Reader<'a> {
    prefix: &'a [Row],
    names: &'a Names,
    circuit: Circuit,
}

impl Reader<'_> {
    /// A variable and its function.
    fn pair(mut self, statement: &str, most: usize) -> Result<(usize, Tree), String> {
        let tokens = tokens(statement)?;
        let [Token::Word(name, is_quoted), Token::Sign('='), function @ ..] = &tokens[..] else {
            return Err("a line is 'NAME = FUNCTION'".into());
        };
        if !is_quoted && WORDS.contains(name) {
            return Err(format!(
                "a line is 'NAME = FUNCTION', and a variable called {name} stands in quotes"
            ));
        }
        let x = self.variable(name)?;
        let edge = self.function(function)?;
        let rows = self.circuit.rows(edge, most);
        let too_many =
            |size| format!("as a tree it has {}, and a sheet at most {most}", rows_told(size));
        Ok((x, rows.map_err(too_many)?))
    }

    fn variable(&self, word: &str) -> Result<usize, String> {
        match called(word, self.prefix, self.names) {
            Some(x) => Ok(x),
            None => Err(match self.names.variable(word) {
                Err(misuse) => misuse.to_string(),
                Ok(x) => format!("the sheet has no variable {x}"),
            }),
        }
    }

    fn function(&mut self, tokens: &[Token]) -> Result<Edge, String> {
        let mut open = vec![Open::default()];
        // The input that was read last, until an operator or a bracket follows it.
        let mut input: Option<Edge> = None;
        for &token in tokens {
            let last = open.last_mut().expect("one is always open");
            match (token, input) {
                (Token::Word("not", false), None) => last.negated = !last.negated,
                (Token::Sign('('), None) => open.push(Open::default()),
                (Token::Word(word, is_quoted), None) if is_quoted || is_operand(word) => {
                    input = Some(last.take(self.operand(word, is_quoted)?));
                }
                (Token::Word(word @ ("and" | "or" | "xor"), false), Some(edge)) => {
                    last.join(word, edge)?;
                    input = None;
                }
                (Token::Sign(')'), Some(edge)) if open.len() > 1 => {
                    let closed = open.pop().expect("one is open").closed(edge, &mut self.circuit);
                    let around = open.last_mut().expect("one is always open");
                    input = Some(around.take(closed));
                }
                (_, None) => {
                    return Err(format!("a variable, '(' or 'not' before {}", token.told()))
                }
                (_, Some(_)) => {
                    return Err(format!("'and', 'or' or 'xor' before {}", token.told()))
                }
            }
        }
        match (input, open.pop(), open.is_empty()) {
            (None, ..) => Err("the function ends where a variable should follow".into()),
            (Some(edge), Some(last), true) => Ok(last.closed(edge, &mut self.circuit)),
            _ => Err("a bracket is not closed".into()),
        }
    }

    fn operand(&mut self, word: &str, is_quoted: bool) -> Result<Edge, String> {
        let constant = match word {
            "true" => Some(true),
            "false" => Some(false),
            "0" | "1" if called(word, self.prefix, self.names).is_none() => Some(word == "1"),
            _ => None,
        };
        match constant.filter(|_| !is_quoted) {
            Some(value) => Ok(Circuit::constant(value)),
            None => Ok(self.variable(word).map(|x| self.circuit.literal(x, true))?),
        }
    }
}

fn is_operand(word: &str) -> bool {
    !["and", "or", "xor", "not"].contains(&word)
}

impl<'a> Open<'a> {
    /// An input, negated if 'not' stands before it.
    fn take(&mut self, edge: Edge) -> Edge {
        let negated = std::mem::take(&mut self.negated);
        if negated {
            edge.not()
        } else {
            edge
        }
    }

    fn join(&mut self, word: &'a str, edge: Edge) -> Result<(), String> {
        match self.operator.replace(word).filter(|&known| known != word) {
            Some(known) => {
                Err(format!("'{known}' and '{word}' side by side: brackets say which goes first"))
            }
            None => {
                self.inputs.push(edge);
                Ok(())
            }
        }
    }

    /// What is inside a pair of brackets, with its last input.
    fn closed(mut self, last: Edge, circuit: &mut Circuit) -> Edge {
        self.inputs.push(last);
        match self.operator {
            Some("and") => circuit.and(self.inputs),
            Some("or") => circuit.or(self.inputs),
            _ => {
                let mut inputs = self.inputs.into_iter();
                let first = inputs.next().expect("an input");
                inputs.fold(first, |edge, input| circuit.xor(edge, input))
            }
        }
    }
}

impl Token<'_> {
    fn told(self) -> String {
        match self {
            Token::Word(word, _) => format!("'{word}'"),
            Token::Sign(sign) => format!("'{sign}'"),
        }
    }
}

fn rows_told(size: u128) -> String {
    match usize::try_from(size) {
        Ok(size) => count(size, "node"),
        Err(_) => "far more nodes than can be counted".into(),
    }
}
