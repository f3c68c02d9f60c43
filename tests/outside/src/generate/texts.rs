//! QDIMACS texts of clause sets, spelled in every way that the format leaves
//! open, and damage to them.

use super::prefix::prefix;
use super::trees::literal;
use super::{Limits, Rng};
use crate::reference::{Binding, Formula, Node, Quantifier, Variable};

/// AND of ORs of literals, as they come: untidy, with empty and unit clauses.
pub fn clause_set(rng: &mut Rng, limits: Limits) -> Formula {
    let count = rng.between(0, limits.variables);
    let prefix = prefix(rng, limits.format, count);
    let pool: Vec<Variable> = prefix.iter().map(|row| row.1).collect();
    let widest = if pool.is_empty() { 0 } else { rng.between(1, 4) };
    let shortest = if rng.one_in(8) { 0 } else { widest.min(1) };
    let budget = rng.between(1, limits.nodes);
    let (mut rows, mut clauses) = (1, Vec::new());
    loop {
        let width = rng.between(shortest, widest);
        rows += 1 + width;
        if rows > budget {
            return Formula { prefix, matrix: Node::and(clauses) };
        }
        clauses.push(Node::or((0..width).map(|_| literal(rng, &pool)).collect()));
        if widest == 0 && rng.one_in(2) {
            return Formula { prefix, matrix: Node::and(clauses) };
        }
    }
}

const BLANKS: [&str; 3] = [" ", "\t", "\r"];
const SEPARATORS: [&str; 6] = [" ", "\t", "\r", "\n", "\r\n", " \n\t "];

/// A text that is read as the formula, a clause set: comments and blank lines,
/// blanks and line ends, leading zeros, lists cut in two, empty quantifier lists
/// and free variables wherever they may be.
pub fn qdimacs_text(rng: &mut Rng, limits: Limits, formula: &Formula) -> Vec<u8> {
    let mut speller = Speller { plain: rng.one_in(3), text: String::new() };
    speller.above(rng);
    speller.header(rng, limits, formula);
    let free = free_rows(rng, formula);
    speller.prefix(rng, &formula.prefix[free..]);
    for clause in formula.matrix.children() {
        for child in clause.children() {
            if let Node::Lit { positive, var } = child {
                speller.number(rng, if *positive { "" } else { "-" }, *var);
            }
        }
        speller.number(rng, "", 0);
    }
    speller.text.into_bytes()
}

/// How many exists rows in front need not be written: a rising run of variables
/// that occur.
fn free_rows(rng: &mut Rng, formula: &Formula) -> usize {
    let (used, mut most, mut last) = (formula.matrix.variables(), 0, 0);
    for &(quantifier, var) in &formula.prefix {
        if quantifier != Quantifier::Exists || var < last || !used.contains(&var) {
            break;
        }
        (most, last) = (most + 1, var);
    }
    rng.below(most + 1)
}

struct Speller {
    /// One blank or line end wherever one is needed, and no more.
    plain: bool,
    text: String,
}

impl Speller {
    fn above(&mut self, rng: &mut Rng) {
        while !self.plain && rng.one_in(2) {
            let line = rng.pick(&["c", "c a comment", "", " \t\r", "cnf", "c\r", "c p cnf 1 1"]);
            self.text += line;
            self.text.push('\n');
        }
    }

    fn header(&mut self, rng: &mut Rng, limits: Limits, formula: &Formula) {
        let highest = formula.highest_variable();
        let most = limits.format.most_variables;
        let between = rng.between(highest, most);
        let variables = rng.pick(&[highest, highest, between, most]);
        self.blanks(rng, 0);
        for word in ["p", "cnf"] {
            self.text += word;
            self.blanks(rng, 1);
        }
        self.digits(rng, variables);
        self.blanks(rng, 1);
        self.digits(rng, formula.matrix.children().len());
        self.blanks(rng, 0);
        self.text.push('\n');
    }

    /// The rows as lists, which are cut wherever the quantifier changes and elsewhere.
    fn prefix(&mut self, rng: &mut Rng, prefix: &[Binding]) {
        let mut rest = prefix;
        while let Some(&(quantifier, _)) = rest.first() {
            self.empty_lists(rng);
            let run = rest.iter().take_while(|row| row.0 == quantifier).count();
            let cut = if rng.one_in(3) { rng.between(1, run) } else { run };
            self.list(rng, quantifier, &rest[..cut]);
            rest = &rest[cut..];
        }
        self.empty_lists(rng);
    }

    fn empty_lists(&mut self, rng: &mut Rng) {
        while !self.plain && rng.one_in(6) {
            let quantifier = rng.pick(&[Quantifier::Exists, Quantifier::ForAll]);
            self.list(rng, quantifier, &[]);
        }
    }

    fn list(&mut self, rng: &mut Rng, quantifier: Quantifier, rows: &[Binding]) {
        self.text.push(if quantifier == Quantifier::Exists { 'e' } else { 'a' });
        self.separator(rng);
        rows.iter().for_each(|row| self.number(rng, "", row.1));
        self.number(rng, "", 0);
    }

    fn number(&mut self, rng: &mut Rng, sign: &str, number: usize) {
        self.text += sign;
        self.digits(rng, number);
        if number == 0 && self.plain {
            self.text.push('\n');
        } else {
            self.separator(rng);
        }
    }

    fn digits(&mut self, rng: &mut Rng, number: usize) {
        let zeros = if self.plain || !rng.one_in(6) { 0 } else { rng.pick(&[1, 2, 12]) };
        self.text += &format!("{}{number}", "0".repeat(zeros));
    }

    fn blanks(&mut self, rng: &mut Rng, least: usize) {
        let count = if self.plain { least } else { least + rng.pick(&[0, 0, 0, 1, 3]) };
        for _ in 0..count {
            self.text += if self.plain { " " } else { rng.pick(&BLANKS) };
        }
    }

    fn separator(&mut self, rng: &mut Rng) {
        self.text += if self.plain { " " } else { rng.pick(&SEPARATORS) };
    }
}

/// Words that a reader may trip over.
const WORDS: [&str; 34] = [
    "0",
    "00",
    "-0",
    "-00",
    "+1",
    "1x",
    "x",
    "-",
    "--1",
    "-1",
    "1",
    "2",
    "03",
    "-04",
    "e",
    "a",
    "c",
    "p",
    "cnf",
    "e1",
    "a0",
    "-e",
    "256",
    "257",
    "1024",
    "1025",
    "2147483647",
    "2147483648",
    "-2147483648",
    "-2147483649",
    "4294967297",
    "18446744073709551617",
    "c 1",
    "p cnf 1 1",
];
const BYTES: &[u8] = b"01289-+eacpnf \t\r\n\0\x0b\x0c\x7f\x80\xa0\xff";

/// A text with one fault or several, though some damage does no harm.
pub fn damage_text(rng: &mut Rng, text: &[u8]) -> Vec<u8> {
    let mut damaged = text.to_vec();
    for _ in 0..rng.pick(&[1, 1, 1, 2, 5]) {
        let at = rng.below(damaged.len() + 1);
        match rng.below(8) {
            0 => damaged.truncate(at),
            1 => damaged.insert(at, rng.pick(BYTES)),
            2 | 3 => replace_word(rng, &mut damaged, at),
            4 => {
                let end = (at + rng.between(1, 6)).min(damaged.len());
                damaged.drain(at..end);
            }
            5 => {
                let end = (at + rng.between(1, 12)).min(damaged.len());
                let again = damaged[at..end].to_vec();
                damaged.splice(at..at, again);
            }
            _ if at < damaged.len() => damaged[at] = rng.pick(BYTES),
            _ => damaged.extend(rng.pick(&WORDS).bytes()),
        }
    }
    damaged
}

fn replace_word(rng: &mut Rng, text: &mut Vec<u8>, at: usize) {
    let is_inside = |byte: &u8| !b" \t\r\n".contains(byte);
    let start = text[..at].iter().rposition(|byte| !is_inside(byte)).map_or(0, |place| place + 1);
    let end = text[at..].iter().position(|byte| !is_inside(byte)).map_or(text.len(), |n| at + n);
    let word = rng.pick(&WORDS).bytes();
    if rng.one_in(2) {
        text.splice(start..end, word);
    } else {
        text.splice(start..start, word.chain([b' ']));
    }
}
