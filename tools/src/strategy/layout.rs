//! A function as an expression of some language, in one line or wrapped and indented.

use super::circuit::{Circuit, Edge, Seen};
use crate::formula::AND;

/// How a language writes expressions. Operators inside another one stand in brackets, so that
/// nobody has to know which binds closer.
pub struct Language<'a> {
    pub and: &'static str,
    pub or: &'static str,
    pub xor: &'static str,
    /// In front of its operand, with a blank where one is needed.
    pub not: &'static str,
    /// 0 and 1.
    pub constants: [&'static str; 2],
    pub name: &'a dyn Fn(usize) -> String,
}

/// How long a line may be.
const WIDTH: usize = 96;
/// How far a wrapped line is indented beyond what is around it, and at most.
const STEP: usize = 4;
const DEEPEST: usize = 48;

/// An edge's expression in one line.
pub fn line(circuit: &Circuit, edge: Edge, language: &Language) -> String {
    let mut layout = Layout::new(circuit, language);
    layout.write(edge, Place { margin: None, behind: 0 });
    layout.text
}

/// A head, an expression and a tail behind it, in lines; those that go on stand further in.
pub fn lines(
    circuit: &Circuit,
    edge: Edge,
    language: &Language,
    [head, tail]: [&str; 2],
) -> String {
    let margin = head.len() - head.trim_start().len() + STEP;
    let mut layout = Layout::new(circuit, language);
    layout.text += head;
    layout.write(edge, Place { margin: Some(margin), behind: tail.len() });
    layout.text + tail + "\n"
}

/// What is still to be written.
enum Piece {
    Text(&'static str),
    /// An edge, inside another one or not.
    Edge(Edge, bool, Place),
    /// One more input, behind its operator.
    Next(&'static str, Edge, Place),
}

/// Where something stands.
#[derive(Clone, Copy)]
struct Place {
    /// The margin of further lines, if there can be any.
    margin: Option<usize>,
    /// How many letters stand behind it in its line.
    behind: usize,
}

struct Layout<'a> {
    circuit: &'a Circuit,
    language: &'a Language<'a>,
    /// How long each gate is in one line, as it is and negated.
    lengths: Vec<[usize; 2]>,
    text: String,
    /// Where the last line begins.
    start: usize,
}

impl<'a> Layout<'a> {
    fn new(circuit: &'a Circuit, language: &'a Language<'a>) -> Layout<'a> {
        let (lengths, text) = (Vec::new(), String::new());
        let mut layout = Layout { circuit, language, lengths, text, start: 0 };
        for gate in 0..circuit.nodes.len() {
            let lengths = [false, true].map(|negated| layout.measured(Edge { gate, negated }));
            layout.lengths.push(lengths);
        }
        layout
    }

    /// The length in one line, by those of the inputs.
    fn measured(&self, edge: Edge) -> usize {
        let Language { and, or, xor, not, constants, name } = self.language;
        let joined = |word: &str, inputs: &[Edge]| {
            let words = (word.len() + 2) * (inputs.len() - 1);
            inputs.iter().fold(words, |total, &input| total.saturating_add(self.inside(input)))
        };
        match self.circuit.seen(edge) {
            Seen::Constant(value) => constants[usize::from(value)].len(),
            Seen::Literal(x, true) => name(x).len(),
            Seen::Literal(x, false) => not.len() + name(x).len(),
            Seen::Operator(kind, inputs) => joined(if kind == AND { and } else { or }, &inputs),
            Seen::Xor(inputs, false) => joined(xor, &inputs),
            Seen::Xor(inputs, true) => joined(xor, &inputs).saturating_add(not.len() + 2),
        }
    }

    /// The length inside another operator.
    fn inside(&self, edge: Edge) -> usize {
        let length = self.lengths[edge.gate][usize::from(edge.negated)];
        length.saturating_add(if self.is_bracketed(edge) { 2 } else { 0 })
    }

    fn is_bracketed(&self, edge: Edge) -> bool {
        matches!(self.circuit.seen(edge), Seen::Operator(..) | Seen::Xor(_, false))
    }

    fn write(&mut self, edge: Edge, place: Place) {
        let mut pieces = vec![Piece::Edge(edge, false, place)];
        while let Some(piece) = pieces.pop() {
            match piece {
                Piece::Text(text) => self.text += text,
                Piece::Edge(edge, inside, place) => self.open(edge, inside, place, &mut pieces),
                Piece::Next(word, edge, place) => {
                    self.lead(word, edge, place);
                    pieces.push(Piece::Edge(edge, true, place.within()));
                }
            }
        }
    }

    fn fits(&self, length: usize) -> bool {
        (self.text.len() - self.start).saturating_add(length) <= WIDTH
    }

    /// An operator in front of one more input: in the same line if that is a short one that fits.
    fn lead(&mut self, word: &'static str, edge: Edge, Place { margin, behind }: Place) {
        let length = self.inside(edge).saturating_add(word.len() + 2 + behind);
        match margin {
            Some(margin) if self.is_bracketed(edge) || !self.fits(length) => {
                self.text.push('\n');
                self.start = self.text.len();
                self.text += &format!("{}{word} ", " ".repeat(margin.min(DEEPEST)));
            }
            _ => self.text += &format!(" {word} "),
        }
    }

    /// Begins an edge, and leaves its inputs for later.
    fn open(&mut self, edge: Edge, inside: bool, place: Place, pieces: &mut Vec<Piece>) {
        let Language { and, or, xor, not, constants, name } = self.language;
        let length = self.inside(edge).saturating_add(place.behind);
        let (word, inputs, opening) = match self.circuit.seen(edge) {
            Seen::Constant(value) => return self.text += constants[usize::from(value)],
            Seen::Literal(x, true) => return self.text += &name(x),
            Seen::Literal(x, false) => return self.text += &format!("{not}{}", name(x)),
            Seen::Operator(kind, inputs) => (if kind == AND { and } else { or }, inputs, ""),
            Seen::Xor(inputs, negated) => (xor, inputs, if negated { *not } else { "" }),
        };
        let margin = place.margin.filter(|_| !self.fits(length));
        let bracketed = inside || !opening.is_empty();
        self.text += opening;
        if bracketed {
            self.text.push('(');
            pieces.push(Piece::Text(")"));
        }
        for (at, &input) in inputs.iter().enumerate().skip(1).rev() {
            let is_last = at + 1 == inputs.len();
            let behind = if is_last { place.behind + usize::from(bracketed) } else { 0 };
            pieces.push(Piece::Next(word, input, Place { margin, behind }));
        }
        pieces.push(Piece::Edge(inputs[0], true, Place { margin, behind: 0 }.within()));
    }
}

impl Place {
    /// For what stands inside.
    fn within(self) -> Place {
        Place { margin: self.margin.map(|margin| margin + STEP), ..self }
    }
}
