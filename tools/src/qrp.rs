//! Traces in the QRP format, as `depqbf --trace` writes them: a clause or a cube
//! a line, with the lines that it comes from, by identifier. What leads to the
//! last of them becomes the words that Certify judges; so nothing here is relied on.

use std::collections::HashMap;
use std::ops::Range;

/// A trace, line by line; literals are as in QDIMACS, all in one list.
pub struct Trace {
    /// What its last line says: SAT has cubes, UNSAT clauses.
    verdict: bool,
    lines: Vec<Line>,
    literals: Vec<i32>,
}

/// A clause or a cube.
struct Line {
    /// Counted from 1.
    number: usize,
    literals: Range<usize>,
    /// The places of the lines that it comes from: none for an initial one, one for a reduction,
    /// two for a resolution.
    antecedents: Vec<u32>,
}

/// The words of the steps that lead to a trace's last line.
pub struct Derivation {
    pub verdict: bool,
    pub heads: Vec<u32>,
    pub codes: Vec<u32>,
    /// The line of each step.
    lines: Vec<usize>,
}

/// What a line is at fault for.
fn fault(line: usize, why: impl std::fmt::Display) -> String {
    format!("line {line}: {why}")
}

impl Trace {
    /// Reads a text, or says which line is at fault.
    pub fn read(text: &[u8]) -> Result<Trace, String> {
        let mut trace = Trace { verdict: false, lines: Vec::new(), literals: Vec::new() };
        let (mut is_begun, mut verdict, mut last) = (false, None, 1);
        let mut places = HashMap::new();
        for (line, at) in text.split(|&byte| byte == b'\n').zip(1..) {
            let mut words = line.split(u8::is_ascii_whitespace).filter(|word| !word.is_empty());
            let Some(first) = words.next().filter(|_| line[0] != b'c') else { continue };
            last = at;
            if verdict.is_some() {
                return Err(fault(at, "the trace goes on behind its verdict"));
            }
            match first {
                b"p" if !is_begun && words.next() == Some(&b"qrp"[..]) => is_begun = true,
                _ if !is_begun => return Err(fault(at, "a trace in QRP begins with 'p qrp'")),
                // The prefix that counts is the sheet's.
                b"a" | b"e" => {}
                b"r" => match words.next() {
                    Some(b"SAT") => verdict = Some(true),
                    Some(b"UNSAT") => verdict = Some(false),
                    _ => return Err(fault(at, "the verdict is neither SAT nor UNSAT")),
                },
                identifier => {
                    let identifier = number(at, identifier)?;
                    let place = trace.lines.len() as u32;
                    trace.add(at, words, &places)?;
                    if places.insert(identifier, place).is_some() {
                        return Err(fault(at, format!("there is a {identifier} above it")));
                    }
                }
            }
        }
        let unended = "the trace ends without a verdict, 'r SAT' or 'r UNSAT'";
        trace.verdict = verdict.ok_or_else(|| fault(last, unended))?;
        Ok(trace)
    }

    /// Adds the line of these words: literals, 0, antecedents, 0.
    fn add<'a>(
        &mut self,
        at: usize,
        mut words: impl Iterator<Item = &'a [u8]>,
        places: &HashMap<i32, u32>,
    ) -> Result<(), String> {
        let mut next = || number(at, words.next().unwrap_or_default());
        let from = self.literals.len();
        loop {
            match next()? {
                0 => break,
                literal => self.literals.push(literal),
            }
        }
        let mut antecedents = Vec::new();
        loop {
            match next()? {
                0 => break,
                identifier => antecedents.push(*places.get(&identifier).ok_or_else(|| {
                    fault(at, format!("it comes from {identifier}, which isn't above it"))
                })?),
            }
        }
        if antecedents.len() > 2 {
            return Err(fault(at, "it comes from more than two lines"));
        }
        if words.next().is_some() {
            return Err(fault(at, "the line goes on behind its second 0"));
        }
        self.lines.push(Line { number: at, literals: from..self.literals.len(), antecedents });
        Ok(())
    }

    /// The steps that lead to the last line; `variable` is the sheet's for each of the trace.
    pub fn derivation(
        &self,
        variable: impl Fn(usize) -> Option<usize>,
    ) -> Result<Derivation, String> {
        let needed = self.needed();
        let mut steps = Derivation {
            verdict: self.verdict,
            heads: Vec::new(),
            codes: Vec::new(),
            lines: Vec::new(),
        };
        let mut numbers = vec![0; self.lines.len()];
        let mut marks = Marks::default();
        for (place, line) in self.lines.iter().enumerate().filter(|(place, _)| needed[*place]) {
            let from = steps.codes.len();
            for &literal in &self.literals[line.literals.clone()] {
                let signed = literal.unsigned_abs() as usize;
                let code = variable(signed).and_then(|x| code_of(x, literal < 0));
                let unknown = || fault(line.number, format!("the sheet has no variable {signed}"));
                steps.codes.push(code.ok_or_else(unknown)?);
            }
            let [first, second] = match line.antecedents[..] {
                [] => [0, 0],
                [one] => [numbers[one as usize]; 2],
                _ => [0, 1].map(|at| numbers[line.antecedents[at] as usize]),
            };
            let pivot = match line.antecedents.len() {
                0 => 0,
                1 => 1 + NONE,
                _ => 1 + marks.pivot(&steps, first, second, from),
            };
            numbers[place] = steps.lines.len() as u32;
            steps.lines.push(line.number);
            let end = u32::try_from(steps.codes.len());
            let end = end.map_err(|_| fault(line.number, "the trace is too long"))?;
            steps.heads.extend([pivot, first, second, end]);
        }
        Ok(steps)
    }

    /// Which lines the last one comes from, itself included: those above it are seen after it.
    fn needed(&self) -> Vec<bool> {
        let mut needed = vec![false; self.lines.len()];
        if let Some(last) = needed.last_mut() {
            *last = true;
        }
        for (at, line) in self.lines.iter().enumerate().rev() {
            if needed[at] {
                line.antecedents.iter().for_each(|&place| needed[place as usize] = true);
            }
        }
        needed
    }
}

/// A code that is no literal's of a sheet.
const NONE: u32 = 0;

/// Codes are below this.
const CODES: usize = 4096;

/// Twice the variable, and one more for the negation.
fn code_of(variable: usize, is_negative: bool) -> Option<u32> {
    let code = 2 * variable + usize::from(is_negative);
    u32::try_from(code).ok().filter(|_| (1..CODES / 2).contains(&variable))
}

/// Which codes are in the second antecedent, and which in the constraint: those marked with the
/// number of the step.
struct Marks([Vec<u32>; 2]);

impl Default for Marks {
    fn default() -> Marks {
        Marks([(); 2].map(|()| vec![u32::MAX; CODES]))
    }
}

impl Marks {
    /// What the next step, whose codes begin at `from`, resolves its antecedents by: a literal of
    /// the first whose complement is in the second, and of these one that is gone in the step.
    fn pivot(&mut self, steps: &Derivation, first: u32, second: u32, from: usize) -> u32 {
        let step = steps.lines.len() as u32;
        let Marks([in_second, in_step]) = self;
        steps.codes_of(second).iter().for_each(|&code| in_second[code as usize] = step);
        steps.codes[from..].iter().for_each(|&code| in_step[code as usize] = step);
        let is_in = |marks: &[u32], code: u32| marks[code as usize] == step;
        let mut clashes =
            steps.codes_of(first).iter().copied().filter(|&code| is_in(in_second, code ^ 1));
        let any = clashes.clone().next().unwrap_or(NONE);
        clashes.find(|&code| !is_in(in_step, code) && !is_in(in_step, code ^ 1)).unwrap_or(any)
    }
}

impl Derivation {
    /// How many steps there are.
    pub fn len(&self) -> usize {
        self.lines.len()
    }

    fn codes_of(&self, step: u32) -> &[u32] {
        let end = |step: usize| self.heads[4 * step + 3] as usize;
        let step = step as usize;
        &self.codes[if step == 0 { 0 } else { end(step - 1) }..end(step)]
    }

    /// Why the derivation shows nothing, by the number that Certify answers with: of the first step
    /// that isn't valid, or of all.
    pub fn fault(&self, step: usize) -> String {
        let word = if self.verdict { "cube" } else { "clause" };
        let Some(&line) = self.lines.get(step) else {
            let why = format!("the last {word} isn't empty");
            return fault(self.lines.last().copied().unwrap_or(1), why);
        };
        let why = match self.heads[4 * step] {
            0 if self.verdict => "a clause of the formula has no literal in the cube",
            0 => "the clause has all literals of no clause of the formula",
            _ => return fault(line, format!("the {word} doesn't follow from those it comes from")),
        };
        fault(line, why)
    }
}

/// The number that a word is.
fn number(line: usize, word: &[u8]) -> Result<i32, String> {
    let number = std::str::from_utf8(word).ok().and_then(|word| word.parse().ok());
    number.ok_or_else(|| match word {
        [] => fault(line, "the line ends before its second 0"),
        _ => fault(line, format!("'{}' is no number", String::from_utf8_lossy(word))),
    })
}
