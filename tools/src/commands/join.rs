//! `plumanchor join SHEET ANSWERS`.

use super::split::{beyond, MOST};
use crate::arguments::{Arguments, Misuse};
use crate::command::{Answer, Command, Failure};
use crate::formula::{Row, EXISTS};
use crate::input::{self, Input};
use crate::json::Field;
use crate::options::{FROM, JSON, RENUMBER};
use crate::words::count;

pub const COMMAND: Command = Command {
    name: "join",
    purpose: "the verdict of the answers for the sheets of 'split'",
    words: "SHEET ANSWERS",
    about: "SHEET is the one that was split. ANSWERS has a line for each answer, in any order: the values, and\n\
           then 'true', 'false', 'unknown', or a line as 'solve' or 'decide' writes it. A value without a\n\
           line is unknown. Writes the verdict, 'true' or 'false', by the proved operation, as soon as the\n\
           lines so far have one, and says which answers it didn't need; or 'unknown', and which are\n\
           open. A line that isn't understood is refused, and so are two that contradict each other.\n",
    options: &[&FROM, &RENUMBER, &JSON],
    run,
};

fn run(arguments: &mut Arguments) -> Result<Answer, Failure> {
    let (Input { sheet, .. }, file) = input::with_file(arguments, "answers")?;
    let prefix = sheet.formula()?.prefix;
    let mut answers: Option<Answers> = None;
    let mut verdict = None;
    for (line, at) in arguments.lines(&file)?.zip(1..) {
        let line =
            line.map_err(|error| Misuse::new(format!("{}: {error}", file.to_string_lossy())))?;
        let line = String::from_utf8_lossy(&line).into_owned();
        if line.trim().is_empty() {
            continue;
        }
        let refused = |why: String| Failure::Unusable(format!("line {at}: {why}"));
        let (bits, known) = read(&line).map_err(refused)?;
        let answers = match &mut answers {
            Some(answers) => answers,
            None => answers.insert(Answers::new(&prefix, bits.len())),
        };
        answers.add(at, bits, known).map_err(refused)?;
        verdict = answers.verdict();
        if verdict.is_some() {
            break;
        }
    }
    let Some(answers) = answers else {
        return Err(Failure::Unusable("no answer".to_string()));
    };
    let (k, bytes) = (answers.k, answers.bytes());
    let joined = sheet.join(k, &bytes).map_err(|refusal| beyond(refusal, k, prefix.len()))?;
    if joined != verdict {
        return Err(Failure::Contradicted("the proved Join has another verdict".to_string()));
    }
    Ok(told(&answers, verdict))
}

fn told(answers: &Answers, verdict: Option<bool>) -> Answer {
    let (line, name, words) = match verdict {
        Some(verdict) => (verdict.to_string(), "spare", answers.spare()),
        None => ("unknown".to_string(), "open", answers.open()),
    };
    let fields = vec![Field::text("answer", &line), Field::texts(name, &words)];
    let what = if verdict.is_some() { "not needed" } else { "open" };
    let note = match &words[..] {
        [] => String::new(),
        words => format!("plumanchor: {what}: {}\n", words.join(" ")),
    };
    Answer::of_words(line, fields).with_note(note)
}

/// The values that a line is about, and the answer if it has one.
fn read(line: &str) -> Result<(&str, Option<bool>), String> {
    let (bits, answer) = line.split_once(char::is_whitespace).unwrap_or((line, ""));
    if bits.is_empty() || bits.len() > MOST || bits.bytes().any(|bit| bit != b'0' && bit != b'1') {
        return Err(format!("'{bits}' is no list of up to {MOST} values, 0 and 1"));
    }
    let words: Vec<&str> = answer.split_whitespace().collect();
    match answer_of(&words) {
        Some(known) => Ok((bits, known)),
        None => Err(format!("'{}' is no answer", words.join(" "))),
    }
}

/// The verdict in the words of an answer, alone or as a command writes it.
fn answer_of(words: &[&str]) -> Option<Option<bool>> {
    let number = |word: &str| word.bytes().all(|byte| byte.is_ascii_digit());
    let (known, rest) = match words.split_first()? {
        (&"true", rest) => (Some(true), rest),
        (&"false", rest) => (Some(false), rest),
        (&"unknown" | &"stopped", rest) => (None, rest),
        _ => return None,
    };
    let is_understood = match (known, rest) {
        (_, []) => true,
        // What 'solve' writes: counts, and then 0 or the variable that the run stopped at.
        (Some(_), [settled, expanded, "0"]) => number(settled) && number(expanded),
        (None, [settled, expanded, _]) if words[0] == "stopped" => {
            number(settled) && number(expanded)
        }
        // What 'decide' writes.
        (Some(_), ["by", "expansion:", settled, "settled,", expanded, "expanded"]) => {
            number(settled) && number(expanded)
        }
        (Some(_), ["by", "splitting:", runs, "run" | "runs"]) => number(runs),
        (Some(_), ["by", "certificate:", steps, "step" | "steps"]) => number(steps),
        (None, ["after", runs, "run" | "runs"]) => words[0] == "unknown" && number(runs),
        _ => false,
    };
    is_understood.then_some(known)
}

/// The answers so far, and what they make: node 1 is the whole question, and the halves of node n,
/// value 0 first, are 2n and 2n+1; the last 2 to the k nodes are the answers.
struct Answers {
    k: usize,
    /// For each of the first variables whether it is existential.
    existential: Vec<bool>,
    nodes: Vec<Option<bool>>,
    /// The line that each answer comes from.
    lines: Vec<usize>,
}

impl Answers {
    fn new(prefix: &[Row], k: usize) -> Answers {
        // A sheet with too few variables is refused by the operation.
        let kind = |at: usize| prefix.get(at).is_some_and(|row| row.kind == EXISTS);
        Answers {
            k,
            existential: (0..k).map(kind).collect(),
            nodes: vec![None; 2 << k],
            lines: vec![0; 1 << k],
        }
    }

    /// Adds an answer, and what it makes of the nodes above it.
    fn add(&mut self, line: usize, bits: &str, known: Option<bool>) -> Result<(), String> {
        if bits.len() != self.k {
            return Err(format!("'{bits}' has not {}, as those above", count(self.k, "value")));
        }
        let at = bits.bytes().fold(0, |at, bit| 2 * at + usize::from(bit == b'1'));
        let mut node = (1 << self.k) + at;
        match (self.nodes[node], known) {
            (_, None) => return Ok(()),
            (Some(before), Some(known)) if before != known => {
                return Err(format!("{bits} is {known}, and {before} in line {}", self.lines[at]));
            }
            _ => {}
        }
        self.nodes[node] = known;
        self.lines[at] = line;
        for &existential in self.existential.iter().rev() {
            node /= 2;
            self.nodes[node] =
                weighed(existential, [2 * node, 2 * node + 1].map(|n| self.nodes[n]));
        }
        Ok(())
    }

    fn verdict(&self) -> Option<bool> {
        self.nodes[1]
    }

    /// As Join takes them: 0 false, 1 true, 2 unknown.
    fn bytes(&self) -> Vec<u8> {
        self.nodes[1 << self.k..].iter().map(|known| known.map_or(2, u8::from)).collect()
    }

    /// The values whose answers a verdict doesn't need, as in 01*: all that begin so.
    fn spare(&self) -> Vec<String> {
        let mut spare = Vec::new();
        // Nodes that are needed, the next one last.
        let mut needed = vec![(1, String::new())];
        while let Some((node, bits)) = needed.pop() {
            let Some(&existential) = self.existential.get(bits.len()) else { continue };
            let halves = [(2 * node, format!("{bits}0")), (2 * node + 1, format!("{bits}1"))];
            // One half is enough if it is what the variable's owner wants.
            match halves.iter().position(|half| self.nodes[half.0] == Some(existential)) {
                Some(enough) => {
                    let star = if bits.len() + 1 < self.k { "*" } else { "" };
                    spare.push(format!("{}{star}", halves[1 - enough].1));
                    needed.push(halves[enough].clone());
                }
                None => needed.extend(halves.into_iter().rev()),
            }
        }
        spare.sort();
        spare
    }

    /// The values whose answers are unknown and matter.
    fn open(&self) -> Vec<String> {
        let mut open = Vec::new();
        let mut undecided = vec![(1, String::new())];
        while let Some((node, bits)) = undecided.pop() {
            if self.nodes[node].is_some() {
                continue;
            }
            if bits.len() == self.k {
                open.push(bits);
                continue;
            }
            undecided.extend([(2 * node + 1, format!("{bits}1")), (2 * node, format!("{bits}0"))]);
        }
        open
    }
}

/// Exists is true once one half is, for all false; else both must be known.
fn weighed(existential: bool, halves: [Option<bool>; 2]) -> Option<bool> {
    if halves.contains(&Some(existential)) {
        return Some(existential);
    }
    halves[0].and(halves[1])
}
