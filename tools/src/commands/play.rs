//! `plumanchor play FILE`.

use super::strategy::won;
use crate::arguments::{Arguments, Misuse};
use crate::command::{Answer, Command, Failure};
use crate::format::DEFAULT;
use crate::formula::Row;
use crate::input::{self, Input};
use crate::options::{FROM, NAMES, RENUMBER};
use crate::strategy::{first_line, side_words, winner, Strategy};
use crate::tell;
use std::io::{
    stdin, stdout, BufRead, BufReader, Error, ErrorKind, IsTerminal, Result as Io, Write,
};

pub const COMMAND: Command = Command {
    name: "play",
    purpose: "play against the winner's strategy, move by move",
    words: "SHEET",
    about: "The side that wins plays by its strategy, and you play the other side. In the prefix's order each\n\
           of your variables is asked for, and each of the strategy's is told as soon as it is its turn.\n\
           Answer 0 or 1, or NAME=0 or NAME=1; 'undo' takes your last move back, 'quit' ends. The moves\n\
           may stand in a file for standard input, one a line, '#' begins a comment. At the end it is said\n\
           what the play comes to.\n",
    options: &[&FROM, &RENUMBER, &NAMES],
    run,
};

fn run(arguments: &mut Arguments) -> Result<Answer, Failure> {
    let Input { sheet, names, .. } = input::from_file(arguments)?;
    let strategy = won(&sheet.carried(DEFAULT)?, &names)?;
    let moves = BufReader::new(arguments.take_standard_input());
    let game = Game { strategy, moves: Vec::new(), asks: stdin().is_terminal() };
    match game.play(moves) {
        // Whoever reads may stop early, as 'head' does.
        Err(error) if error.kind() != ErrorKind::BrokenPipe => {
            Err(Misuse::new(error.to_string()).into())
        }
        _ => Ok(Answer::default()),
    }
}

/// A play so far: the moves of the person, who is asked for the next one at a terminal.
struct Game {
    strategy: Strategy,
    moves: Vec<bool>,
    asks: bool,
}

/// What a line says.
enum Said<'a> {
    Value(bool),
    Undo,
    Quit,
    Nothing,
    Unknown(&'a str),
}

impl Game {
    fn play(mut self, mut lines: impl BufRead) -> Io<()> {
        say(&self.opening())?;
        say(&self.answers())?;
        loop {
            if self.asks {
                say(&self.question())?;
            }
            let mut line = Vec::new();
            let read = lines.read_until(b'\n', &mut line);
            if read.map_err(|error| about("standard input", error))? == 0 {
                return self.left();
            }
            let line = String::from_utf8_lossy(&line);
            match self.said(line.split('#').next().unwrap_or_default().trim()) {
                Said::Value(value) => self.take(value)?,
                Said::Undo => self.undo()?,
                Said::Quit => return Ok(()),
                Said::Nothing => {}
                Said::Unknown(words) => tell(&format!("plumanchor: {}\n", self.wanted(words))),
            }
        }
    }

    /// The name of the person's next variable.
    fn next(&self) -> Option<String> {
        let x = self.strategy.others().get(self.moves.len()).copied();
        x.map(|x| self.strategy.names.of(x))
    }

    fn said<'a>(&self, words: &'a str) -> Said<'a> {
        let value = match (words.split_once('='), self.next()) {
            (Some((name, value)), Some(next)) if name.trim() == next => value.trim(),
            _ => words,
        };
        match (value, self.next()) {
            ("0" | "1", Some(_)) => Said::Value(value == "1"),
            ("undo", _) => Said::Undo,
            ("quit", _) => Said::Quit,
            ("", _) => Said::Nothing,
            _ => Said::Unknown(words),
        }
    }

    fn wanted(&self, words: &str) -> String {
        match self.next() {
            Some(name) => format!("'{words}' is no move; {name} is next: 0 or 1, 'undo' or 'quit'"),
            None => format!("'{words}' is no move; the play is over: 'undo' or 'quit'"),
        }
    }

    fn question(&self) -> String {
        self.next().map_or("undo or quit? ".into(), |name| format!("{name}? "))
    }

    /// Who plays what.
    fn opening(&self) -> String {
        let Strategy { side, names, .. } = &self.strategy;
        let listed = |variables: Vec<usize>| -> String {
            let names: Vec<String> = variables.into_iter().map(|x| names.of(x)).collect();
            if names.is_empty() {
                "nothing".into()
            } else {
                names.join(", ")
            }
        };
        let (own, others) = (listed(self.strategy.owned()), listed(self.strategy.others()));
        format!("{}; it plays {own}, and you play {others}\n", first_line(*side))
    }

    fn take(&mut self, value: bool) -> Io<()> {
        if let Some(name) = self.next().filter(|_| !self.asks) {
            say(&format!("{name} = {}\n", u8::from(value)))?;
        }
        self.moves.push(value);
        say(&self.answers())
    }

    fn undo(&mut self) -> Io<()> {
        match self.moves.pop() {
            Some(_) => say(&format!("{} is taken back\n", self.next().unwrap_or_default())),
            None => say("there is no move to take back\n"),
        }
    }

    /// The strategy's values behind the last move, and the end of a play that is over.
    fn answers(&self) -> String {
        let strategy = &self.strategy;
        let others = strategy.others();
        let play = strategy.answer(&self.moves);
        let prefix = &strategy.formula.prefix;
        let place = |x: &usize| prefix.iter().position(|row| row.argument == *x);
        let behind = self.moves.len().checked_sub(1).and_then(|last| place(&others[last]));
        let start = behind.map_or(0, |at| at + 1);
        let own = prefix[start..].iter().take_while(|row| strategy.owns(row.argument));
        let value = |x: usize| u8::from(play.values[x]);
        let told =
            |row: &Row| format!("{} = {}\n", strategy.names.of(row.argument), value(row.argument));
        let mut text: String = own.map(told).collect();
        if self.moves.len() == others.len() {
            let outcome = if play.holds { "holds" } else { "fails" };
            text += &format!("the formula {outcome}: {} wins\n", side_words(winner(play.holds)));
        }
        text
    }

    /// The moves end.
    fn left(&self) -> Io<()> {
        if self.asks {
            return say("\n");
        }
        if let Some(name) = self.next() {
            tell(&format!("plumanchor: the moves end before {name}\n"));
        }
        Ok(())
    }
}

/// Writes at once, for whoever waits for it.
fn say(text: &str) -> Io<()> {
    let written = stdout().write_all(text.as_bytes()).and_then(|()| stdout().flush());
    written.map_err(|error| about("standard output", error))
}

fn about(what: &str, error: Error) -> Error {
    Error::new(error.kind(), format!("{what}: {error}"))
}
