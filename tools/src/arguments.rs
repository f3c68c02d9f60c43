//! What stands on the command line behind a command's name.

use crate::names::is_name;
use crate::options::Choice;
use std::collections::VecDeque;
use std::ffi::{OsStr, OsString};
use std::fmt::{self, Display, Formatter};
use std::fs::File;
use std::io::{self, BufRead, BufReader, Read};
use std::os::unix::ffi::OsStrExt;

/// A command line that isn't understood, or a file that can't be read.
#[derive(Debug)]
pub struct Misuse(String);

impl Misuse {
    pub fn new(why: impl Into<String>) -> Misuse {
        Misuse(why.into())
    }
}

impl Display for Misuse {
    fn fmt(&self, to: &mut Formatter) -> fmt::Result {
        self.0.fmt(to)
    }
}

/// Options with their values, and the other words in their order, each of which
/// is taken once. What is told of the file that was read is kept for the message.
pub struct Arguments {
    options: Vec<(&'static str, OsString)>,
    words: VecDeque<OsString>,
    standard_input: Box<dyn Read>,
    /// The file that was read last, if it isn't standard input.
    pub file: Option<String>,
    /// What the file was taken for, if that was not said.
    pub taken_for: Option<&'static str>,
    /// What is to be told of how a text was read.
    pub told: String,
}

impl Arguments {
    /// Words of which only the options in `known` may begin with '-', up to '--'.
    pub fn new(
        words: Vec<OsString>,
        known: &[&'static Choice],
        standard_input: Box<dyn Read>,
    ) -> Result<Arguments, Misuse> {
        let mut arguments = Arguments {
            options: Vec::new(),
            words: VecDeque::new(),
            standard_input,
            file: None,
            taken_for: None,
            told: String::new(),
        };
        let mut words = words.into_iter();
        while let Some(word) = words.next() {
            if word == "--" {
                arguments.words.extend(words.by_ref());
            } else if word == "-" || !word.as_bytes().starts_with(b"-") {
                arguments.words.push_back(word);
            } else {
                arguments.take_option(&word, known, &mut words)?;
            }
        }
        Ok(arguments)
    }

    /// An option, as `--name value` or `--name=value`.
    fn take_option(
        &mut self,
        word: &OsStr,
        known: &[&'static Choice],
        behind: &mut impl Iterator<Item = OsString>,
    ) -> Result<(), Misuse> {
        let (given, joined) = parted(word);
        let shown = given.to_string_lossy();
        let named = |choice: &&&Choice| {
            given.as_bytes().strip_prefix(b"--") == Some(choice.name.as_bytes())
        };
        let Some(choice) = known.iter().find(named) else {
            return Err(Misuse::new(format!("no option '{shown}'")));
        };
        let value = match (choice.value, joined) {
            (None, Some(_)) => return Err(Misuse::new(format!("{shown} takes no value"))),
            (None, None) => OsString::new(),
            (Some(_), Some(value)) => value.to_os_string(),
            (Some(_), None) => {
                behind.next().ok_or_else(|| Misuse::new(format!("{shown} and then what?")))?
            }
        };
        if self.has(choice) {
            return Err(Misuse::new(format!("{shown} twice")));
        }
        self.options.push((choice.name, value));
        Ok(())
    }

    /// Whether an option is given.
    pub fn has(&self, choice: &Choice) -> bool {
        self.options.iter().any(|option| option.0 == choice.name)
    }

    /// The value of an option that names a file.
    pub fn file_option(&mut self, choice: &Choice) -> Option<OsString> {
        let at = self.options.iter().position(|option| option.0 == choice.name)?;
        Some(self.options.remove(at).1)
    }

    /// The value of an option.
    pub fn option(&mut self, choice: &Choice) -> Result<Option<String>, Misuse> {
        self.file_option(choice).map(text).transpose()
    }

    /// The value of an option, as a number.
    pub fn number_option(&mut self, choice: &Choice) -> Result<Option<usize>, Misuse> {
        let what = format!("--{}", choice.name);
        self.option(choice)?.map(|value| number(&what, &value)).transpose()
    }

    /// The next word, if there is one.
    pub fn word(&mut self) -> Result<Option<String>, Misuse> {
        self.words.pop_front().map(text).transpose()
    }

    /// The next words, as long as they are of a kind.
    pub fn words_while(&mut self, is: impl Fn(&str) -> bool) -> Vec<String> {
        let mut words = Vec::new();
        while let Some(word) = self.words.front().and_then(|word| word.to_str()) {
            if !is(word) {
                break;
            }
            words.push(word.to_string());
            self.words.pop_front();
        }
        words
    }

    /// The next word, which is asked for if there is none.
    pub fn asked(&mut self, what: &str) -> Result<String, Misuse> {
        self.word()?.ok_or_else(|| Misuse::new(format!("which {what}?")))
    }

    /// The next word, as a number of any size that the operations take.
    pub fn number(&mut self, what: &str) -> Result<usize, Misuse> {
        number(what, &self.asked(what)?)
    }

    /// The next word, as it is on the command line: it names a file.
    pub fn file_name(&mut self) -> Option<OsString> {
        self.words.pop_front()
    }

    /// What is in the file of a name, in standard input for '-' and for none.
    pub fn contents(&mut self, name: Option<&OsStr>) -> Result<Vec<u8>, Misuse> {
        match name.filter(|&name| name != "-") {
            Some(name) => {
                self.file = Some(name.to_string_lossy().into_owned());
                contents(name)
            }
            None => {
                self.file = None;
                let mut bytes = Vec::new();
                let read = self.standard_input.read_to_end(&mut bytes);
                read.map_err(|error| Misuse::new(format!("standard input: {error}")))?;
                Ok(bytes)
            }
        }
    }

    /// Standard input, for a command that reads it line by line.
    pub fn take_standard_input(&mut self) -> Box<dyn Read> {
        std::mem::replace(&mut self.standard_input, Box::new(std::io::empty()))
    }

    /// The words that are left, as they are shown.
    pub fn left(&self) -> Vec<String> {
        self.words.iter().map(|word| word.to_string_lossy().into_owned()).collect()
    }

    /// The lines of a file, or of standard input for '-', as they come.
    pub fn lines(
        &mut self,
        name: &OsStr,
    ) -> Result<impl Iterator<Item = io::Result<Vec<u8>>>, Misuse> {
        let unread = |error| Misuse::new(format!("{}: {error}", name.to_string_lossy()));
        let read: Box<dyn Read> = if name == "-" {
            self.file = None;
            self.take_standard_input()
        } else {
            self.file = Some(name.to_string_lossy().into_owned());
            Box::new(File::open(name).map_err(unread)?)
        };
        Ok(BufReader::new(read).split(b'\n'))
    }

    /// No more than so many words may be left.
    pub fn at_most(&self, count: usize) -> Result<(), Misuse> {
        match self.words.get(count) {
            Some(word) => Err(Misuse::new(format!("what is '{}'?", word.to_string_lossy()))),
            None => Ok(()),
        }
    }
}

/// An option's name, and its value if that stands behind '='.
fn parted(word: &OsStr) -> (&OsStr, Option<&OsStr>) {
    let bytes = word.as_bytes();
    match bytes.iter().position(|&byte| byte == b'=') {
        Some(at) => (OsStr::from_bytes(&bytes[..at]), Some(OsStr::from_bytes(&bytes[at + 1..]))),
        None => (word, None),
    }
}

/// A word that is no file's name.
fn text(word: OsString) -> Result<String, Misuse> {
    let unread = |word: OsString| Misuse::new(format!("what is '{}'?", word.to_string_lossy()));
    word.into_string().map_err(unread)
}

/// What is in a file.
pub fn contents(name: &OsStr) -> Result<Vec<u8>, Misuse> {
    std::fs::read(name).map_err(|error| Misuse::new(format!("{}: {error}", name.to_string_lossy())))
}

/// Writes a file.
pub fn keep(name: &OsStr, bytes: &[u8]) -> Result<(), Misuse> {
    std::fs::write(name, bytes)
        .map_err(|error| Misuse::new(format!("{}: {error}", name.to_string_lossy())))
}

/// A word that is a number of any size that the operations take.
pub fn number(what: &str, word: &str) -> Result<usize, Misuse> {
    let digits = !word.is_empty() && word.bytes().all(|byte| byte.is_ascii_digit());
    let value = digits.then(|| word.parse().ok()).flatten();
    value.ok_or_else(|| Misuse::new(format!("{what} is a number, and not '{word}'")))
}

/// A word that can name a variable: letters, digits and underscores.
pub fn is_variable(word: &str) -> Result<(), Misuse> {
    if is_name(word) {
        return Ok(());
    }
    Err(Misuse::new(format!("a variable is a number or a name, and not '{word}'")))
}
