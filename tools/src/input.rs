//! What a command reads: a file or standard input, in the notation that
//! `--from` names or that its first bytes show.

use crate::arguments::{contents, is_variable, Arguments, Misuse};
use crate::command::{Answer, Failure};
use crate::format::{Format, DEFAULT, FORMATS, NARROW, WIDE};
use crate::names::Names;
use crate::options::{Choice, FROM, NAMES, RENUMBER};
use crate::qcir::{self, Read};
use crate::qdimacs;
use crate::refusal::Refusal;
use crate::sheet::Sheet;
use crate::words;
use std::ffi::{OsStr, OsString};

/// What `--from` and `--to` can name.
#[derive(Clone, Copy)]
pub enum Notation {
    Sheet(&'static Format),
    Qcir,
    /// QDIMACS 1.1, read by the proved operation.
    Qdimacs,
    /// A number and a name a line: only written.
    Names,
}

/// The notations of texts, and what they are called.
const TEXTS: [(&str, Notation); 3] =
    [("qcir", Notation::Qcir), ("qdimacs", Notation::Qdimacs), ("names", Notation::Names)];

/// A sheet, and what its variables and the root's children are called where it comes from.
pub struct Input {
    pub sheet: Sheet,
    pub names: Names,
    pub guards: Vec<String>,
    /// The two numbers of a QDIMACS text's header.
    pub header: Option<(usize, usize)>,
    /// What is to be told of how a text was read.
    note: Option<String>,
}

impl Notation {
    /// The notation that an option names, if it is given.
    pub fn option(arguments: &mut Arguments, option: &Choice) -> Result<Option<Notation>, Misuse> {
        arguments.option(option)?.map(|name| Notation::named(&name)).transpose()
    }

    fn named(name: &str) -> Result<Notation, Misuse> {
        let sheets = FORMATS.iter().map(|&format| (format.name, Notation::Sheet(format)));
        let known: Vec<(&str, Notation)> = sheets.chain(TEXTS).collect();
        let found = known.iter().find(|known| known.0 == name).map(|known| known.1);
        found.ok_or_else(|| {
            let names: Vec<&str> = known.iter().map(|known| known.0).collect();
            Misuse::new(format!("no format '{name}'; there are {}", names.join(", ")))
        })
    }

    /// What bytes are, by the first of them, and a sheet by its sizes; bytes that are nothing else
    /// are taken for a sheet of the program's format.
    fn recognised(bytes: &[u8]) -> Notation {
        let blank = |byte: &&u8| byte.is_ascii_whitespace();
        let text = &bytes[bytes.iter().take_while(blank).count()..];
        // No sheet's sizes have such a second byte.
        let is_text = text.get(1).is_none_or(|&byte| byte >= b'\t');
        match text {
            _ if bytes.get(..5).is_some_and(|mark| mark.eq_ignore_ascii_case(b"#QCIR")) => {
                Notation::Qcir
            }
            [b'c' | b'p', ..] if is_text => Notation::Qdimacs,
            _ if has_sizes_of(&NARROW, bytes) => Notation::Sheet(&NARROW),
            _ => Notation::Sheet(DEFAULT),
        }
    }

    /// What the message of a refusal calls it.
    fn taken_for(self) -> &'static str {
        match self {
            Notation::Sheet(format) if format.name == NARROW.name => "a sheet of 16-bit numbers",
            Notation::Sheet(_) => "a sheet of 32-bit numbers",
            Notation::Qcir => "a text in QCIR",
            Notation::Qdimacs => "a text in QDIMACS",
            Notation::Names => "names",
        }
    }

    /// The sheet that a text stands for is written in `format`.
    fn read(self, bytes: Vec<u8>, format: &'static Format) -> Result<Input, Failure> {
        let plain = |sheet| Input {
            sheet,
            names: Names::default(),
            guards: Vec::new(),
            header: None,
            note: None,
        };
        match self {
            Notation::Sheet(format) => Ok(plain(Sheet { format, bytes })),
            Notation::Qcir => {
                let read = qcir::read(&bytes, format);
                let Read { formula, names, guards, note } =
                    read.map_err(|fault| Failure::Unusable(fault.to_string()))?;
                let sheet = Sheet { format, bytes: formula.encode(format) };
                Ok(Input { names, guards, note, ..plain(sheet) })
            }
            Notation::Qdimacs => {
                let at_fault =
                    |refusal: Refusal| match qdimacs::fault(&bytes, refusal.number, format) {
                        Some(evidence) => refusal.with_evidence(evidence),
                        None => refusal,
                    };
                let sheet = Sheet::of_qdimacs(&bytes, format).map_err(at_fault)?;
                Ok(Input { header: qdimacs::header(&bytes), ..plain(sheet) })
            }
            Notation::Names => Err(Misuse::new("names alone are no formula").into()),
        }
    }
}

/// Whether bytes have the length that their sizes say, and these are within the limits.
fn has_sizes_of(format: &Format, bytes: &[u8]) -> bool {
    let sizes = format.number(bytes, 0).zip(format.number(bytes, format.width));
    sizes.is_some_and(|(v, n)| {
        let within = v <= format.most_variables && (1..=format.most_nodes).contains(&n);
        within && format.length(v + n) == bytes.len()
    })
}

/// The mark that some editors put in front of a text is no part of it.
fn without_mark(mut bytes: Vec<u8>) -> Vec<u8> {
    if bytes.starts_with(b"\xef\xbb\xbf") {
        bytes.drain(..3);
    }
    bytes
}

/// The formula in a file, in standard input for none, with what it was taken for.
fn read(
    arguments: &mut Arguments,
    from: Option<Notation>,
    name: Option<&OsStr>,
    format: &'static Format,
) -> Result<Input, Failure> {
    let mut bytes = without_mark(arguments.contents(name)?);
    let notation = from.unwrap_or_else(|| Notation::recognised(&bytes));
    arguments.taken_for = from.is_none().then(|| notation.taken_for());
    let renumbered = match notation {
        Notation::Qdimacs if arguments.has(&RENUMBER) => few_enough(&mut bytes, format),
        _ => None,
    };
    let mut input = notation.read(bytes, format)?;
    if let Some((names, header)) = renumbered {
        let count = input.sheet.check()?.0;
        input.note = Some(format!(
            "{} numbered from 1; answers have the text's numbers",
            words::count(count, "variable")
        ));
        (input.names, input.header) = (names, Some(header));
    }
    if let Some(note) = &input.note {
        let file = arguments.file.as_ref().map(|file| format!("{file}: ")).unwrap_or_default();
        arguments.told += &format!("plumanchor: {file}{note}\n");
    }
    Ok(input)
}

/// Numbers the variables of a text from 1 whose header has more than a sheet can: what they were
/// called, and the header's numbers.
fn few_enough(bytes: &mut Vec<u8>, format: &Format) -> Option<(Names, (usize, usize))> {
    let header = qdimacs::header(bytes).filter(|header| header.0 > format.most_variables)?;
    let (text, names) = qdimacs::renumbered(bytes)?;
    *bytes = text;
    Some((names, header))
}

/// The sheet that the last word names.
pub fn sheet(arguments: &mut Arguments) -> Result<Sheet, Failure> {
    Ok(input(arguments, DEFAULT)?.sheet)
}

/// The two sheets that the last two words name, in one format; a refusal says which it is of.
pub fn two_sheets(arguments: &mut Arguments) -> Result<[Sheet; 2], Failure> {
    arguments.at_most(2)?;
    let from = Notation::option(arguments, &FROM)?;
    let (Some(first), Some(second)) = (arguments.file_name(), arguments.file_name()) else {
        return Err(Misuse::new("which two sheets?").into());
    };
    if first == "-" && second == "-" {
        return Err(Misuse::new("standard input is one sheet").into());
    }
    let mut checked = |name: &OsStr| -> Result<Sheet, Failure> {
        let sheet = read(arguments, from, Some(name), DEFAULT)?.sheet;
        arguments.file.get_or_insert_with(|| "standard input".to_string());
        sheet.check()?;
        Ok(sheet)
    };
    let (first, second) = (checked(&first)?, checked(&second)?);
    if first.format.name == second.format.name {
        return Ok([first, second]);
    }
    Ok([first.carried(&WIDE)?, second.carried(&WIDE)?])
}

/// The sheet that a word names, with its names, and the file or folder that the last word names.
pub fn with_file(arguments: &mut Arguments, what: &str) -> Result<(Input, OsString), Failure> {
    arguments.at_most(2)?;
    let (Some(sheet), Some(file)) = (arguments.file_name(), arguments.file_name()) else {
        return Err(Misuse::new(format!("which sheet, and which {what}?")).into());
    };
    if sheet == "-" && file == "-" {
        return Err(Misuse::new(format!("standard input is no sheet and {what} at once")).into());
    }
    Ok((in_file(arguments, Some(&sheet), DEFAULT)?, file))
}

/// The sheet that the last word names, with its names; a text is written as a sheet of `format`.
pub fn input(arguments: &mut Arguments, format: &'static Format) -> Result<Input, Failure> {
    arguments.at_most(1)?;
    let name = arguments.file_name();
    in_file(arguments, name.as_deref(), format)
}

/// The same of a file, for a command that reads something else from standard input.
pub fn from_file(arguments: &mut Arguments) -> Result<Input, Failure> {
    arguments.at_most(1)?;
    let name = arguments.file_name().filter(|name| name != "-");
    let name = name.ok_or_else(|| Misuse::new("which sheet? Standard input has the moves"))?;
    in_file(arguments, Some(&name), DEFAULT)
}

/// The same of the file of a name, of standard input for none.
fn in_file(
    arguments: &mut Arguments,
    name: Option<&OsStr>,
    format: &'static Format,
) -> Result<Input, Failure> {
    let names = arguments.file_option(&NAMES);
    let from = Notation::option(arguments, &FROM)?;
    let input = read(arguments, from, name, format)?;
    let Some(file) = names else { return Ok(input) };
    let (shown, names) = (file.to_string_lossy(), names_in(&file)?);
    let prefix = input.sheet.formula()?.prefix;
    if let Some(x) = names.beyond(&prefix) {
        let why =
            format!("{shown}: the sheet has no variable {x}; are they another sheet's names?");
        return Err(Misuse::new(why).into());
    }
    if let Some(x) = names.clash(&prefix) {
        let why =
            format!("{shown}: another variable is called {x}, which the sheet has without a name");
        return Err(Misuse::new(why).into());
    }
    Ok(Input { names, ..input })
}

/// The names in a file.
pub fn names_in(file: &OsStr) -> Result<Names, Misuse> {
    let named = |why| Misuse::new(format!("{}: {why}", file.to_string_lossy()));
    Names::read(&contents(file)?).map_err(named)
}

/// A strategy: lines of text, or a sheet.
pub enum Given {
    Lines(Vec<u8>),
    Sheet(Sheet),
}

/// The sheet that the last word but one names, and the strategy that the last one does; a refusal
/// says which it is of.
pub fn with_strategy(arguments: &mut Arguments) -> Result<(Input, Given), Failure> {
    let (input, file) = with_file(arguments, "strategy")?;
    input.sheet.check()?;
    let bytes = without_mark(arguments.contents(Some(&file))?);
    // Every sheet has a row's kind, and no text a byte so low.
    if bytes.iter().all(|&byte| byte >= b'\t') {
        return Ok((input, Given::Lines(bytes)));
    }
    let notation = Notation::recognised(&bytes);
    arguments.taken_for = Some(notation.taken_for());
    let Input { sheet, .. } = notation.read(bytes, DEFAULT)?;
    Ok((input, Given::Sheet(sheet)))
}

/// The same for a run, whose line tells a text's refusal too.
pub fn of_run(arguments: &mut Arguments) -> Result<Result<Input, Failure>, Failure> {
    match input(arguments, DEFAULT) {
        Err(failure @ (Failure::Refused(_) | Failure::Unusable(_))) => Ok(Err(failure)),
        Err(failure) => Err(failure),
        Ok(input) => Ok(Ok(input)),
    }
}

/// The variable that the next word names, and the sheet behind it.
pub fn variable_and_input(arguments: &mut Arguments) -> Result<(usize, Input), Failure> {
    let word = arguments.asked("variable")?;
    with_variable(arguments, &word)
}

/// The variable that a word names in the sheet that the last word names.
pub fn with_variable(arguments: &mut Arguments, word: &str) -> Result<(usize, Input), Failure> {
    is_variable(word)?;
    let input = input(arguments, DEFAULT)?;
    Ok((input.names.variable(word)?, input))
}

/// The length of a work buffer: as asked, or that of the longest sheet, above which nothing is used.
pub fn within(longest: usize, asked: Option<usize>) -> Result<usize, Misuse> {
    match asked {
        Some(room) if room > longest => Err(Misuse::new(format!(
            "--room is at most {longest}, the length of the longest sheet, and not {room}"
        ))),
        _ => Ok(asked.unwrap_or(longest)),
    }
}

/// What an operation makes of the variable that the next word names and of the
/// sheet, with an output of the program's length.
pub fn step(
    arguments: &mut Arguments,
    operation: impl Fn(&Sheet, usize, usize) -> Result<Sheet, Refusal>,
) -> Result<Answer, Failure> {
    let (x, Input { sheet, .. }) = variable_and_input(arguments)?;
    let room = sheet.format.longest();
    let stepped = operation(&sheet, x, room);
    Ok(stepped.map_err(|refusal| lacking(refusal, &sheet, x, room))?.bytes.into())
}

/// A refusal for want of room, with what the raw sheet of an expansion takes.
pub fn lacking(refusal: Refusal, sheet: &Sheet, x: usize, room: usize) -> Refusal {
    match (sheet.check(), sheet.quote(x)) {
        (Ok((v, _)), Ok(raw)) => refusal.lacking(sheet.format.length(v - 1 + raw), room),
        _ => refusal,
    }
}
