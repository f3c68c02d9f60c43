//! The cases of the test program `cases`: what it reads, and the lines that it
//! must write. Both files are stored beside it; `cargo run --bin store` writes
//! them anew, and a test holds them to this list.

mod lines;
mod list;

use crate::reference::Reading;

pub use lines::lines;
pub use list::cases;

/// The longest sheet that a line tells whole.
const SHORT: usize = 64;

/// A sheet and the calls to be made on it.
pub struct Case {
    pub sheet: Vec<u8>,
    pub calls: Vec<Call>,
}

/// An operation, by the letter that the test program knows it by; on wide sheets by the capital.
#[derive(Clone, Copy, PartialEq, Eq)]
#[repr(u8)]
pub enum Letter {
    Check = b'c',
    Trial = b't',
    Part = b'p',
    Tidy = b'd',
    Reduce = b'r',
    Settle = b's',
    Expand = b'e',
    Quote = b'q',
    Execute = b'x',
    Outer = b'u',
    /// The sheet's bytes are the text.
    Qdimacs = b'm',
    Solve = b'o',
    Force = b'f',
    Guards = b'g',
    Sort = b'a',
    Compare = b'k',
    /// These two have a capital only.
    Widen = b'W',
    BringBack = b'N',
}

/// A letter, a number (the node of Part, the variable of a step or a
/// quote, the length of Solve's second buffer), the length of the output (of Solve: its
/// first buffer) and a list, for operations that take values, a second sheet or
/// further numbers.
#[derive(Clone, PartialEq, Eq)]
pub struct Call {
    pub letter: Letter,
    pub number: usize,
    pub room: usize,
    pub list: Vec<u8>,
    /// Whether the sheet is taken for a wide one.
    pub wide: bool,
}

impl Call {
    /// A call of an operation that takes no list.
    pub const fn new(letter: Letter, number: usize, room: usize) -> Call {
        Call { letter, number, room, list: Vec::new(), wide: false }
    }

    /// Execute with a ceiling, which stands in the list.
    pub fn execute(x: usize, ceiling: usize, room: usize) -> Call {
        let mut list = Vec::new();
        push_number(ceiling, &mut list);
        Call { list, ..Call::new(Letter::Execute, x, room) }
    }

    /// The number that the list begins with.
    fn first_of_list(&self) -> usize {
        let bytes = self.list.first_chunk().expect("a list with a number");
        u32::from_le_bytes(*bytes) as usize
    }

    /// Solve with buffers of these lengths.
    pub fn solve(first: usize, second: usize) -> Call {
        Call::new(Letter::Solve, second, first)
    }

    /// The same call on wide sheets.
    pub fn on_wide(self) -> Call {
        Call { wide: true, ..self }
    }

    /// What the sheet is taken for.
    fn reading(&self) -> Reading {
        if self.wide {
            Reading::WIDE
        } else {
            Reading::NARROW
        }
    }

    /// Force with these values and buffers of these lengths.
    pub fn force(values: &[u8], first: usize, second: usize) -> Call {
        Call { list: values.to_vec(), ..Call::new(Letter::Force, second, first) }
    }

    /// Guards with an output and work buffers of these lengths; the first one's stands in the list.
    pub fn guards(output: usize, first: usize, second: usize) -> Call {
        let mut list = Vec::new();
        push_number(first, &mut list);
        Call { list, ..Call::new(Letter::Guards, second, output) }
    }

    /// Compare with another sheet, in buffers of these lengths.
    pub fn compare(other: Vec<u8>, first: usize, second: usize) -> Call {
        Call { list: other, ..Call::new(Letter::Compare, second, first) }
    }

    /// The letter, the number, the output's length, the list's length, the list.
    fn encode(&self, bytes: &mut Vec<u8>) {
        let letter = self.letter as u8;
        bytes.push(if self.wide { letter.to_ascii_uppercase() } else { letter });
        push_number(self.number, bytes);
        push_number(self.room, bytes);
        push_number(self.list.len(), bytes);
        bytes.extend(&self.list);
    }
}

impl Case {
    /// The sheet's length, the number of calls, the sheet, the calls.
    fn encode(&self, bytes: &mut Vec<u8>) {
        push_number(self.sheet.len(), bytes);
        push_number(self.calls.len(), bytes);
        bytes.extend(&self.sheet);
        self.calls.iter().for_each(|call| call.encode(bytes));
    }
}

/// Four bytes, low byte first, in whatever format the sheets are.
fn push_number(number: usize, bytes: &mut Vec<u8>) {
    bytes.extend(u32::try_from(number).expect("a number of four bytes").to_le_bytes());
}

/// What the test program reads.
pub fn input(cases: &[Case]) -> Vec<u8> {
    let mut bytes = Vec::new();
    cases.iter().for_each(|case| case.encode(&mut bytes));
    bytes
}
