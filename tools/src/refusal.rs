//! Refusals in words.

use crate::format::Format;
use crate::formula::row_at;
use crate::sheet::Sheet;
use plumanchor::refusals;
use std::fmt::{self, Display, Formatter};

/// The number of a refusal, its place, and what the sheet has to show for it.
#[derive(Clone, Debug, PartialEq, Eq)]
pub struct Refusal {
    pub number: u8,
    pub place: usize,
    evidence: Option<String>,
    is_of_text: bool,
    /// What the bytes were taken for, if they were not said to be that.
    taken_for: Option<&'static str>,
}

impl Refusal {
    pub fn new(number: u8, place: usize, sheet: &Sheet) -> Refusal {
        let evidence = match number {
            refusals::SIZE_OUTSIDE => sizes(sheet).map(|(v, n)| {
                let Format { most_variables, most_nodes, .. } = sheet.format;
                format!("V = {v}, at most {most_variables}; N = {n}, 1 to {most_nodes}")
            }),
            refusals::WRONG_LENGTH => sizes(sheet).map(|(v, n)| {
                let (asked, length) = (sheet.format.length(v + n), sheet.bytes.len());
                format!("V = {v} and N = {n} ask for {asked} bytes, and there are {length}")
            }),
            refusals::BAD_KIND..=refusals::NOT_TIDY => row_at(sheet.format, &sheet.bytes, place)
                .map(|row| format!("row {place}, counted from 0: {row}")),
            _ => None,
        };
        Refusal { number, place, evidence, is_of_text: false, taken_for: None }
    }

    /// A text's refusal, which has no place.
    pub fn of_text(number: u8) -> Refusal {
        Refusal { number, place: 0, evidence: None, is_of_text: true, taken_for: None }
    }

    /// What the number means.
    fn meaning(&self) -> &'static str {
        match self.number {
            refusals::TOO_SHORT => "the sheet is shorter than its two sizes",
            refusals::SIZE_OUTSIDE if self.is_of_text => "the text has more nodes than a sheet",
            refusals::SIZE_OUTSIDE => "a size is outside its limits",
            refusals::WRONG_LENGTH => "the sheet's length is not that of its sizes",
            refusals::BAD_KIND => "the row's kind is none that may stand there",
            refusals::BAD_NUMBER => "the quantifier's number is outside its limits",
            refusals::BOUND_TWICE if self.is_of_text => "a variable is bound twice",
            refusals::BOUND_TWICE => "the row binds a number that is bound already",
            refusals::UNBOUND => "the literal's variable is not bound",
            refusals::NOT_ONE_TREE if self.evidence.is_none() => "the rows end before the tree does",
            refusals::NOT_ONE_TREE => "the tree has ended before the row",
            refusals::NOT_TIDY => "the operator in the row is not tidy, so 'tidy' the sheet first",
            refusals::NOT_IN_PREFIX => "the variable is not in the prefix",
            refusals::WRONG_BLOCK if self.evidence.is_some() => "the variable is not universal and one block out",
            refusals::WRONG_BLOCK => "the variable is not in the innermost block",
            refusals::NOT_SETTLED => "the variable may not be settled",
            refusals::NO_ROOM => "a buffer has too little room",
            refusals::TOO_MANY_TO_TRY => "the sheet has more than 20 variables",
            refusals::BAD_HEADER => "the text has no header of 'p cnf' and two numbers, the first within the sheet's limits",
            refusals::BAD_LISTS => "the text is not lists of whole numbers ended by 0, quantified ones in front",
            refusals::BEYOND_HEADER => "a variable is above the header's count, or the clauses are not as many as it says",
            refusals::NO_NUMBERS_LEFT => "fewer unused numbers are left than new variables",
            refusals::ABOVE_CEILING => "the raw rows are above the ceiling",
            refusals::NO_CLAUSES => "the tree is not AND of literals and of ORs of literals",
            refusals::BAD_VALUE => "a value is neither 0 nor 1",
            refusals::TOO_MANY_VALUES => "there are as many values as variables, or more",
            refusals::ROOT_NOT_AND => "the root is not AND",
            refusals::NOT_NARROW => "a size or a variable's number is above the narrow limits",
            refusals::WRONG_COUNTS => "settled, expanded and variables left don't add up to the starting count",
            refusals::NOT_A_STRATEGY => "the second sheet is no strategy of that side over the first sheet's prefix",
            refusals::READS_BEYOND => "the function of the pair in the row reads what it may not",
            refusals::WRONG_ANSWERS => "there are not as many answers as lists of values",
            refusals::BAD_ANSWER => "an answer is neither 0 nor 1 nor 2",
            _ => "see documents 01 and 02",
        }
    }

    /// The same with more to show for it.
    pub fn with_evidence(self, evidence: String) -> Refusal {
        Refusal { evidence: Some(evidence), ..self }
    }

    /// The same, for want of room, with how many bytes a sheet needs and how many there are.
    pub fn lacking(self, needed: usize, room: usize) -> Refusal {
        if self.number != refusals::NO_ROOM {
            return self;
        }
        self.with_evidence(format!("it takes {needed} bytes, and a buffer has {room}"))
    }

    /// The same, where the form is at fault, with what the bytes were taken for.
    pub fn taken_for(self, what: &'static str) -> Refusal {
        let form = [refusals::BAD_HEADER, refusals::BAD_LISTS, refusals::BEYOND_HEADER];
        let at_fault = self.number <= refusals::NOT_ONE_TREE || form.contains(&self.number);
        Refusal { taken_for: Some(what).filter(|_| at_fault), ..self }
    }
}

fn sizes(sheet: &Sheet) -> Option<(usize, usize)> {
    let Sheet { format, bytes } = sheet;
    format.number(bytes, 0).zip(format.number(bytes, format.width))
}

impl Display for Refusal {
    fn fmt(&self, to: &mut Formatter) -> fmt::Result {
        write!(to, "refused {}: {}", self.number, self.meaning())?;
        if let Some(evidence) = &self.evidence {
            write!(to, " ({evidence})")?;
        }
        match self.taken_for {
            Some(what) => write!(to, "; taken for {what}, --from says otherwise"),
            None => Ok(()),
        }
    }
}
