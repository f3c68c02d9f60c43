//! Refusals: their numbers, names and words.

use std::error::Error;
use std::fmt::{self, Display, Formatter};

/// A line for each refusal: its name as everywhere else, its number, its name as a variant, and
/// what it means. From it come the variants of [`Reason`], the constants of [`refusals`] and the
/// words.
macro_rules! table {
    ($($(#[$doc:meta])* $name:ident = $number:literal, $variant:ident, $text:literal;)*) => {
        /// Why a call is refused, by the number of documents 01 and 02; 26 to 29 are ours.
        #[derive(Clone, Copy, Debug, PartialEq, Eq, PartialOrd, Ord, Hash)]
        #[non_exhaustive]
        #[repr(u8)]
        pub enum Reason {
            $($(#[$doc])* $variant = $number,)*
        }

        /// The numbers alone, for patterns.
        pub mod refusals {
            $($(#[$doc])* pub const $name: u8 = $number;)*
        }

        impl Reason {
            /// The reason of a number, if it has one.
            pub fn from_number(number: u8) -> Option<Reason> {
                match number {
                    $($number => Some(Reason::$variant),)*
                    _ => None,
                }
            }

            /// What it means.
            pub fn text(self) -> &'static str {
                match self {
                    $(Reason::$variant => $text,)*
                }
            }
        }
    };
}

table! {
    /// Shorter than the two sizes.
    TOO_SHORT = 1, TooShort, "the sheet is shorter than its two sizes";

    /// A size outside its limits.
    SIZE_OUTSIDE = 2, SizeOutside, "a size is outside its limits";

    /// Wrong length.
    WRONG_LENGTH = 3, WrongLength, "the sheet's length is not that of its sizes";

    /// A row's kind.
    BAD_KIND = 4, BadKind, "the row's kind is none that may stand there";

    /// A quantifier's number.
    BAD_NUMBER = 5, BadNumber, "the quantifier's number is outside its limits";

    /// A number bound twice.
    BOUND_TWICE = 6, BoundTwice, "a number is bound twice";

    /// A literal unbound.
    UNBOUND = 7, Unbound, "the literal's variable is not bound";

    /// The rows are not one tree.
    NOT_ONE_TREE = 8, NotOneTree, "the rows are not one tree";

    /// Not tidy.
    NOT_TIDY = 9, NotTidy, "the sheet is not tidy";

    /// The variable is not in the prefix.
    NOT_IN_PREFIX = 10, NotInPrefix, "the variable is not in the prefix";

    /// The variable is not in the innermost block, or not one block out.
    WRONG_BLOCK = 11, WrongBlock,
        "the variable is not in the innermost block, or not universal and one block out";

    /// The variable may not be settled.
    NOT_SETTLED = 12, NotSettled, "the variable may not be settled";

    /// No room for the sheet.
    NO_ROOM = 13, NoRoom, "a buffer has too little room, or the sheet would be above its limits";

    /// Too many variables to try.
    TOO_MANY_TO_TRY = 14, TooManyToTry, "the sheet has more than 20 variables";

    /// A text's header.
    BAD_HEADER = 15, BadHeader,
        "the text has no header of 'p cnf' and two numbers, the first within the sheet's limits";

    /// A text that is not lists of numbers ended by 0.
    BAD_LISTS = 16, BadLists,
        "the text is not lists of whole numbers ended by 0, quantified ones in front";

    /// A variable or a number of clauses that a text's header doesn't allow.
    BEYOND_HEADER = 17, BeyondHeader,
        "a variable is above the header's count, or the clauses are not as many as it says";

    /// Fewer unused numbers than variables to copy, or for Clauses to name.
    NO_NUMBERS_LEFT = 18, NoNumbersLeft, "fewer unused numbers are left than new variables";

    /// More raw rows than the ceiling.
    ABOVE_CEILING = 19, AboveCeiling, "the raw rows are above the ceiling";

    /// Not of the clause profile.
    NO_CLAUSES = 20, NoClauses, "the tree is not AND of literals and of ORs of literals";

    /// A value other than 0 and 1.
    BAD_VALUE = 21, BadValue, "a value is neither 0 nor 1";

    /// As many values as variables, or more; for Split and Join, more.
    TOO_MANY_VALUES = 22, TooManyValues, "there are too many values for the sheet's variables";

    /// The root is not AND.
    ROOT_NOT_AND = 23, RootNotAnd, "the root is not AND";

    /// Outside the limits of a narrow sheet.
    NOT_NARROW = 24, NotNarrow, "a size or a variable's number is above the narrow limits";

    /// Counts that don't add up.
    WRONG_COUNTS = 25, WrongCounts,
        "settled, expanded and variables left don't add up to the starting count";

    /// Not a strategy over the sheet's prefix.
    NOT_A_STRATEGY = 26, NotAStrategy,
        "the second sheet is no strategy of that side over the first sheet's prefix";

    /// A function that reads what it may not.
    READS_BEYOND = 27, ReadsBeyond, "the function of the pair in the row reads what it may not";

    /// Not as many answers as lists of values.
    WRONG_ANSWERS = 28, WrongAnswers, "there are not as many answers as lists of values";

    /// An answer other than 0, 1 and 2.
    BAD_ANSWER = 29, BadAnswer, "an answer is neither 0 nor 1 nor 2";
}

impl Reason {
    /// Its number.
    pub fn number(self) -> u8 {
        self as u8
    }
}

impl Display for Reason {
    fn fmt(&self, to: &mut Formatter) -> fmt::Result {
        self.text().fmt(to)
    }
}

/// A call that was refused. It has changed no byte of its outputs.
///
/// ```
/// use plumanchor::{Format, Reason};
///
/// let refusal = Format::Wide.check(&[1, 0, 0]).unwrap_err();
/// assert_eq!(refusal.reason(), Some(Reason::TooShort));
/// assert_eq!(refusal.to_string(), "refused 1: the sheet is shorter than its two sizes");
/// ```
#[derive(Clone, Copy, Debug, PartialEq, Eq, Hash)]
pub struct Refusal {
    /// One of [`refusals`].
    pub number: u8,
    /// The row at fault, counted from 0, quantifiers first; 0 where the reason has none.
    pub place: usize,
}

impl Refusal {
    /// The reason, unless the library linked is of a later version that has more of them.
    pub fn reason(&self) -> Option<Reason> {
        Reason::from_number(self.number)
    }

    /// What it means.
    pub fn text(&self) -> &'static str {
        self.reason().map_or("a refusal that this version has no words for", Reason::text)
    }

    /// Whether the place is the row at fault.
    fn has_row(&self) -> bool {
        matches!(self.number, refusals::BAD_KIND..=refusals::NOT_TIDY | refusals::READS_BEYOND)
    }
}

impl Display for Refusal {
    fn fmt(&self, to: &mut Formatter) -> fmt::Result {
        write!(to, "refused {}: {}", self.number, self.text())?;
        if self.has_row() {
            write!(to, " (row {}, counted from 0)", self.place)?;
        }
        Ok(())
    }
}

impl Error for Refusal {}

/// A refusal of one of two sheets.
#[derive(Clone, Copy, Debug, PartialEq, Eq, Hash)]
pub struct PairRefusal {
    /// 1 for the first sheet, 2 for the second.
    pub sheet: u8,
    /// Why it is refused.
    pub refusal: Refusal,
}

impl Display for PairRefusal {
    fn fmt(&self, to: &mut Formatter) -> fmt::Result {
        write!(to, "sheet {}: {}", self.sheet, self.refusal)
    }
}

impl Error for PairRefusal {
    fn source(&self) -> Option<&(dyn Error + 'static)> {
        Some(&self.refusal)
    }
}

/// What Claim is given.
#[derive(Clone, Copy, Debug, PartialEq, Eq, Hash)]
pub enum ClaimPart {
    /// The sheet that the strategy is of.
    Sheet,
    /// The strategy's sheet.
    Strategy,
    /// The output.
    Output,
}

impl Display for ClaimPart {
    fn fmt(&self, to: &mut Formatter) -> fmt::Result {
        match self {
            ClaimPart::Sheet => "the sheet",
            ClaimPart::Strategy => "the strategy",
            ClaimPart::Output => "the output",
        }
        .fmt(to)
    }
}

/// A refusal of what Claim is given.
#[derive(Clone, Copy, Debug, PartialEq, Eq, Hash)]
pub struct ClaimRefusal {
    /// Which part is refused.
    pub at: ClaimPart,
    /// Why it is refused.
    pub refusal: Refusal,
}

impl Display for ClaimRefusal {
    fn fmt(&self, to: &mut Formatter) -> fmt::Result {
        write!(to, "{}: {}", self.at, self.refusal)
    }
}

impl Error for ClaimRefusal {
    fn source(&self) -> Option<&(dyn Error + 'static)> {
        Some(&self.refusal)
    }
}
