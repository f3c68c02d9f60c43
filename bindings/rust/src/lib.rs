//! The proved operations of Plumanchor for Rust: quantified Boolean formulas in prenex negation
//! normal form, as bytes, the "sheets" of document 01.
//!
//! Each operation is proved to answer as its contract says, on any bytes (`docs/ASSURANCE.md`).
//! This crate isn't proved: it passes bytes to the operations and takes their answers apart.
//!
//! A [`Sheet`] is checked once, has all operations as methods, and allocates what they need:
//!
//! ```
//! use plumanchor::{Format, Sheet};
//!
//! let text = b"p cnf 2 2\na 1 0\ne 2 0\n1 -2 0\n-1 2 0\n";
//! let sheet = Sheet::from_qdimacs(Format::Wide, text)?;
//! let solved = sheet.solve()?;
//! assert_eq!(solved.verdict, Some(true));
//! assert_eq!(solved.to_string(), "true 0 1 0");
//! # Ok::<(), plumanchor::Refusal>(())
//! ```
//!
//! The methods of a [`Format`] take any bytes and work in what the caller lends:
//!
//! ```
//! use plumanchor::Format;
//!
//! // No variable, and OR of AND of nothing: it is true, and not tidy.
//! let sheet = [0, 0, 2, 0, 6, 5, 1, 0, 0, 0];
//! let mut output = [0; 10];
//! assert_eq!(Format::Narrow.tidy(&sheet, &mut output), Ok(7));
//! assert_eq!(output, [0, 0, 1, 0, 5, 0, 0, 0, 0, 0]);
//! ```
//!
//! # Linking
//!
//! In this repository the crate links what `install/archive` wrote. Elsewhere PLUMANCHOR_LIB_DIR
//! names the folder with `libplumanchor.a`, which `make install` puts into `PREFIX/lib`.

#![warn(missing_docs)]

mod answer;
mod calls;
mod format;
pub mod packed;
mod refusal;
mod row;
mod sheet;

pub use answer::{
    Certified, Copied, Counts, DecideEnd, Decided, Forced, Guarded, Operation, Outcome, Quantifier,
    Sizes, Solved, Step, Strategy, Tried,
};
#[doc(hidden)]
pub use calls::DECLARED;
pub use format::{Format, TRIAL_VARIABLES};
pub use refusal::{refusals, ClaimPart, ClaimRefusal, PairRefusal, Reason, Refusal};
pub use row::{Kind, Row};
pub use sheet::Sheet;
