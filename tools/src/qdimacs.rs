//! QDIMACS 1.1, which a proved operation reads.
//!
//! `fault` says where a text is at fault that it refuses, `renumber` numbers the
//! variables of a text from 1, `write` writes a formula; `text` has the words.

mod fault;
mod renumber;
mod text;
mod write;

pub use fault::fault;
pub use renumber::renumbered;
pub use write::{counts, write};

/// The header's numbers of variables and of clauses, if a text has them.
pub fn header(bytes: &[u8]) -> Option<(usize, usize)> {
    text::Text::of(bytes).counts()
}
