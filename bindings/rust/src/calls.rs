//! The operations on bytes, safe to call: the caller lends every output and work buffer, and what
//! is left in them is as `include/plumanchor.h` says.
//!
//! An operation is one line of `operations!`. A parameter is of one of six kinds, which say what
//! the caller lends and which arguments of the C function it becomes:
//!
//! | kind | in Rust | in C |
//! |---|---|---|
//! | `bytes` | `&[u8]` | `const uint8_t *`, `size_t` |
//! | `output` | `&mut [u8]` | `uint8_t *`, `size_t` |
//! | `words` | `&[u32]` | `const uint32_t *`, `size_t` |
//! | `numbers` | `&[usize]` | `const size_t *`, `size_t` |
//! | `answers` | `&mut [usize]` | `size_t *`, `size_t` |
//! | `number` | `usize` | `size_t` |

#![allow(unsafe_code)]

use crate::answer::{Copied, Counts, Decided, Forced, Guarded, Sizes, Solved, Strategy, Tried};
use crate::format::Format;
use crate::packed::{self, Pack};
use crate::refusal::{ClaimRefusal, PairRefusal, Refusal};
use std::cmp::Ordering;

/// The type of a parameter.
macro_rules! lent {
    (bytes) => {
        &[u8]
    };
    (output) => {
        &mut [u8]
    };
    (words) => {
        &[u32]
    };
    (numbers) => {
        &[usize]
    };
    (answers) => {
        &mut [usize]
    };
    (number) => {
        usize
    };
}

/// Declares a function of the library, by the kinds of its parameters.
macro_rules! declare {
    ($name:ident -> $raw:ty, [$($types:tt)*]) => {
        extern "C" {
            fn $name($($types)*) -> $raw;
        }
    };
    ($name:ident -> $raw:ty, [$($types:tt)*] bytes $($rest:ident)*) => {
        declare!($name -> $raw, [$($types)* _: *const u8, _: usize,] $($rest)*);
    };
    ($name:ident -> $raw:ty, [$($types:tt)*] output $($rest:ident)*) => {
        declare!($name -> $raw, [$($types)* _: *mut u8, _: usize,] $($rest)*);
    };
    ($name:ident -> $raw:ty, [$($types:tt)*] words $($rest:ident)*) => {
        declare!($name -> $raw, [$($types)* _: *const u32, _: usize,] $($rest)*);
    };
    ($name:ident -> $raw:ty, [$($types:tt)*] numbers $($rest:ident)*) => {
        declare!($name -> $raw, [$($types)* _: *const usize, _: usize,] $($rest)*);
    };
    ($name:ident -> $raw:ty, [$($types:tt)*] answers $($rest:ident)*) => {
        declare!($name -> $raw, [$($types)* _: *mut usize, _: usize,] $($rest)*);
    };
    ($name:ident -> $raw:ty, [$($types:tt)*] number $($rest:ident)*) => {
        declare!($name -> $raw, [$($types)* _: usize,] $($rest)*);
    };
}

/// Calls a function that `declare!` declares, with parameters of the same kinds.
macro_rules! call {
    ($entry:expr, [$($values:tt)*]) => {
        // SAFETY: the function is proved for all bytes, lengths and numbers. It reads and writes
        // only what it is lent: each pointer comes with the length of a slice of its type that
        // lives until the call returns, outputs are borrowed for it alone, so that no two overlap,
        // and no pointer is kept. That its parameters are declared here as they are in its source
        // is tested (`tests/declarations.rs`).
        unsafe { $entry($($values)*) }
    };
    ($entry:expr, [$($values:tt)*] $name:ident: bytes, $($rest:tt)*) => {
        call!($entry, [$($values)* $name.as_ptr(), $name.len(),] $($rest)*)
    };
    ($entry:expr, [$($values:tt)*] $name:ident: output, $($rest:tt)*) => {
        call!($entry, [$($values)* $name.as_mut_ptr(), $name.len(),] $($rest)*)
    };
    ($entry:expr, [$($values:tt)*] $name:ident: words, $($rest:tt)*) => {
        call!($entry, [$($values)* $name.as_ptr(), $name.len(),] $($rest)*)
    };
    ($entry:expr, [$($values:tt)*] $name:ident: numbers, $($rest:tt)*) => {
        call!($entry, [$($values)* $name.as_ptr(), $name.len(),] $($rest)*)
    };
    ($entry:expr, [$($values:tt)*] $name:ident: answers, $($rest:tt)*) => {
        call!($entry, [$($values)* $name.as_mut_ptr(), $name.len(),] $($rest)*)
    };
    ($entry:expr, [$($values:tt)*] $name:ident: number, $($rest:tt)*) => {
        call!($entry, [$($values)* $name,] $($rest)*)
    };
}

/// Operations with a function for narrow sheets and one for wide ones, whose answers are packed: a
/// method of `Format` each, with what takes the answer apart.
macro_rules! operations {
    ($(
        $(#[$doc:meta])*
        pub fn $name:ident($($parameter:ident: $kind:tt),*) -> $answer:ty
            = $unpacked:path, [$narrow:ident, $wide:ident];
    )*) => {
        $(
            declare!($narrow -> u64, [] $($kind)*);
            declare!($wide -> u64, [] $($kind)*);
        )*

        impl Format {
            $(
                $(#[$doc])*
                pub fn $name(self, $($parameter: lent!($kind)),*) -> $answer {
                    let entry = match self {
                        Format::Narrow => $narrow,
                        Format::Wide => $wide,
                    };
                    let packed = call!(entry, [] $($parameter: $kind,)*);
                    let answer = $unpacked(packed);
                    debug_assert_eq!(answer.pack(), packed, stringify!($name));
                    answer
                }
            )*
        }

        /// Each function of the library that is declared, the kinds of its parameters, and what it
        /// returns.
        #[doc(hidden)]
        pub const DECLARED: &[(&str, &[&str], &str)] = &[
            $(
                (stringify!($narrow), &[$(stringify!($kind)),*], "u64"),
                (stringify!($wide), &[$(stringify!($kind)),*], "u64"),
            )*
            ("plumanchor_part", &PART, "usize"),
            ("plumanchor_part_wide", &PART, "usize"),
            ("plumanchor_resume", &RESUME, "u64"),
        ];
    };
}

operations! {
    /// Check: whether the bytes are a sheet, and its sizes.
    pub fn check(sheet: bytes) -> Result<Sizes, Refusal>
        = packed::sizes, [plumanchor_check, plumanchor_check_wide];

    /// Trial: the verdict of trying all values, for up to
    /// [`TRIAL_VARIABLES`](crate::TRIAL_VARIABLES) variables.
    pub fn trial(sheet: bytes) -> Result<Tried, Refusal>
        = packed::tried, [plumanchor_trial, plumanchor_trial_wide];

    /// Tidy: the tidied sheet to the front of the output, zeros behind it. Answers with its length.
    pub fn tidy(sheet: bytes, output: output) -> Result<usize, Refusal>
        = packed::written, [plumanchor_tidy, plumanchor_tidy_wide];

    /// Settle the variable `x`, in the same way.
    pub fn settle(sheet: bytes, x: number, output: output) -> Result<usize, Refusal>
        = packed::written, [plumanchor_settle, plumanchor_settle_wide];

    /// Expand the variable `x`, in the same way; the output must have room for the raw sheet.
    pub fn expand(sheet: bytes, x: number, output: output) -> Result<usize, Refusal>
        = packed::written, [plumanchor_expand, plumanchor_expand_wide];

    /// Outer: expands a universal `x` one block out, in the same way.
    pub fn outer(sheet: bytes, x: number, output: output) -> Result<Copied<usize>, Refusal>
        = packed::copied, [plumanchor_outer, plumanchor_outer_wide];

    /// Quote: how many node rows the raw sheet of the expansion of `x` has.
    pub fn quote(sheet: bytes, x: number) -> Result<usize, Refusal>
        = packed::quoted, [plumanchor_quote, plumanchor_quote_wide];

    /// Execute: Expand if the raw sheet has at most so many node rows as the ceiling.
    pub fn execute(
        sheet: bytes,
        x: number,
        ceiling: number,
        output: output
    ) -> Result<usize, Refusal>
        = packed::written, [plumanchor_execute, plumanchor_execute_wide];

    /// Reduce: universal reduction of a tidy AND of clauses, in the same way as Tidy.
    pub fn reduce(sheet: bytes, output: output) -> Result<usize, Refusal>
        = packed::written, [plumanchor_reduce, plumanchor_reduce_wide];

    /// Sort: the sheet with all children in order, in the same way.
    pub fn sort(sheet: bytes, output: output) -> Result<usize, Refusal>
        = packed::written, [plumanchor_sort, plumanchor_sort_wide];

    /// Conversion: the rows of a sheet of the other format as a sheet of this one, in the same way.
    pub fn convert(sheet: bytes, output: output) -> Result<usize, Refusal>
        = packed::written, [plumanchor_narrow, plumanchor_widen];

    /// QDIMACS in: the sheet that a text says, in the same way.
    pub fn qdimacs(text: bytes, output: output) -> Result<usize, Refusal>
        = packed::written, [plumanchor_qdimacs, plumanchor_qdimacs_wide];

    /// Solve, in two work buffers: the first then holds the sheet reached and zeros, the second
    /// only zeros.
    pub fn solve(sheet: bytes, first: output, second: output) -> Result<Solved, Refusal>
        = packed::solved, [plumanchor_solve, plumanchor_solve_wide];

    /// Guards: of a false sheet whose root is AND, the children to blame, as a sheet at the front
    /// of the output.
    pub fn guards(
        sheet: bytes,
        output: output,
        first: output,
        second: output
    ) -> Result<Guarded<usize>, Refusal>
        = packed::guarded, [plumanchor_guards, plumanchor_guards_wide];

    /// Force: with a value for each of the first variables of the prefix, whose turn is next, and
    /// with which values its owner gets the outcome wanted.
    pub fn force(
        sheet: bytes,
        values: bytes,
        first: output,
        second: output
    ) -> Result<Forced, Refusal>
        = packed::forced, [plumanchor_force, plumanchor_force_wide];

    /// Steps: settles (operation 0) or expands (any other) each variable in turn. As many records
    /// are followed as the shortest of the four arrays has; what each step answers is in `numbers`,
    /// the refusal or 0, and `values`, the place or the new length. The first buffer then holds the
    /// final sheet, whose length is answered.
    #[allow(clippy::too_many_arguments)] // They are the C function's.
    pub fn steps(
        sheet: bytes,
        operations: bytes,
        variables: numbers,
        numbers: answers,
        values: answers,
        first: output,
        second: output
    ) -> Result<usize, Refusal>
        = packed::written, [plumanchor_steps, plumanchor_steps_wide];

    /// Compare: how sheet `a` is filed beside sheet `b`, in work buffers as long as they are.
    pub fn compare(
        a: bytes,
        b: bytes,
        first: output,
        second: output
    ) -> Result<Ordering, PairRefusal>
        = packed::compared, [plumanchor_compare, plumanchor_compare_wide];

    /// Response: the function of the variable `x` by which its owner can answer what the others
    /// are, as a sheet of the prefix without `x`, in the same way as Tidy; the output must have
    /// room for the raw sheet.
    pub fn response(sheet: bytes, x: number, output: output) -> Result<usize, Refusal>
        = packed::written, [plumanchor_response, plumanchor_response_wide];

    /// Strategy: Solve, and where it ends the winner's strategy as a sheet at the front of the
    /// output. The work buffers are left as by Solve.
    pub fn strategy(
        sheet: bytes,
        first: output,
        second: output,
        output: output
    ) -> Result<Strategy<usize>, Refusal>
        = packed::strategy, [plumanchor_strategy, plumanchor_strategy_wide];

    /// Claim: that a strategy of any origin wins for a side, by its quantifier's row (1 exists, any
    /// other number for all), as a sheet of one quantifier, in the same way as Tidy.
    pub fn claim(
        sheet: bytes,
        side: number,
        strategy: bytes,
        output: output
    ) -> Result<usize, ClaimRefusal>
        = packed::claimed, [plumanchor_claim, plumanchor_claim_wide];

    /// Certify: what a derivation of any origin shows of the verdict asked for (0 false, any other
    /// number true): that verdict, or else the number of the first step that isn't valid, from 0
    /// on; of all steps if only the last constraint isn't empty. Four words in `heads` say a step,
    /// and `codes` its literals.
    pub fn certify(
        sheet: bytes,
        verdict: number,
        heads: words,
        codes: words
    ) -> Result<Result<bool, usize>, Refusal>
        = packed::certified, [plumanchor_certify, plumanchor_certify_wide];

    /// Clauses: a sheet of the same truth whose matrix is AND of clauses, with a new existential
    /// variable for each operator that has none of its own, in the same way as Tidy.
    pub fn clauses(sheet: bytes, output: output) -> Result<usize, Refusal>
        = packed::written, [plumanchor_clauses, plumanchor_clauses_wide];

    /// Decide: runs of Solve, at most so many as the budget; where one stops, both halves of the
    /// sheet that it reached, one of which waits on the stack, in a place as long as the shorter
    /// work buffer. All three buffers then hold zeros. A budget above 4,294,967,295 is taken as
    /// that.
    pub fn decide(
        sheet: bytes,
        budget: number,
        first: output,
        second: output,
        stack: output
    ) -> Result<Decided, Refusal>
        = packed::decided, [plumanchor_decide, plumanchor_decide_wide];

    /// Split: the sheet under values for the first variables of its prefix, a byte each, in the
    /// same way as Tidy; it isn't tidied.
    pub fn split(sheet: bytes, values: bytes, output: output) -> Result<usize, Refusal>
        = packed::written, [plumanchor_split, plumanchor_split_wide];

    /// Join: what is known of the verdict from an answer for each list of values of the first `k`
    /// variables, a byte each: 0 false, 1 true, 2 unknown. The lists are in order, those that begin
    /// with value 0 first.
    pub fn join(sheet: bytes, k: number, answers: bytes) -> Result<Option<bool>, Refusal>
        = packed::joined, [plumanchor_join, plumanchor_join_wide];
}

impl Format {
    /// Part: the kind bytes of the subtree at a node; none if the sheet or the node is bad.
    ///
    /// ```
    /// use plumanchor::Format;
    ///
    /// // No variable, and AND of nothing.
    /// let sheet = [0, 0, 1, 0, 5, 0, 0];
    /// assert_eq!(Format::Narrow.part(&sheet, 0), [5]);
    /// assert!(Format::Narrow.part(&sheet, 1).is_empty());
    /// ```
    pub fn part(self, sheet: &[u8], node: usize) -> &[u8] {
        let entry = match self {
            Format::Narrow => plumanchor_part,
            Format::Wide => plumanchor_part_wide,
        };
        match call!(entry, [] sheet: bytes, node: number,) {
            0 => &[],
            rows => {
                let start = self.header() + self.number(sheet, 0) + node;
                &sheet[start..start + rows]
            }
        }
    }

    /// Resume: goes on from the sheet of this format that a stopped run reached, under the wide
    /// limits. The buffers are left as by Solve on a wide sheet.
    pub fn resume(
        self,
        counts: Counts,
        sheet: &[u8],
        first: &mut [u8],
        second: &mut [u8],
    ) -> Result<Solved, Refusal> {
        let Counts { started, settled, expanded } = counts;
        let narrow = usize::from(self == Format::Narrow);
        let answer = call!(plumanchor_resume, [] started: number, settled: number,
            expanded: number, sheet: bytes, narrow: number, first: output, second: output,);
        debug_assert_eq!(packed::solved(answer).pack(), answer, "resume");
        packed::resumed(answer, counts)
    }
}

declare!(plumanchor_part -> usize, [] bytes number);
declare!(plumanchor_part_wide -> usize, [] bytes number);
declare!(plumanchor_resume -> u64, [] number number number bytes number output output);

const PART: [&str; 2] = ["bytes", "number"];
const RESUME: [&str; 7] = ["number", "number", "number", "bytes", "number", "output", "output"];
