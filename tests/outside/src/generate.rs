//! Seeded random sheets, damage to them and to what comes with them, and random
//! calls.

mod calls;
mod clauses;
mod damage;
mod derivations;
mod families;
mod limit_sheets;
mod pairs;
mod pasted;
mod prefix;
mod profile;
mod random;
mod strategies;
mod texts;
mod trees;

pub use calls::{call, ceiling_around, dirty, length_around, Call};
pub use damage::damage;
pub use derivations::{any_words, damage_steps};
pub use families::{
    alternating_formula, formula, formula_of, sheet, solver_formula, spare_formula, tidy_formula,
    Family, Limits,
};
pub use limit_sheets::{
    deep_formula, ladder_formula, limit_sheets, wide_formula, with_variables, LimitSheet,
};
pub use pairs::paired_formula;
pub use profile::{clause_formula, near_miss};
pub use random::{cases, run_seed, Rng};
pub use strategies::damage_strategy;
pub use texts::{clause_set, damage_text, qdimacs_text};
