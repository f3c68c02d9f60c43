//! The rules that a later request may change, each list in its own order.

use super::tidy::{self, Limit, TidyRule};
use super::{Binding, Formula, Variable};

#[derive(Clone, Copy, Debug)]
pub struct Rules {
    /// What tidying does at an operator, one rule after the other.
    pub tidying: &'static [TidyRule],
    /// What a tidy sheet's operators keep to, beside having children below the root.
    pub limits: &'static [Limit],
    /// The variables that may be expanded, outermost first.
    pub innermost_block: fn(&Formula) -> Vec<Variable>,
}

impl Rules {
    pub const DOCUMENT_01: Rules = Rules {
        tidying: &[
            tidy::splice_own_kind,
            tidy::yield_to_empty_operator,
            tidy::decide_by_opposite_literals,
            tidy::drop_repeated_literals,
            tidy::replace_by_lone_child,
        ],
        limits: &[tidy::has_one_child, tidy::has_child_of_own_kind, tidy::has_variable_twice],
        innermost_block: last_run,
    };

    /// Document 01 with the requests that have landed since: N4, N5.
    pub const CURRENT: Rules = Rules {
        tidying: &[
            tidy::splice_own_kind,
            tidy::yield_to_empty_operator,
            tidy::decide_by_opposite_literals,
            tidy::drop_repeated_literals,
            tidy::drop_repeated_operators,
            tidy::replace_by_lone_child,
        ],
        limits: &[
            tidy::has_one_child,
            tidy::has_child_of_own_kind,
            tidy::has_variable_twice,
            tidy::has_operator_twice,
        ],
        innermost_block: past_spare_rows,
    };

    pub fn innermost_block(&self, formula: &Formula) -> Vec<Variable> {
        (self.innermost_block)(formula)
    }
}

/// The longest run of equal kinds at the end of the prefix.
fn last_run(formula: &Formula) -> Vec<Variable> {
    let Some(&(last, _)) = formula.prefix.last() else {
        return Vec::new();
    };
    let outside = formula.prefix.iter().rposition(|row| row.0 != last);
    formula.variables().split_off(outside.map_or(0, |row| row + 1))
}

/// N5: the variables of which every later row that has a literal is of their kind.
fn past_spare_rows(formula: &Formula) -> Vec<Variable> {
    let (prefix, used) = (&formula.prefix, formula.matrix.variables());
    let blocks = |row: &Binding, quantifier| row.0 != quantifier && used.contains(&row.1);
    let inside = |at: usize| !prefix[at + 1..].iter().any(|row| blocks(row, prefix[at].0));
    (0..prefix.len()).filter(|&at| inside(at)).map(|at| prefix[at].1).collect()
}
