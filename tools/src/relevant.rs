//! The relevant subtree of an expansion, by document 01: which rows are copied.

use crate::formula::Formula;
use crate::picture::children;

pub struct Relevant {
    /// For each node row whether it is copied.
    pub marks: Vec<bool>,
    /// N+E+1, N+E+2 or N; Quote must say the same.
    pub raw: usize,
}

impl Relevant {
    pub fn nothing(formula: &Formula) -> Relevant {
        let rows = formula.matrix.len();
        Relevant { marks: vec![false; rows], raw: rows }
    }

    pub fn of(formula: &Formula, x: usize) -> Relevant {
        let is_literal = |&at: &usize| formula.matrix[at].is_literal_of(x);
        let literals: Vec<usize> = (0..formula.matrix.len()).filter(is_literal).collect();
        let mut relevant = Relevant::nothing(formula);
        match literals[..] {
            [] => {}
            [only] => {
                relevant.marks[only] = true;
                relevant.raw += 2;
            }
            [first, .., last] => relevant.mark_below(formula, &literals, first, last),
        }
        relevant
    }

    /// The deepest operator above all literals, and its children that contain one.
    fn mark_below(&mut self, formula: &Formula, literals: &[usize], first: usize, last: usize) {
        let ends = formula.ends();
        let mut operator = 0;
        let above_all = |child: &usize| *child <= first && last < ends[*child];
        while let Some(deeper) = children(&ends, operator).find(above_all) {
            operator = deeper;
        }
        let contains = |&child: &usize| literals.iter().any(|&at| child <= at && at < ends[child]);
        let (copied, others): (Vec<usize>, Vec<usize>) =
            children(&ends, operator).partition(contains);
        self.marks[operator] = true;
        copied.iter().for_each(|&child| self.marks[child..ends[child]].fill(true));
        let e = 1 + copied.iter().map(|&child| ends[child] - child).sum::<usize>();
        self.raw += e + if others.is_empty() { 1 } else { 2 };
    }
}
