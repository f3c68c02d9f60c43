//! A sheet's tree as boxes: operators, literals that follow one another, and
//! what is folded. Every node row is in exactly one box.

use crate::formula::{Formula, Row};
use std::collections::VecDeque;
use std::ops::Range;

/// A picture shows so many boxes; an operator so many below it, and a row of literals so many of
/// them, before the rest is folded.
#[derive(Clone, Copy)]
pub struct Most {
    pub boxes: usize,
    pub below: usize,
}

pub enum Content {
    Operator(Row),
    /// Literals, of which the first are shown.
    Literals(usize),
    /// Subtrees that are only counted.
    Folded,
}

/// A box covers node rows that follow one another.
pub struct Shape {
    pub rows: Range<usize>,
    /// The operator above it, by its row.
    pub parent: Option<usize>,
    pub content: Content,
}

/// The children of an operator, by where subtrees end.
pub fn children(ends: &[usize], operator: usize) -> impl Iterator<Item = usize> + '_ {
    let next = move |at: usize| Some(at).filter(|&at| at < ends[operator]);
    std::iter::successors(next(operator + 1), move |&child| next(ends[child]))
}

/// The boxes of a tree, level by level, and folded beyond `most`.
pub fn shapes(formula: &Formula, most: Most) -> Vec<Shape> {
    let (matrix, ends) = (&formula.matrix, formula.ends());
    let mut shapes = vec![shape(matrix, 0..matrix.len(), None, most.below)];
    let mut operators = VecDeque::from([0]);
    while let Some(operator) = operators.pop_front() {
        let (mut at, end) = (operator + 1, ends[operator]);
        let mut below = 0;
        while at < end {
            let mut next = shape(matrix, at..end, Some(operator), most.below);
            // A fold is a box itself, so literals that are all the rest are shown in its place.
            if (below >= most.below || shapes.len() >= most.boxes) && next.rows.end < end {
                next = Shape { rows: at..end, content: Content::Folded, ..next };
            }
            at = match next.content {
                Content::Operator(_) => {
                    operators.push_back(at);
                    ends[at]
                }
                _ => next.rows.end,
            };
            below += 1;
            shapes.push(next);
        }
    }
    shapes
}

/// The operator at the first row, or the literals from there on that are its siblings.
fn shape(matrix: &[Row], rows: Range<usize>, parent: Option<usize>, most: usize) -> Shape {
    let (at, end) = (rows.start, rows.end);
    if !matrix[at].is_literal() {
        return Shape { rows: at..at + 1, parent, content: Content::Operator(matrix[at]) };
    }
    let literals = matrix[at..end].iter().take_while(|row| row.is_literal()).count();
    let content = Content::Literals(literals.min(most.max(1)));
    Shape { rows: at..at + literals, parent, content }
}
