//! Expanding: the relevant subtree, its price, the raw sheet, Expand.

use super::{Answer, Format, Formula, Node, Reading, Refusal, Rules, Variable};
use std::collections::BTreeSet;

/// Child indices from the root down.
type Path = Vec<usize>;

/// What is copied for a variable, or for several.
pub(super) enum Relevant {
    Nothing,
    Literal {
        path: Path,
    },
    /// The deepest operator above all literals, with a mark for each child
    /// that contains one.
    Operator {
        path: Path,
        marks: Vec<bool>,
    },
}

pub(super) fn relevant(matrix: &Node, chosen: &dyn Fn(Variable) -> bool) -> Relevant {
    let mut paths = Vec::new();
    collect_paths(matrix, chosen, &mut Vec::new(), &mut paths);
    match paths.as_slice() {
        [] => Relevant::Nothing,
        [path] => Relevant::Literal { path: path.clone() },
        [first, others @ ..] => {
            let lengths = others.iter().map(|path| shared_length(first, path));
            let shared = lengths.min().expect("more than one literal");
            let path = first[..shared].to_vec();
            let mut marks = vec![false; node_at(matrix, &path).children().len()];
            paths.iter().for_each(|literal| marks[literal[shared]] = true);
            Relevant::Operator { path, marks }
        }
    }
}

fn collect_paths(
    node: &Node,
    chosen: &dyn Fn(Variable) -> bool,
    here: &mut Path,
    paths: &mut Vec<Path>,
) {
    if node.as_literal().is_some_and(|literal| chosen(literal.0)) {
        paths.push(here.clone());
    }
    for (index, child) in node.children().iter().enumerate() {
        here.push(index);
        collect_paths(child, chosen, here, paths);
        here.pop();
    }
}

fn shared_length(a: &[usize], b: &[usize]) -> usize {
    a.iter().zip(b).take_while(|(x, y)| x == y).count()
}

fn node_at<'a>(root: &'a Node, path: &[usize]) -> &'a Node {
    path.iter().fold(root, |node, &index| &node.children()[index])
}

/// The matrix with `change` applied to the node at `path`.
fn replace_at(node: &Node, path: &[usize], change: &dyn Fn(&Node) -> Node) -> Node {
    let Some((&index, rest)) = path.split_first() else {
        return change(node);
    };
    let Node::Op { kind, children } = node else {
        unreachable!("a path goes through operators");
    };
    let replaced = |(at, child): (usize, &Node)| {
        if at == index {
            replace_at(child, rest, change)
        } else {
            child.clone()
        }
    };
    Node::Op { kind: *kind, children: children.iter().enumerate().map(replaced).collect() }
}

fn marked<'a>(children: &'a [Node], marks: &'a [bool]) -> impl Iterator<Item = &'a Node> {
    children.iter().zip(marks).filter(|(_, mark)| **mark).map(|(child, _)| child)
}

/// The operator with its marked children alone.
fn with_marked(operator: &Node, marks: &[bool]) -> Node {
    let Node::Op { kind, children } = operator else {
        unreachable!("several literals meet in an operator");
    };
    Node::Op { kind: *kind, children: marked(children, marks).cloned().collect() }
}

/// What is relevant to `x` by itself, if it has a literal.
pub(super) fn relevant_subtree(matrix: &Node, x: Variable) -> Option<Node> {
    match relevant(matrix, &|var| var == x) {
        Relevant::Nothing => None,
        Relevant::Literal { path } => Some(node_at(matrix, &path).clone()),
        Relevant::Operator { path, marks } => Some(with_marked(node_at(matrix, &path), &marks)),
    }
}

/// The variables with a literal in what is copied.
pub(super) fn copied_variables(matrix: &Node, relevant: &Relevant) -> BTreeSet<Variable> {
    match relevant {
        Relevant::Nothing => BTreeSet::new(),
        Relevant::Literal { path } => node_at(matrix, path).variables(),
        Relevant::Operator { path, marks } => {
            marked(node_at(matrix, path).children(), marks).flat_map(Node::variables).collect()
        }
    }
}

/// E and the raw rows by document 01's formulas; E is 0 with no literal.
pub(super) fn price(matrix: &Node, relevant: &Relevant) -> (usize, usize) {
    let n = matrix.rows();
    match relevant {
        Relevant::Nothing => (0, n),
        Relevant::Literal { .. } => (1, n + 1 + 1),
        Relevant::Operator { path, marks } => {
            let copied = marked(node_at(matrix, path).children(), marks);
            let e = 1 + copied.map(Node::rows).sum::<usize>();
            let every_child = marks.iter().all(|&mark| mark);
            (e, n + e + if every_child { 1 } else { 2 })
        }
    }
}

/// Raw rows of expanding `x`.
pub fn raw_rows(formula: &Formula, x: Variable) -> usize {
    price(&formula.matrix, &relevant(&formula.matrix, &|var| var == x)).1
}

/// The expansion of a variable before tidying; E is 0 with no literal.
#[derive(Clone, Debug, PartialEq, Eq)]
pub struct Expansion {
    pub raw: Formula,
    pub e: usize,
    pub raw_rows: usize,
}

/// Local expansion of a bound `x`, its row gone, not tidied.
pub fn raw_expansion(formula: &Formula, x: Variable) -> Expansion {
    let quantifier = formula.quantifier(x).expect("a bound variable");
    let relevant = relevant(&formula.matrix, &|var| var == x);
    let (e, raw_rows) = price(&formula.matrix, &relevant);
    let matrix = raw_matrix(&formula.matrix, &relevant, &|subtree| Node::Op {
        kind: quantifier.joins_with(),
        children: vec![subtree.assign(x, false), subtree.assign(x, true)],
    });
    assert_eq!(matrix.rows(), raw_rows, "raw rows as counted and by the formula");
    Expansion { raw: Formula { prefix: formula.prefix_without(x), matrix }, e, raw_rows }
}

/// The matrix with two copies of what is relevant in its place.
pub(super) fn raw_matrix(
    matrix: &Node,
    relevant: &Relevant,
    two_copies: &dyn Fn(&Node) -> Node,
) -> Node {
    match relevant {
        Relevant::Nothing => matrix.clone(),
        Relevant::Literal { path } => replace_at(matrix, path, two_copies),
        Relevant::Operator { path, marks } => replace_at(matrix, path, &|operator| {
            let Node::Op { kind, children } = operator else {
                unreachable!("several literals meet in an operator");
            };
            let copies = two_copies(&with_marked(operator, marks));
            if marks.iter().all(|&mark| mark) {
                copies
            } else {
                Node::Op { kind: *kind, children: put_in(children, marks, copies) }
            }
        }),
    }
}

/// `new` at the spot of the first marked child, the other marked ones removed.
fn put_in(children: &[Node], marks: &[bool], new: Node) -> Vec<Node> {
    let mut new = Some(new);
    let pairs = children.iter().zip(marks);
    pairs.filter_map(|(child, mark)| if *mark { new.take() } else { Some(child.clone()) }).collect()
}

impl Rules {
    /// Expanding on formulas: the raw expansion, tidied.
    pub fn expand_formula(&self, formula: &Formula, x: Variable) -> Formula {
        self.tidy_formula(&raw_expansion(formula, x).raw)
    }
}

impl Format {
    /// Whether the raw sheet of expanding `x` fits an output of length `room`.
    pub(super) fn raw_sheet_fits(self, formula: &Formula, x: Variable, room: usize) -> bool {
        self.fits(formula.prefix.len() - 1, raw_rows(formula, x), room)
    }
}

impl Reading {
    /// Expand: the new sheet's length.
    pub fn expand(&self, sheet: &[u8], x: Variable, output: &mut [u8]) -> Answer<usize> {
        let formula = self.quoted(sheet, x);
        let expanded = formula.and_then(|formula| self.expanded(formula, x, output.len()));
        self.format.answer(expanded, output)
    }

    /// Quote: the raw rows.
    pub fn quote(&self, sheet: &[u8], x: Variable) -> Answer<usize> {
        self.quoted(sheet, x).map(|formula| raw_rows(&formula, x)).into()
    }

    /// Execute: the new sheet's length.
    pub fn execute(
        &self,
        sheet: &[u8],
        x: Variable,
        ceiling: usize,
        output: &mut [u8],
    ) -> Answer<usize> {
        let within = self.quoted(sheet, x).and_then(|formula| {
            if raw_rows(&formula, x) <= ceiling {
                Ok(formula)
            } else {
                Err((19, 0))
            }
        });
        let expanded = within.and_then(|formula| self.expanded(formula, x, output.len()));
        self.format.answer(expanded, output)
    }

    /// The formula of a sheet that a quote is given for.
    fn quoted(&self, sheet: &[u8], x: Variable) -> Result<Formula, Refusal> {
        let formula = self.parse_tidy(sheet)?;
        formula.quantifier(x).ok_or((10, 0))?;
        if !self.rules.innermost_block(&formula).contains(&x) {
            return Err((11, 0));
        }
        Ok(formula)
    }

    fn expanded(&self, formula: Formula, x: Variable, room: usize) -> Result<Formula, Refusal> {
        if !self.format.raw_sheet_fits(&formula, x, room) {
            return Err((13, 0));
        }
        Ok(self.rules.expand_formula(&formula, x))
    }
}
