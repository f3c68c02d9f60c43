//! Guards pasted more than once: copies as they are, copies that are equal only
//! once they are tidied, copies in another order, and trees that nearly are copies.

use super::trees::{any_kind, literal, untidy_matrix};
use super::Rng;
use crate::reference::{Kind, Node, Variable};

/// One operator over guards and their copies, nested at times.
pub(super) fn pasted(rng: &mut Rng, pool: &[Variable], kind: Kind, budget: usize) -> Node {
    let largest = rng.pick(&[4, 7, 12, 30]);
    let (mut rows, mut children): (usize, Vec<Node>) = (1, Vec::new());
    loop {
        let child = match children.len() {
            0 => guard(rng, pool, kind.other(), largest),
            _ if rng.one_in(3) => guard(rng, pool, kind.other(), largest),
            count => {
                let original = children[rng.below(count)].clone();
                copy(rng, pool, original)
            }
        };
        rows += child.rows();
        if rows > budget {
            rng.shuffle(&mut children);
            return Node::Op { kind, children };
        }
        children.push(child);
    }
}

fn guard(rng: &mut Rng, pool: &[Variable], kind: Kind, largest: usize) -> Node {
    match rng.below(4) {
        0 => untidy_matrix(rng, pool, largest),
        1 => {
            let inner = pasted(rng, pool, kind.other(), largest);
            Node::Op { kind, children: vec![literal(rng, pool), inner] }
        }
        _ => {
            let width = rng.between(2, 3);
            Node::Op { kind, children: (0..width).map(|_| literal(rng, pool)).collect() }
        }
    }
}

/// The same rows; the same tree once it is tidied; or nearly the same.
fn copy(rng: &mut Rng, pool: &[Variable], original: Node) -> Node {
    let Node::Op { kind, mut children } = original else {
        return original;
    };
    let count = children.len();
    match rng.below(9) {
        // Equal once it is tidied: a lone child, an operator of its own kind, a neutral one, a
        // literal twice.
        0 => return Node::Op { kind: any_kind(rng), children: vec![Node::Op { kind, children }] },
        1 => {
            let behind = children.split_off(rng.below(count + 1));
            children.push(Node::Op { kind, children: behind });
        }
        2 => children.insert(rng.below(count + 1), Node::empty(kind)),
        3 => children.extend(children.iter().find(|child| child.children().is_empty()).cloned()),
        // In another order, which is another tree.
        4 => rng.shuffle(&mut children),
        // The last child another: a long common beginning.
        5 => {
            children.pop();
            children.push(literal(rng, pool));
        }
        // The last child within the one before it: the same kinds and variables, nested otherwise.
        6 if count >= 2 => {
            let last = children.pop().expect("two children");
            match children.last_mut() {
                Some(Node::Op { children: inner, .. }) => inner.push(last),
                _ => children.push(last),
            }
        }
        _ => {}
    }
    Node::Op { kind, children }
}
