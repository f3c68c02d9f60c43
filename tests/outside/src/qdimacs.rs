//! Clause translation by gate variables, for solvers that read QDIMACS.
//!
//! Every operator gets a gate variable, bound by exists innermost, with both
//! implications between the gate and its operator. A gate is then a function
//! of the variables before it, so the prefix's truth is kept.

use crate::reference::{Binding, Formula, Kind, Node, Quantifier, Variable};

/// A prenex clause set. A clause is a list of signed variable numbers.
#[derive(Clone, Debug, PartialEq, Eq)]
pub struct Qdimacs {
    /// The largest variable number.
    pub variables: usize,
    /// Alternating blocks, outermost first.
    pub blocks: Vec<(Quantifier, Vec<Variable>)>,
    pub clauses: Vec<Vec<i32>>,
}

/// The clause set of a formula; true exactly when the formula is.
pub fn translate(formula: &Formula) -> Qdimacs {
    let highest = formula.highest_variable();
    let mut gates = Gates { last: highest, clauses: Vec::new() };
    let root = match &formula.matrix {
        // QDIMACS wants an existential block innermost, so a lone literal gets a gate too.
        literal @ Node::Lit { .. } => gates.operator(Kind::And, std::slice::from_ref(literal)),
        operator => gates.define(operator),
    };
    gates.clauses.push(vec![root]);
    let mut blocks = blocks_of(&formula.prefix);
    for gate in highest + 1..=gates.last {
        bind(&mut blocks, Quantifier::Exists, gate);
    }
    let clauses = gates.clauses.into_iter().filter_map(clean).collect();
    Qdimacs { variables: gates.last, blocks, clauses }
}

struct Gates {
    last: Variable,
    clauses: Vec<Vec<i32>>,
}

impl Gates {
    /// The signed number that stands for a node.
    fn define(&mut self, node: &Node) -> i32 {
        match node {
            Node::Lit { positive: true, var } => signed(*var),
            Node::Lit { positive: false, var } => -signed(*var),
            Node::Op { kind, children } => self.operator(*kind, children),
        }
    }

    fn operator(&mut self, kind: Kind, children: &[Node]) -> i32 {
        self.last += 1;
        let gate = signed(self.last);
        let inputs: Vec<i32> = children.iter().map(|child| self.define(child)).collect();
        // An OR gate is the negation of an AND gate over the negated inputs.
        let sign = if kind == Kind::And { 1 } else { -1 };
        let mut all_inputs = vec![sign * gate];
        for input in inputs {
            self.clauses.push(vec![-sign * gate, sign * input]);
            all_inputs.push(-sign * input);
        }
        self.clauses.push(all_inputs);
        gate
    }
}

fn signed(var: Variable) -> i32 {
    i32::try_from(var).expect("a variable number of 32 bits")
}

/// A clause without repeated literals, or nothing for a tautology.
fn clean(mut clause: Vec<i32>) -> Option<Vec<i32>> {
    clause.sort_unstable_by_key(|literal| (literal.abs(), *literal));
    clause.dedup();
    let tautology = clause.windows(2).any(|pair| pair[0] == -pair[1]);
    (!tautology).then_some(clause)
}

fn blocks_of(prefix: &[Binding]) -> Vec<(Quantifier, Vec<Variable>)> {
    let mut blocks = Vec::new();
    for &(quantifier, var) in prefix {
        bind(&mut blocks, quantifier, var);
    }
    blocks
}

fn bind(blocks: &mut Vec<(Quantifier, Vec<Variable>)>, quantifier: Quantifier, var: Variable) {
    match blocks.last_mut() {
        Some((last, variables)) if *last == quantifier => variables.push(var),
        _ => blocks.push((quantifier, vec![var])),
    }
}

impl Qdimacs {
    /// Clauses as they stand, under a prefix that binds 1 to its length.
    pub fn of_clauses(prefix: &[Binding], clauses: Vec<Vec<i32>>) -> Qdimacs {
        Qdimacs { variables: prefix.len(), blocks: blocks_of(prefix), clauses }
    }

    /// The clause set that a formula is: AND of literals and of ORs of literals.
    pub fn of_formula(formula: &Formula) -> Option<Qdimacs> {
        let literal = |node: &Node| match node {
            Node::Lit { positive, var } => {
                Some(if *positive { signed(*var) } else { -signed(*var) })
            }
            Node::Op { .. } => None,
        };
        let clause = |node: &Node| match node {
            Node::Op { kind: Kind::Or, children } => children.iter().map(literal).collect(),
            node => literal(node).map(|literal| vec![literal]),
        };
        let Node::Op { kind: Kind::And, children } = &formula.matrix else {
            return None;
        };
        let clauses = children.iter().map(clause).collect::<Option<_>>()?;
        let variables = formula.highest_variable();
        Some(Qdimacs { variables, blocks: blocks_of(&formula.prefix), clauses })
    }

    pub fn text(&self) -> String {
        self.text_under(&self.blocks)
    }

    /// DIMACS, for solvers that know no quantifier: every variable is existential.
    pub fn dimacs(&self) -> String {
        self.text_under(&[])
    }

    fn text_under(&self, blocks: &[(Quantifier, Vec<Variable>)]) -> String {
        let mut text = format!("p cnf {} {}\n", self.variables, self.clauses.len());
        for (quantifier, variables) in blocks {
            text.push(if *quantifier == Quantifier::Exists { 'e' } else { 'a' });
            variables.iter().for_each(|var| text.push_str(&format!(" {var}")));
            text.push_str(" 0\n");
        }
        for clause in &self.clauses {
            clause.iter().for_each(|literal| text.push_str(&format!("{literal} ")));
            text.push_str("0\n");
        }
        text
    }

    /// Reads back what `text` writes: one list a line, no comments.
    pub fn read(text: &str) -> Option<Qdimacs> {
        let mut lines = text.lines();
        let header: Vec<&str> = lines.next()?.split_whitespace().collect();
        let ["p", "cnf", variables, count] = header[..] else {
            return None;
        };
        let mut set =
            Qdimacs { variables: variables.parse().ok()?, blocks: Vec::new(), clauses: Vec::new() };
        for line in lines {
            set.read_line(line)?;
        }
        (set.clauses.len() == count.parse().ok()?).then_some(set)
    }

    fn read_line(&mut self, line: &str) -> Option<()> {
        let list = line.strip_suffix('0')?;
        match line.as_bytes().first()? {
            b'e' => self.blocks.push((Quantifier::Exists, numbers(&list[1..])?)),
            b'a' => self.blocks.push((Quantifier::ForAll, numbers(&list[1..])?)),
            _ => self.clauses.push(numbers(list)?),
        }
        Some(())
    }

    /// Truth by trying values in prefix order; a falsified clause ends a branch.
    pub fn is_true(&self) -> bool {
        let mut prefix = Vec::new();
        for (quantifier, variables) in &self.blocks {
            prefix.extend(variables.iter().map(|&var| (*quantifier, var)));
        }
        self.holds(&prefix, &mut vec![None; self.variables + 1])
    }

    fn holds(&self, prefix: &[Binding], values: &mut [Option<bool>]) -> bool {
        if self.clauses.iter().any(|clause| falsified(clause, values)) {
            return false;
        }
        let Some((&(quantifier, var), rest)) = prefix.split_first() else {
            return true;
        };
        let mut under = |value| {
            values[var] = Some(value);
            let result = self.holds(rest, values);
            values[var] = None;
            result
        };
        match quantifier {
            Quantifier::Exists => under(false) || under(true),
            Quantifier::ForAll => under(false) && under(true),
        }
    }
}

fn numbers<T: std::str::FromStr>(list: &str) -> Option<Vec<T>> {
    list.split_whitespace().map(|word| word.parse().ok()).collect()
}

fn falsified(clause: &[i32], values: &[Option<bool>]) -> bool {
    let is_false = |literal: &i32| values[literal.unsigned_abs() as usize] == Some(*literal < 0);
    clause.iter().all(is_false)
}

#[cfg(test)]
mod tests {
    use super::*;
    use crate::generate::{self, Limits};
    use crate::reference::Format;
    use crate::truth;

    #[test]
    fn text_of_a_small_formula() {
        let matrix = Node::or(vec![Node::literal(2), Node::and(vec![])]);
        let formula = Formula { prefix: vec![(Quantifier::ForAll, 2)], matrix };
        let text = "p cnf 4 5\na 2 0\ne 3 4 0\n4 0\n-2 3 0\n3 -4 0\n2 -3 4 0\n3 0\n";
        assert_eq!(translate(&formula).text(), text);
    }

    #[test]
    fn a_lone_universal_literal_has_a_gate_inside() {
        let formula = Formula { prefix: vec![(Quantifier::ForAll, 1)], matrix: Node::literal(-1) };
        let set = translate(&formula);
        assert_eq!(set.blocks, [(Quantifier::ForAll, vec![1]), (Quantifier::Exists, vec![2])]);
        assert!(!set.is_true());
    }

    #[test]
    fn constants() {
        for value in [false, true] {
            let formula = Formula { prefix: vec![], matrix: Node::constant(value) };
            assert_eq!(translate(&formula).is_true(), value);
        }
    }

    #[test]
    fn clauses_are_cleaned() {
        assert_eq!(clean(vec![3, -1, 3, 2]), Some(vec![-1, 2, 3]));
        assert_eq!(clean(vec![3, -1, -3]), None);
        assert_eq!(clean(vec![]), Some(vec![]));
    }

    #[test]
    fn translation_keeps_truth() {
        let limits = Limits { format: Format::NARROW, variables: 6, nodes: 24 };
        let mut verdicts = [0; 2];
        generate::cases(3000, |rng| {
            let formula = generate::formula(rng, limits);
            let set = translate(&formula);
            let read = Qdimacs::read(&set.text()).expect("readable text");
            assert_eq!(read, set);
            assert!(matches!(read.blocks.last(), Some((Quantifier::Exists, _))));
            assert!(read.blocks.windows(2).all(|pair| pair[0].0 != pair[1].0));
            assert_eq!(read.is_true(), truth::is_true(&formula));
            verdicts[usize::from(read.is_true())] += 1;
        });
        assert!(verdicts.iter().all(|&count| count > 300), "{verdicts:?}");
    }
}
