//! Equal siblings (N4) against the independent reading: pasted guards, nested
//! copies, copies that are equal only once they are tidied, copies in another
//! order, and the shapes that a comparison of every pair would be slow on.

use differential::compare::{cases, hexadecimal};
use differential::{Library, LIBRARIES};
use outside::formulas::{all, clause, formula};
use outside::generate::{self, dirty, length_around, Family, Limits, Rng};
use outside::reference::*;
use outside::with_deep_stack;
use Quantifier::{Exists, ForAll};

/// Every operation that tidies or asks for a tidy sheet.
fn agree(rng: &mut Rng, library: &Library, formula: &Formula) {
    let format = library.reading.format;
    let sheet = format.encode(formula);
    let room = length_around(rng, format, sheet.len());
    let tidied = library.agree_on_tidy(&sheet, &dirty(rng, room));
    if let Some(again) = tidied.sheet() {
        let output = library.agree_on_tidy(again, &vec![165; again.len()]);
        assert!(output.output() == again, "tidied twice: {}", hexadecimal(&sheet));
        let held = format.parse(again).expect("a good sheet");
        let call = generate::call(rng, &library.reading, &held);
        library.agree_on_call(again, call, &dirty(rng, call.room));
    }
    let call = generate::call(rng, &library.reading, formula);
    library.agree_on_call(&sheet, call, &dirty(rng, call.room));
    library.agree_on_reduce(&sheet, &dirty(rng, sheet.len()));
}

#[test]
fn pasted_guards() {
    cases(20_000, |library, rng| {
        let limits = Limits::small(library.reading.format);
        let formula = generate::formula_of(rng, Family::Pasted, limits);
        agree(rng, library, &formula);
    });
    cases(300, |library, rng| {
        for limits in [Limits::medium(library.reading.format), Limits::full(library.reading.format)]
        {
            let formula = generate::formula_of(rng, Family::Pasted, limits);
            agree(rng, library, &formula);
        }
    });
}

/// AND of as many guards as the format holds: all equal, none equal, with long
/// common beginnings, and of two kinds by turns.
#[test]
fn many_siblings() {
    for library in &LIBRARIES {
        let Format { most_variables, most_nodes, .. } = library.reading.format;
        let long: Vec<i32> = (1..=100).collect();
        let last = |at: usize| 101 + (at % (most_variables - 101)) as i32;
        let guards: [&dyn Fn(usize) -> Node; 5] = [
            &|_| clause(&[1, 2]),
            &|at| clause(&[1 + (at / 100) as i32, -101 - (at % 100) as i32]),
            &|at| clause(&[&long[..], &[last(at)]].concat()),
            &|at| clause(if at % 2 == 0 { &[1, 2] } else { &[2, 1] }),
            &|at| {
                Node::or(vec![
                    Node::literal(3),
                    Node::and(vec![clause(&[1, 2]), clause(&[1, last(at)])]),
                ])
            },
        ];
        for guard in guards {
            let count = (most_nodes - 1) / guard(0).rows();
            let matrix = Node::and((0..count).map(guard).collect());
            for quantifier in [Exists, ForAll] {
                let given = formula(&all(quantifier, most_variables), matrix.clone());
                agree(&mut Rng::new(generate::run_seed()), library, &given);
            }
        }
    }
}

/// The same guard at each level of a deep tree: beside itself, and alone.
#[test]
fn deep_copies() {
    with_deep_stack(|| {
        for library in &LIBRARIES {
            let most = library.reading.format.most_nodes;
            for copies in [1, 2] {
                let mut node = clause(&[1, 2]);
                let mut kind = Kind::And;
                while node.rows() + 1 + 3 * copies <= most {
                    let guard = Node::Op {
                        kind: kind.other(),
                        children: clause(&[3, 4]).children().to_vec(),
                    };
                    let mut children = vec![guard; copies];
                    children.push(node);
                    node = Node::Op { kind, children };
                    kind = kind.other();
                }
                let given = formula(&all(Exists, 4), node);
                agree(&mut Rng::new(generate::run_seed()), library, &given);
            }
        }
    });
}
