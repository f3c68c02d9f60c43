//! Sort and Compare against the independent reading (N14): answers and every
//! byte of the buffers, rearranged sheets, and three sheets at a time.

use differential::compare::cases;
use differential::{Library, LIBRARIES};
use outside::generate::{self, Limits, Rng};
use outside::reference::{Answer, CompareAnswer, Formula, Node};
use outside::with_deep_stack;
use std::cmp::Ordering::{self, Equal};

fn agree_on_sort(rng: &mut Rng, library: &Library, sheet: &[u8]) {
    let room = generate::length_around(rng, library.reading.format, sheet.len());
    let (answer, output) = library.agree_on_sort(sheet, &generate::dirty(rng, room));
    if let Answer::Accepted(length) = answer {
        let sorted = &output[..length];
        let (_, again) = library.agree_on_sort(sorted, &generate::dirty(rng, length));
        assert_eq!(again, sorted, "sorted twice");
    }
}

/// The same tree with the children of every operator in any order.
fn rearranged(rng: &mut Rng, node: &Node) -> Node {
    match node {
        Node::Lit { .. } => node.clone(),
        Node::Op { kind, children } => {
            let mut children: Vec<Node> = children.iter().map(|c| rearranged(rng, c)).collect();
            rng.shuffle(&mut children);
            Node::Op { kind: *kind, children }
        }
    }
}

fn compared(rng: &mut Rng, library: &Library, a: &[u8], b: &[u8]) -> CompareAnswer {
    let format = library.reading.format;
    let rooms = [a, b].map(|sheet| generate::length_around(rng, format, sheet.len()));
    let [first, second] = rooms.map(|room| generate::dirty(rng, room));
    library.agree_on_compare(a, b, [&first, &second])
}

/// With buffers that hold the sheets.
fn order(rng: &mut Rng, library: &Library, a: &[u8], b: &[u8]) -> Ordering {
    let [first, second] = [a, b].map(|sheet| generate::dirty(rng, sheet.len()));
    match library.agree_on_compare(a, b, [&first, &second]) {
        CompareAnswer::Ordered(ordering) => ordering,
        refused => panic!("{refused:?} of two sheets"),
    }
}

#[test]
fn sort_on_small_sheets() {
    cases(8_000, |library, rng| {
        let format = library.reading.format;
        let sheet = generate::sheet(rng, Limits::small(format));
        agree_on_sort(rng, library, &sheet);
        let damaged = generate::damage(rng, format, &sheet);
        agree_on_sort(rng, library, &damaged);
    });
}

#[test]
fn sort_on_large_sheets() {
    with_deep_stack(|| {
        let mut rng = Rng::new(generate::run_seed());
        for library in &LIBRARIES {
            for limit in generate::limit_sheets(library.reading.format) {
                agree_on_sort(&mut rng, library, &limit.sheet);
            }
        }
        cases(60, |library, rng| {
            let format = library.reading.format;
            for limits in [Limits::medium(format), Limits::full(format)] {
                let sheet = generate::sheet(rng, limits);
                agree_on_sort(rng, library, &sheet);
            }
        });
    });
}

/// Equal to itself with the children in another order, and both have one sorted
/// sheet.
#[test]
fn rearranged_sheets_are_equal() {
    cases(6_000, |library, rng| {
        let format = library.reading.format;
        let formula = generate::formula(rng, Limits::small(format));
        let matrix = rearranged(rng, &formula.matrix);
        let other = Formula { prefix: formula.prefix.clone(), matrix };
        let [a, b] = [&formula, &other].map(|f| format.encode(f));
        assert_eq!(order(rng, library, &a, &b), Equal);
        let (_, first) = library.agree_on_sort(&a, &generate::dirty(rng, a.len()));
        let (_, second) = library.agree_on_sort(&b, &generate::dirty(rng, b.len()));
        assert_eq!(first, second);
    });
}

/// Refused sheets and short buffers too; any pair, and both directions.
#[test]
fn compare_on_any_two_sheets() {
    let mut seen = [0; 3];
    cases(8_000, |library, rng| {
        let format = library.reading.format;
        let [a, b] = [(); 2].map(|_| {
            let sheet = generate::sheet(rng, Limits::small(format));
            if rng.one_in(6) {
                generate::damage(rng, format, &sheet)
            } else {
                sheet
            }
        });
        match compared(rng, library, &a, &b) {
            CompareAnswer::Refused(which, ..) => seen[usize::from(which)] += 1,
            CompareAnswer::Ordered(ordering) => {
                seen[0] += 1;
                assert_eq!(order(rng, library, &b, &a), ordering.reverse());
            }
        }
    });
    assert!(seen.iter().all(|&times| 0 < times), "{seen:?}");
}

#[test]
fn three_sheets_at_a_time() {
    cases(4_000, |library, rng| {
        let format = library.reading.format;
        let mut sheets = [(); 3].map(|_| generate::sheet(rng, Limits::small(format)));
        sheets.sort_by(|a, b| order(&mut Rng::new(1), library, a, b));
        let [a, b, c] = &sheets;
        let steps = [order(rng, library, a, b), order(rng, library, b, c)];
        let whole = order(rng, library, a, c);
        assert!(whole.is_le() && steps.iter().all(|step| step.is_le()));
        assert_eq!(whole == Equal, steps == [Equal, Equal]);
    });
}
