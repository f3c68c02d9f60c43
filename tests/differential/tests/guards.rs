//! Guards against the independent reading; on small sheets what is kept is
//! judged by brute force.

use differential::{Library, LIBRARIES};
use outside::formulas::tried_by_hand;
use outside::generate::{self, cases, damage, dirty, Limits, Rng};
use outside::reference::*;
use outside::truth;

/// AND of a few random clauses and subtrees over few variables: often false.
fn guards_formula(rng: &mut Rng, format: Format) -> Formula {
    let mut formula = generate::formula(rng, Limits::small(format));
    if rng.one_in(8) {
        return formula;
    }
    let bound = formula.variables();
    let mut children = match rng.below(3) {
        0 => formula.matrix.children().to_vec(),
        1 => vec![formula.matrix.clone()],
        _ => Vec::new(),
    };
    for _ in 0..rng.below(9) {
        let literal = |rng: &mut Rng| match bound.as_slice() {
            [] => Node::constant(rng.one_in(2)),
            bound => Node::Lit { positive: rng.one_in(2), var: rng.pick(bound) },
        };
        let literals = (0..rng.between(1, 3)).map(|_| literal(rng)).collect();
        children.push(Node::or(literals));
    }
    rng.shuffle(&mut children);
    formula.matrix = Node::and(children);
    formula
}

/// False, and true without any one child where no run stopped.
fn judge(library: &Library, formula: &Formula, sheet: &[u8], stops: usize) {
    let kept = library.reading.format.parse(sheet).expect("the sheet written is a good one");
    assert_eq!(kept.prefix, formula.prefix);
    assert!(!truth::is_true(&kept));
    let children = kept.matrix.children();
    for at in 0..children.len() {
        let mut others = children.to_vec();
        others.remove(at);
        let less = Formula { prefix: kept.prefix.clone(), matrix: Node::and(others) };
        assert!(stops > 0 || truth::is_true(&less), "a child that isn't needed");
    }
}

/// Buffers as long as the sheet and a little more, so that some runs stop.
fn rooms(rng: &mut Rng, length: usize) -> [usize; 3] {
    let around = |rng: &mut Rng| length + rng.pick(&[0, 0, 3, 9, 30, 200, 2000]);
    let work = around(rng);
    [length + rng.below(5), work, work + rng.below(3)]
}

#[test]
fn random_sheets_and_what_is_kept() {
    let (mut kept, mut stopped_within, mut stopped, mut held) = (0, 0, 0, 0);
    for library in &LIBRARIES {
        let format = library.reading.format;
        cases(6_000, |rng| {
            let formula = guards_formula(rng, format);
            let sheet = format.encode(&formula);
            let before = rooms(rng, sheet.len()).map(|room| dirty(rng, room));
            let (answer, [output, first, second]) = library.agree_on_guards(&sheet, before);
            match answer {
                GuardsAnswer::Kept { length, stops } => {
                    judge(library, &formula, &output[..length], stops);
                    kept += 1;
                    stopped_within += usize::from(stops > 0);
                }
                GuardsAnswer::Stopped { .. } => stopped += 1,
                GuardsAnswer::True { .. } => held += 1,
                GuardsAnswer::Refused(number, _) => return assert_eq!(number, 23),
            }
            assert!(first.iter().chain(&second).all(|&byte| byte == 0));
        });
    }
    assert!(kept > 1_000 && stopped_within > 20, "{kept} {stopped_within}");
    assert!(stopped > 20 && held > 500, "{stopped} {held}");
}

#[test]
fn buffers_around_the_limit_and_damaged_sheets() {
    for library in &LIBRARIES {
        let format = library.reading.format;
        cases(2_000, |rng| {
            let whole = format.encode(&guards_formula(rng, format));
            let sheet = if rng.one_in(2) { damage(rng, format, &whole) } else { whole };
            for short in 0..4 {
                let room = |at: usize| sheet.len().saturating_sub(usize::from(short == at));
                let before = [room(1), room(2), room(3)].map(|room| dirty(rng, room));
                let (answer, left) = library.agree_on_guards(&sheet, before.clone());
                if let GuardsAnswer::Refused(..) = answer {
                    assert_eq!(left, before);
                }
            }
        });
    }
}

#[test]
fn the_formulas_tried_by_hand() {
    for library in &LIBRARIES {
        let format = library.reading.format;
        for (formula, _) in tried_by_hand() {
            let sheet = format.encode(&formula);
            for room in [sheet.len(), format.longest_sheet()] {
                library.agree_on_guards(&sheet, [(); 3].map(|()| vec![165; room]));
            }
        }
    }
}
