//! Reduce against the independent reading, at both formats: answers and every
//! byte of the output, over clause sets, trees next to the profile, untidy and
//! damaged sheets, and outputs around the sheet's length.

use differential::compare::{cases, hexadecimal, limit_sheets};
use differential::Library;
use outside::generate::{self, Limits, Rng};
use outside::literature::LITERATURE;
use outside::reference::{Answer, Formula};
use outside::{depqbf, truth, with_deep_stack};

/// One call with an output about as long as the sheet. Accepted, the sheet
/// written is as true, and reducing it again changes nothing.
fn agree_around(rng: &mut Rng, library: &Library, sheet: &[u8]) -> Answer<usize> {
    let room = generate::length_around(rng, library.reading.format, sheet.len());
    let outcome = library.agree_on_reduce(sheet, &generate::dirty(rng, room));
    if let Some(reduced) = outcome.sheet() {
        let again = library.agree_on_reduce(reduced, &generate::dirty(rng, reduced.len()));
        assert!(again.sheet() == Some(reduced), "reduced twice: {}", hexadecimal(sheet));
    }
    outcome.answer
}

fn keeps_truth(library: &Library, formula: &Formula) {
    let format = library.reading.format;
    let sheet = format.encode(formula);
    let outcome = library.agree_on_reduce(&sheet, &vec![7; sheet.len()]);
    let reduced = format.parse(outcome.sheet().expect("clauses")).expect("a sheet");
    assert_eq!(truth::is_true(&reduced), truth::is_true(formula), "{}", hexadecimal(&sheet));
}

#[test]
fn small_sheets() {
    let mut seen = [0; 21];
    cases(6_000, |library, rng| {
        let format = library.reading.format;
        let limits = Limits::small(format);
        let clauses = generate::clause_formula(rng, limits);
        let near = generate::near_miss(rng, &clauses);
        let any = generate::formula(rng, limits);
        for formula in [Some(&clauses), near.as_ref(), Some(&any)].into_iter().flatten() {
            let sheet = format.encode(formula);
            let damaged = generate::damage(rng, format, &sheet);
            for sheet in [sheet, damaged] {
                seen[agree_around(rng, library, &sheet).number()] += 1;
            }
        }
        keeps_truth(library, &clauses);
    });
    let refusals = [0, 1, 2, 3, 4, 5, 6, 7, 8, 9, 13, 20];
    assert!(refusals.iter().all(|&number| seen[number] > 200), "{seen:?}");
}

#[test]
fn large_sheets() {
    with_deep_stack(|| {
        cases(120, |library, rng| {
            let format = library.reading.format;
            for limits in [Limits::medium(format), Limits::full(format)] {
                let clauses = generate::clause_formula(rng, limits);
                agree_around(rng, library, &format.encode(&clauses));
                let tidy = generate::tidy_formula(rng, limits);
                agree_around(rng, library, &format.encode(&tidy));
            }
        });
    });
}

/// The sheets at and past each limit.
#[test]
fn sheets_at_the_limits() {
    with_deep_stack(|| {
        let mut rng = Rng::new(generate::run_seed());
        limit_sheets(|library, sheet| {
            agree_around(&mut rng, library, sheet);
        });
    });
}

/// Families from the literature, some tidied first: their verdict is that of the
/// reduced sheet too, as far as a solver from outside decides it.
#[test]
fn families_from_the_literature() {
    let (mut reduced, mut decided) = (0, 0);
    for library in &differential::LIBRARIES {
        let format = library.reading.format;
        for family in &LITERATURE {
            for n in 1..5 {
                let formula = library.reading.rules.tidy_formula(&family.formula(n));
                let sheet = format.encode(&formula);
                let outcome = library.agree_on_reduce(&sheet, &vec![7; sheet.len()]);
                let Some(written) = outcome.sheet() else {
                    continue;
                };
                reduced += usize::from(written.len() < sheet.len());
                let left = format.parse(written).expect("a sheet");
                if let Some(verdict) = depqbf::verdict(&left) {
                    assert_eq!(verdict, family.verdict, "{} {n}", family.name);
                    decided += 1;
                }
            }
        }
    }
    println!("{reduced} shorter, {decided} decided");
    assert!(decided > 20, "{decided} decided");
}
