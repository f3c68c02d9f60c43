//! Carrying over and bringing back against the independent reading: over and
//! back restores the bytes, outputs of any contents and of every length around
//! the limit, damaged sheets, and wide sheets at and past the narrow limits.

use differential::compare::hexadecimal;
use differential::{NARROW, WIDE};
use outside::generate::{self, cases, damage, limit_sheets, Limits, Rng};
use outside::reference::{Answer, Format};
use outside::with_deep_stack;

/// Carries a narrow sheet over and back, with outputs that just suffice, and
/// solves both: the same answer.
fn comes_back(rng: &mut Rng, sheet: &[u8]) {
    let (v, n) = Format::NARROW.sizes(sheet).expect("a good sheet");
    let room = Format::WIDE.sheet_length(v, n);
    let over = WIDE.agree_on_carry(sheet, &generate::dirty(rng, room));
    assert_eq!(over.answer, Answer::Accepted(room), "{}", hexadecimal(sheet));
    let back = NARROW.agree_on_carry(over.output(), &generate::dirty(rng, sheet.len()));
    assert!(back.output() == sheet, "{}", hexadecimal(sheet));
    assert_eq!(WIDE.check(over.output()), Ok((v, n)));
}

#[test]
fn over_and_back_restores_the_bytes() {
    cases(5_000, |rng| {
        let sheet = generate::sheet(rng, Limits::small(Format::NARROW));
        comes_back(rng, &sheet);
        let wide = generate::sheet(rng, Limits { format: Format::WIDE, variables: 8, nodes: 40 });
        let room = generate::length_around(rng, Format::NARROW, wide.len() / 5 * 3);
        NARROW.agree_on_carry(&wide, &generate::dirty(rng, room));
    });
    with_deep_stack(|| {
        cases(100, |rng| {
            let sheet = generate::sheet(rng, Limits::full(Format::NARROW));
            comes_back(rng, &sheet);
        });
        let mut rng = Rng::new(generate::run_seed());
        for limit in limit_sheets(Format::NARROW) {
            if limit.refusal == 0 {
                comes_back(&mut rng, &limit.sheet);
            }
        }
    });
}

/// Every length from none to some bytes more than the other sheet has.
#[test]
fn every_length_around_the_limit() {
    cases(300, |rng| {
        let sheet = generate::sheet(rng, Limits { format: Format::NARROW, variables: 3, nodes: 9 });
        let (v, n) = Format::NARROW.sizes(&sheet).expect("a good sheet");
        let wide = Format::WIDE.encode(&Format::NARROW.parse(&sheet).expect("a good sheet"));
        for room in 0..wide.len() + 9 {
            let over = WIDE.agree_on_carry(&sheet, &generate::dirty(rng, room));
            assert_eq!(over.sheet().is_some(), room >= Format::WIDE.sheet_length(v, n));
            let back = NARROW.agree_on_carry(&wide, &generate::dirty(rng, room));
            assert_eq!(back.sheet().is_some(), room >= sheet.len());
        }
    });
}

/// Damaged sheets, of either format, taken for either.
#[test]
fn refusals_of_both_formats() {
    let mut seen = [[0; 25]; 2];
    cases(20_000, |rng| {
        for (to, from) in [(&WIDE, Format::NARROW), (&NARROW, Format::WIDE)] {
            let whole = generate::sheet(rng, Limits::small(from));
            let sheet = if rng.one_in(3) { whole } else { damage(rng, from, &whole) };
            let exact = sheet.len() / from.bytes_to_a_row() * to.reading.format.bytes_to_a_row();
            let room = generate::length_around(rng, to.reading.format, exact);
            let outcome = to.agree_on_carry(&sheet, &generate::dirty(rng, room));
            seen[usize::from(from == Format::WIDE)][outcome.answer.number()] += 1;
        }
    });
    for counts in &seen {
        for number in [0, 1, 2, 3, 4, 5, 6, 7, 8, 13] {
            assert!(counts[number] > 100, "{counts:?}");
        }
    }
    assert!(seen[1][24] > 100, "{:?}", seen[1]);
}

/// Wide sheets with 256 and 257 variables, 4,096 and 4,097 nodes, numbers 256
/// and 257; 24 comes after 8 and before 13.
#[test]
fn at_and_past_the_narrow_limits() {
    with_deep_stack(|| {
        let mut rng = Rng::new(generate::run_seed());
        let wide = Format::WIDE;
        let mut agree = |sheet: &[u8], number: usize| {
            for room in [0, Format::NARROW.longest_sheet(), wide.longest_sheet()] {
                let outcome = NARROW.agree_on_carry(sheet, &generate::dirty(&mut rng, room));
                let expected = if number == 0 && room == 0 { 13 } else { number };
                assert_eq!(outcome.answer.number(), expected, "{}", hexadecimal(sheet));
            }
        };
        for (v, number) in [(0, 0), (256, 0), (257, 24), (1024, 24), (1025, 2)] {
            agree(&wide.encode(&generate::with_variables(v)), number);
        }
        for (n, number) in [(1, 0), (4096, 0), (4097, 24), (8192, 24), (8193, 2)] {
            agree(&wide.encode(&generate::wide_formula(n)), number);
            agree(&wide.encode(&generate::deep_formula(1, n)), number);
        }
        for (x, number) in [(1, 0), (256, 0), (257, 24), (1024, 24), (1025, 5)] {
            agree(&wide.sheet_of(1, &[(1, x), (3, x)]), number);
            agree(&wide.sheet_of(1, &[(2, x), (5, 0)]), number);
            // A bad row behind is told first.
            agree(&wide.sheet_of(1, &[(1, x), (5, 1), (7, x)]), if x > 1024 { 5 } else { 4 });
            agree(&wide.sheet_of(1, &[(1, x), (5, 2), (3, x)]), if x > 1024 { 5 } else { 8 });
        }
        for limit in limit_sheets(wide) {
            let outcome =
                NARROW.agree_on_carry(&limit.sheet, &generate::dirty(&mut Rng::new(7), 60_000));
            let told = outcome.answer.number();
            assert!(told == usize::from(limit.refusal) || told == 24, "{}", limit.name);
        }
    });
}
