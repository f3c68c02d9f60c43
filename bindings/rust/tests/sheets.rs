//! Sheets, built from rows and taken apart again, and their methods beside the operations on bytes.

use outside::generate::{self, Limits};
use outside::reference::Reading;
use plumanchor::{
    ClaimPart, Format, Kind, Operation, Quantifier, Reason, Row, Sheet, Step, Strategy,
};

fn reading(format: Format) -> Reading {
    match format {
        Format::Narrow => Reading::NARROW,
        Format::Wide => Reading::WIDE,
    }
}

/// Runs a test on seeded sheets of both formats.
fn sheets(count: u64, mut test: impl FnMut(Sheet)) {
    for format in Format::ALL {
        let limits = Limits { format: reading(format).format, variables: 8, nodes: 40 };
        generate::cases(count, |rng| {
            let bytes = generate::sheet(rng, limits);
            test(Sheet::new(format, bytes).expect("a good sheet"));
        });
    }
}

#[test]
fn rows_are_those_of_the_bytes() {
    sheets(2_000, |sheet| {
        let (prefix, nodes): (Vec<Row>, Vec<Row>) =
            (sheet.prefix().collect(), sheet.nodes().collect());
        assert_eq!((prefix.len(), nodes.len()), (sheet.sizes().variables, sheet.sizes().nodes));
        assert_eq!(Sheet::from_rows(sheet.format(), &prefix, &nodes).as_ref(), Ok(&sheet));
    });
}

/// A number that the format has no bytes for is refused, and not cut.
#[test]
fn numbers_are_not_cut() {
    for format in Format::ALL {
        let above = 1 << (8 * format.width());
        let exists = |x| Row::new(Kind::Exists, x);
        let literal = |x| Row::new(Kind::Positive, x);
        let refused = |prefix: &[Row], nodes: &[Row]| {
            Sheet::from_rows(format, prefix, nodes).unwrap_err().reason().expect("a reason")
        };
        assert!(Sheet::from_rows(format, &[exists(1)], &[literal(1)]).is_ok());
        assert_eq!(refused(&[exists(above + 1)], &[literal(1)]), Reason::BadNumber);
        assert_eq!(refused(&[exists(1)], &[literal(above + 1)]), Reason::Unbound);
        let operator = [Row::new(Kind::And, above + 1), literal(1)];
        assert_eq!(refused(&[exists(1)], &operator), Reason::NotOneTree);
        let many = vec![literal(1); format.most_nodes() + 1];
        assert_eq!(refused(&[exists(1)], &many), Reason::SizeOutside);
    }
}

/// A sheet's methods are the operations on its bytes, and what they write are sheets.
#[test]
fn methods_are_the_operations() {
    sheets(1_000, |sheet| {
        let (format, bytes) = (sheet.format(), sheet.bytes());
        let again = |made: &Sheet| Sheet::new(made.format(), made.bytes()).as_ref() == Ok(made);
        let tidy = sheet.tidy().expect("room");
        let mut output = vec![0; format.longest()];
        assert_eq!(format.tidy(bytes, &mut output), Ok(tidy.bytes().len()));
        assert_eq!(&output[..tidy.bytes().len()], tidy.bytes());
        assert!(again(&tidy));

        let (solved, reached) = sheet.reach().expect("room");
        let mut second = output.clone();
        assert_eq!(format.solve(bytes, &mut output, &mut second), Ok(solved));
        assert_eq!(&output[..reached.bytes().len()], reached.bytes());
        assert!(output[reached.bytes().len()..].iter().all(|&byte| byte == 0));
        assert!(again(&reached));
        assert_eq!(solved.verdict, Some(sheet.trial().expect("few variables").verdict));

        for x in sheet.prefix().map(|row| row.argument) {
            let steps = [Operation::Settle, Operation::Expand]
                .map(|operation| Step { operation, variable: x });
            let (_, answers) = tidy.steps(&steps[..1]).expect("room");
            assert_eq!(answers[0], tidy.settle(x).map(|settled| settled.into_bytes().len()));
            let (_, answers) = tidy.steps(&steps[1..]).expect("room");
            assert_eq!(answers[0], tidy.expand(x).map(|expanded| expanded.into_bytes().len()));
            let outer = tidy.outer(x).map(|copied| copied.sheet);
            for made in [tidy.settle(x), tidy.expand(x), outer, tidy.response(x)] {
                assert!(made.is_err() || made.is_ok_and(|made| again(&made)));
            }
        }
        let wide = sheet.convert(Format::Wide).expect("a wider sheet");
        assert_eq!(wide.convert(format).as_ref(), Ok(&sheet));
        assert!(sheet.compare(&wide).is_ok_and(|order| order.is_eq()));
    });
}

/// The winner's strategy is that of the reading from outside, is claimed to win, and rightly; it is
/// that of the winner alone.
#[test]
fn winners_win_their_claims() {
    let mut won = [0; 2];
    sheets(500, |sheet| {
        let format = sheet.format();
        let Strategy::Written { verdict, sheet: strategy, .. } = sheet.strategy().expect("room")
        else {
            panic!("a large buffer");
        };
        assert_eq!(Sheet::new(format, strategy.bytes()).as_ref(), Ok(&strategy));
        let [mut first, mut second, mut output] = [(); 3].map(|()| vec![0; format.longest()]);
        reading(format).strategy(sheet.bytes(), &mut first, &mut second, &mut output);
        assert_eq!(&output[..strategy.bytes().len()], strategy.bytes());
        let (winner, other) = if verdict {
            (Quantifier::Exists, Quantifier::ForAll)
        } else {
            (Quantifier::ForAll, Quantifier::Exists)
        };
        let claim = sheet.claim(winner, &strategy).expect("a strategy");
        assert_eq!(Sheet::new(format, claim.bytes()).as_ref(), Ok(&claim));
        assert_eq!(claim.trial().expect("few variables").verdict, verdict);
        won[usize::from(verdict)] += 1;

        let wide = strategy.convert(Format::Wide).expect("a wider sheet");
        assert_eq!(sheet.claim(winner, &wide), Ok(claim));
        let at = |refused: Result<Sheet, plumanchor::ClaimRefusal>| refused.unwrap_err().at;
        if sheet.sizes().variables > 0 {
            assert_eq!(at(sheet.claim(other, &strategy)), ClaimPart::Strategy);
        }
        assert_eq!(at(sheet.clone().with_room(3).claim(winner, &strategy)), ClaimPart::Output);
    });
    assert!(won.iter().all(|&count| count > 100), "{won:?}");
}
