//! QDIMACS in, as the independent reading has it: every point by hand, texts
//! spelled in many ways, damaged ones, and verdicts of a solver that reads the
//! same text.

use outside::depqbf;
use outside::formulas::{and, clause, formula};
use outside::generate::{cases, clause_set, damage_text, dirty, qdimacs_text, Limits};
use outside::qdimacs::Qdimacs;
use outside::reference::*;
use outside::truth;
use Quantifier::{Exists, ForAll};

const READINGS: [Reading; 2] = [Reading::NARROW, Reading::WIDE];

/// The formula that is read, or the number of the refusal; refused, no byte of
/// the output changes, and else zeros stand behind the sheet.
fn read(reading: Reading, text: &[u8]) -> Result<Formula, u8> {
    let mut output = vec![0xa5; reading.format.longest_sheet() + 7];
    match reading.qdimacs(text, &mut output) {
        Answer::Refused(number, place) => {
            assert_eq!(place, 0);
            assert!(output.iter().all(|&byte| byte == 0xa5));
            Err(number)
        }
        Answer::Accepted(length) => {
            assert!(output[length..].iter().all(|&byte| byte == 0));
            Ok(reading.format.parse(&output[..length]).expect("what is read is a good sheet"))
        }
    }
}

fn refused(text: &str) -> Option<u8> {
    let [narrow, wide] = READINGS.map(|reading| read(reading, text.as_bytes()).err());
    assert_eq!(narrow, wide, "{text:?}");
    narrow
}

/// Both formats read the text as this.
fn reads(text: &str, prefix: &[Binding], clauses: &[&[i32]]) {
    let wanted = formula(prefix, and(clauses.iter().map(|literals| clause(literals)).collect()));
    for reading in READINGS {
        assert_eq!(read(reading, text.as_bytes()), Ok(wanted.clone()), "{text:?}");
    }
}

#[test]
fn the_header() {
    for text in [
        "p cnf 2 1\n1 2 0\n",
        "c\n\nc p cnf 9 9\n \t\r\np cnf 2 1\n1 2 0\n",
        "cnf is a comment too\np cnf 2 1\n1 2 0\n",
        " \tp\r cnf\t 2  1 \r\n1 2 0\n",
        "p cnf 0002 00000000000000000000000000001\n1 2 0",
        "p cnf 256 1\n1 2 0\n",
    ] {
        reads(text, &[(Exists, 1), (Exists, 2)], &[&[1, 2]]);
    }
    reads("p cnf 0 0", &[], &[]);
    reads("p cnf 7 0\n\n", &[], &[]);
    for text in [
        "",
        "\n",
        "c",
        "c p cnf 0 0",
        "x\np cnf 0 0\n",
        " c\np cnf 0 0\n",
        "p\ncnf 0 0\n",
        "p cnf 0\n0\n",
        "p cnf 0 0 0\n",
        "p cnf 0 0 c\n",
        "p cnf +0 0\n",
        "p cnf -0 0\n",
        "p cnf 0 -0\n",
        "p cnf 1 -1\n1 0\n",
        "p cnf 0x 0\n",
        "p dnf 0 0\n",
        "P cnf 0 0\n",
        "pcnf 0 0\n",
        "p cnf 1025 0\n",
        "p cnf 99999999999999999999999999 0\n",
        "p cnf\x0b0 0\n",
        "1 0\n",
        // 15 is tested before all else.
        "p cnf 1 1 1\n+1 7",
    ] {
        assert_eq!(refused(text), Some(15), "{text:?}");
    }
}

#[test]
fn the_most_variables() {
    for (variables, narrow, wide) in [
        (256, None, None),
        (257, Some(15), None),
        (1024, Some(15), None),
        (1025, Some(15), Some(15)),
    ] {
        let text = format!("p cnf {variables} 1\n{variables} 0\n");
        assert_eq!(read(Reading::NARROW, text.as_bytes()).err(), narrow);
        assert_eq!(read(Reading::WIDE, text.as_bytes()).err(), wide);
    }
}

#[test]
fn words_and_lists() {
    let same: [&str; 8] = [
        "p cnf 3 2\na 1 0\ne 2 3 0\n1 -2 0\n3 0\n",
        "p cnf 3 2\na 1 0 e 2 3 0 1 -2 0 3 0",
        "p cnf 3 2\na\n1\n0\ne\n2\n3\n0\n1\n-2\n0\n3\n0\n",
        "p cnf 3 2\r\na\t1\r0 e 2\n\n3 0\r\n1 -2\n0 3 0\r\n",
        "p cnf 3 2\na 01 0\ne 0002 3 00\n001 -02 000\n3 0\n",
        "p cnf 3 2\na 1 0\ne 2 0\ne 3 0\n1 -2 0\n3 0\n",
        "p cnf 3 2\ne 0\na 0\na 1 0\na 0\ne 2 3 0\ne 0\n1 -2 0\n3 0\n",
        "p cnf 99 2\n\n\n   a 1 0 e 2 3 0 1 -2 0 3 0    \n\n",
    ];
    for text in same {
        reads(text, &[(ForAll, 1), (Exists, 2), (Exists, 3)], &[&[1, -2], &[3]]);
    }
    // A lone 0 is an empty clause; clauses stay as they are.
    reads("p cnf 1 4\n0 1 0 0 1 -1 1 0", &[(Exists, 1)], &[&[], &[1], &[], &[1, -1, 1]]);
    // Free variables stand in front, by number.
    reads(
        "p cnf 9 2\na 4 0\ne 3 0\n-9 3 2 0\n7 4 9 0\n",
        &[(Exists, 2), (Exists, 7), (Exists, 9), (ForAll, 4), (Exists, 3)],
        &[&[-9, 3, 2], &[7, 4, 9]],
    );
    // A variable that is bound and doesn't occur keeps its row.
    reads("p cnf 2 0\na 2 0\n", &[(ForAll, 2)], &[]);
}

#[test]
fn what_is_no_list() {
    for below in [
        "-0",
        "-00 0",
        "+1 0",
        "1x 0",
        "x",
        "1 0 x",
        "- 0",
        "--1 0",
        "1- 0",
        "1",
        "1 0 2",
        "e",
        "e 1",
        "a 1 2",
        "e 1 0 a",
        "c 0",
        "1 0\nc a comment\n2 0",
        "c\n1 0",
        "e 1 e 2 0",
        "e -1 0",
        "a 1 -2 0",
        "1 e 2 0",
        "1 0 e 2 0",
        "0 a 1 0",
        "1 0 a 0",
        "e1 0",
        "1 2\x0b0",
        "1\x0c0",
        "1 0\0",
        "e 1 0 p 0",
        "1.0 0",
        "0x1 0",
        "\u{660} 0",
        "1e0 0",
        // 16 anywhere is tested before 17 and 6.
        "9 0 1",
        "e 9 0 e -1 0",
        "e 1 1 0 +1 0",
        "1 0 1 0 1 0 x",
        "99999999999999999999 0 -0",
    ] {
        let text = format!("p cnf 2 1\n{below}");
        assert_eq!(refused(&text), Some(16), "{text:?}");
    }
}

#[test]
fn what_is_out_of_range() {
    for below in [
        "3 0",
        "-3 0",
        "e 3 0 1 0",
        "a 0003 0 1 0",
        "2147483647 0",
        "2147483648 0",
        "-2147483648 0",
        "-2147483649 0",
        "4294967297 0",
        "-4294967295 0",
        "18446744073709551617 0",
        "-18446744073709551617 0",
        "340282366920938463463374607431768211457 0",
        // Not as many clauses as the header says.
        "",
        "e 1 0",
        "1 0 2 0",
        "0 0",
        // 17 is tested before 6.
        "e 1 1 0",
        "e 1 1 0 3 0",
    ] {
        let text = format!("p cnf 2 1\n{below}");
        assert_eq!(refused(&text), Some(17), "{text:?}");
    }
    let long = format!("p cnf 2 1\n{} 0", "7".repeat(100_000));
    assert_eq!(refused(&long), Some(17));
    let zeros = format!("p cnf 2 1\n{}2 0", "0".repeat(100_000));
    reads(&zeros, &[(Exists, 2)], &[&[2]]);
    // A clause count of any size is taken by the header.
    for count in ["2", "4294967297", "18446744073709551617", "99999999999999999999999999999"] {
        assert_eq!(refused(&format!("p cnf 2 {count}\n1 0\n")), Some(17));
        assert_eq!(refused(&format!("p cnf 2 {count}\n1\n")), Some(16));
    }
}

#[test]
fn bound_twice() {
    for lists in ["e 1 1 0", "a 1 0 e 1 0", "e 1 0 a 2 0 e 01 0", "e 2 1 2 0"] {
        assert_eq!(refused(&format!("p cnf 2 1\n{lists}\n1 0\n")), Some(6), "{lists}");
    }
}

/// Clauses of one literal, and one of none where an odd number of nodes is left.
fn text_of_nodes(nodes: usize) -> String {
    let (units, odd) = ((nodes - 1) / 2, (nodes - 1) % 2);
    format!("p cnf 1 {}\ne 1 0\n{}{}", units + odd, "1 0 ".repeat(units), "0 ".repeat(odd))
}

#[test]
fn the_most_nodes_and_the_least_output() {
    for reading in READINGS {
        let most = reading.format.most_nodes;
        for (nodes, number) in [
            (1, None),
            (2, None),
            (most - 1, None),
            (most, None),
            (most + 1, Some(2)),
            (3 * most, Some(2)),
        ] {
            let text = text_of_nodes(nodes);
            assert_eq!(read(reading, text.as_bytes()).err(), number, "{nodes}");
            // 6 is tested before 2, and 2 before 13.
            let twice = text.replacen("e 1 0", "e 1 1 0", 1);
            assert_eq!(read(reading, twice.as_bytes()).err(), Some(6));
            let exact = reading.format.sheet_length(1, nodes);
            for (room, enough) in [(0, false), (exact - 1, false), (exact, true), (exact + 1, true)]
            {
                let wanted = number.or((!enough).then_some(13));
                let mut output = vec![7; room];
                let answer = reading.qdimacs(text.as_bytes(), &mut output);
                assert_eq!(answer.number(), wanted.map_or(0, usize::from));
                assert!(wanted.is_none() || output.iter().all(|&byte| byte == 7));
            }
        }
    }
}

#[test]
fn long_texts_are_read_whole() {
    let comments = "c a comment of some length, again and again\n".repeat(50_000);
    let blanks = " \t\r\n".repeat(500_000);
    let text = format!("{comments}{blanks}p cnf 1 1\n{blanks}1{blanks}0{blanks}");
    reads(&text, &[(Exists, 1)], &[&[1]]);
    assert_eq!(refused(&format!("{text}x")), Some(16));
    assert_eq!(refused(&comments), Some(15));
    let lines = text_of_nodes(200_001);
    assert_eq!(refused(&lines), Some(2));
}

#[test]
fn every_spelling_is_read_as_its_formula() {
    for reading in READINGS {
        let format = reading.format;
        for limits in [Limits::small(format), Limits::medium(format)] {
            cases(2_000, |rng| {
                let formula = clause_set(rng, limits);
                let text = qdimacs_text(rng, limits, &formula);
                let shown = String::from_utf8_lossy(&text);
                assert_eq!(read(reading, &text).as_ref(), Ok(&formula), "{shown:?}");
                let printed = Qdimacs::of_formula(&formula).expect("a clause set").text();
                assert_eq!(read(reading, printed.as_bytes()), Ok(formula), "{printed}");
            });
        }
    }
}

#[test]
fn damaged_texts() {
    let mut numbers = [0; 18];
    for reading in READINGS {
        let limits = Limits::small(reading.format);
        cases(20_000, |rng| {
            let formula = clause_set(rng, limits);
            let whole = qdimacs_text(rng, limits, &formula);
            let text = damage_text(rng, &whole);
            let room = rng.below(300);
            let before = dirty(rng, room);
            let mut output = before.clone();
            let answer = reading.qdimacs(&text, &mut output);
            numbers[answer.number()] += 1;
            match answer {
                Answer::Refused(_, place) => assert!(place == 0 && output == before),
                Answer::Accepted(length) => {
                    reading.format.check(&output[..length]).expect("a good sheet");
                    assert!(output[length..].iter().all(|&byte| byte == 0));
                }
            }
        });
    }
    let seen: Vec<usize> = (0..18).filter(|&number| numbers[number] > 20).collect();
    assert_eq!(seen, [0, 6, 13, 15, 16, 17], "{numbers:?}");
}

#[test]
fn cut_at_every_byte() {
    let mut numbers = [0; 18];
    for reading in READINGS {
        let limits = Limits::small(reading.format);
        cases(100, |rng| {
            let formula = clause_set(rng, limits);
            let text = qdimacs_text(rng, limits, &formula);
            let shown = String::from_utf8_lossy(&text);
            let last = text.iter().rposition(|byte| !b" \t\r\n".contains(byte)).expect("a word");
            for cut in 0..text.len() {
                let number = read(reading, &text[..cut]).err().unwrap_or(0);
                numbers[usize::from(number)] += 1;
                // Harmless are a cut behind a leading zero, which may end a list, and one that no
                // clause follows.
                let zero = cut > 0 && text[cut - 1] == b'0' && text[cut].is_ascii_digit();
                let good = cut > last || zero || formula.matrix.children().is_empty();
                assert!(number != 0 || good, "{cut} of {shown:?}");
                assert!([0, 15, 16, 17].contains(&number), "{cut} of {shown:?}");
            }
        });
    }
    assert!([15, 16, 17].iter().all(|&number| numbers[number] > 500), "{numbers:?}");
}

#[test]
fn verdicts_on_the_same_text() {
    let (mut verdicts, mut unread) = ([0; 2], 0);
    for reading in READINGS {
        let limits = Limits::small(reading.format);
        cases(300, |rng| {
            let formula = clause_set(rng, limits);
            let text = qdimacs_text(rng, limits, &formula);
            let read = read(reading, &text).expect("a good text");
            let text = String::from_utf8(text).expect("ASCII");
            // The solver gives up on some blanks in the header.
            match depqbf::verdict_of(&text).expect("depqbf is installed") {
                None => unread += 1,
                Some(theirs) => {
                    assert_eq!(theirs, truth::is_true(&read), "{text}");
                    verdicts[usize::from(theirs)] += 1;
                }
            }
        });
    }
    assert!(verdicts.iter().all(|&count| count > 100), "{verdicts:?}");
    assert!(unread < 60, "{unread}");
}
