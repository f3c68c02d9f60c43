//! QDIMACS in against the independent reading: texts in every spelling, damaged
//! ones, cut at every byte, outputs of any contents and of every length around
//! the limit, and verdicts with a solver that reads the same text.

use differential::compare::cases;
use differential::{Library, LIBRARIES};
use outside::depqbf;
use outside::generate::{clause_set, damage_text, dirty, length_around, qdimacs_text, Limits, Rng};
use outside::literature::LITERATURE;
use outside::qdimacs::Qdimacs;
use outside::reference::{Answer, Formula, SolveAnswer};

/// A clause set and a text that says it.
fn spelled(rng: &mut Rng, library: &Library, limits: Limits) -> (Formula, Vec<u8>) {
    assert_eq!(limits.format, library.reading.format);
    let formula = clause_set(rng, limits);
    let text = qdimacs_text(rng, limits, &formula);
    (formula, text)
}

/// Reads the text with an output of the longest sheet's length.
fn read(library: &Library, text: &[u8]) -> Result<Vec<u8>, u8> {
    let written =
        library.agree_on_qdimacs(text, &vec![165; library.reading.format.longest_sheet()]);
    match written.answer {
        Answer::Accepted(length) => Ok(written.output()[..length].to_vec()),
        Answer::Refused(number, _) => Err(number),
    }
}

#[test]
fn every_spelling_is_the_sheet_of_its_formula() {
    cases(10_000, |library, rng| {
        let format = library.reading.format;
        let (formula, text) = spelled(rng, library, Limits::small(format));
        let sheet = format.encode(&formula);
        let room = length_around(rng, format, sheet.len());
        let written = library.agree_on_qdimacs(&text, &dirty(rng, room));
        assert_eq!(written.sheet(), (room >= sheet.len()).then_some(&sheet[..]));
        let printed = Qdimacs::of_formula(&formula).expect("a clause set").text();
        assert_eq!(read(library, printed.as_bytes()), Ok(sheet));
    });
    cases(100, |library, rng| {
        let format = library.reading.format;
        let (formula, text) = spelled(rng, library, Limits::full(format));
        assert_eq!(read(library, &text), Ok(format.encode(&formula)));
    });
}

#[test]
fn damaged_texts() {
    let mut numbers = [0; 18];
    cases(60_000, |library, rng| {
        let format = library.reading.format;
        let (_, whole) = spelled(rng, library, Limits::small(format));
        let text = damage_text(rng, &whole);
        let room = rng.pick(&[0, 40, 200, 2_000]);
        numbers[library.agree_on_qdimacs(&text, &dirty(rng, room)).answer.number()] += 1;
    });
    assert!([0, 6, 13, 15, 16, 17].iter().all(|&number| numbers[number] > 50), "{numbers:?}");
}

#[test]
fn cut_at_every_byte_and_every_length() {
    cases(100, |library, rng| {
        let format = library.reading.format;
        let (formula, text) = spelled(rng, library, Limits::small(format));
        for cut in 0..=text.len() {
            library.agree_on_qdimacs(&text[..cut], &dirty(rng, 300));
        }
        let exact = format.encode(&formula).len();
        for room in exact.saturating_sub(12)..exact + 12 {
            library.agree_on_qdimacs(&text, &dirty(rng, room));
        }
    });
}

/// Bytes and words of all kinds, most of which are no text at all.
#[test]
fn any_bytes() {
    let words: &[&str] = &[
        "p",
        "cnf",
        "p cnf 3 2",
        "c",
        "e",
        "a",
        "0",
        "00",
        "-0",
        "1",
        "-1",
        "2",
        "3",
        "-3",
        "4",
        "+1",
        "\n",
        " ",
        "\t",
        "\r",
        "\r\n",
        "2147483648",
        "-2147483648",
        "4294967297",
        "x",
    ];
    cases(60_000, |library, rng| {
        let mut text = Vec::new();
        if rng.one_in(2) {
            text.extend(b"p cnf 3 2\n");
        }
        for _ in 0..rng.below(14) {
            text.extend(rng.pick(words).bytes());
            text.extend(rng.pick(&[" ", " ", " ", "\n", ""]).bytes());
        }
        library.agree_on_qdimacs(&text, &[165; 200]);
        let length = rng.below(40);
        library.agree_on_qdimacs(&dirty(rng, length), &[165; 200]);
    });
}

#[test]
fn at_and_past_each_limit() {
    for library in &LIBRARIES {
        let format = library.reading.format;
        for variables in [0, 1, 255, 256, 257, 1023, 1024, 1025, 65_536, 4_294_967_297u64] {
            for clauses in [0, 1, 2] {
                let body = format!("e {variables} 0\n1 {variables} 0\n");
                read(library, format!("p cnf {variables} {clauses}\n{body}").as_bytes()).ok();
                read(library, format!("p cnf {variables} {clauses}\n").as_bytes()).ok();
            }
        }
        for nodes in [format.most_nodes - 1, format.most_nodes, format.most_nodes + 1] {
            let literals = "1 ".repeat(nodes - 2);
            let one = format!("p cnf 1 1\n{literals}0\n");
            let empty = format!("p cnf 0 {}\n{}", nodes - 1, "0 ".repeat(nodes - 1));
            let refusal = (nodes > format.most_nodes).then_some(2);
            for text in [one, empty] {
                assert_eq!(read(library, text.as_bytes()).err(), refusal);
            }
        }
        let all: String = (1..=format.most_variables).map(|x| format!("{x} ")).collect();
        let text = format!("p cnf {} 1\na {all}0\n{all}0\n", format.most_variables);
        assert!(read(library, text.as_bytes()).is_ok());
        let free = format!("p cnf {} 1\n{all}0\n", format.most_variables);
        assert!(read(library, free.as_bytes()).is_ok());
    }
}

/// Megabytes of comments, blanks and digits.
#[test]
fn long_texts() {
    let comments = "c a comment of some length, again and again\n".repeat(50_000);
    let blanks = " \t\r\n".repeat(500_000);
    let (zeros, digits) = ("0".repeat(1_000_000), "9".repeat(1_000_000));
    for text in [
        format!("{comments}{blanks}p cnf 1 1\n{blanks}{zeros}1{blanks}{zeros}{blanks}"),
        format!("{comments}{blanks}"),
        format!("p cnf {digits} 1\n"),
        format!("p cnf {zeros}1 {digits}\n1 0\n"),
        format!("p cnf 1 1\n{digits} 0\n"),
        format!("p cnf 1 1\n-{digits} 0 x\n"),
        format!("p cnf 1 1\n{}", "1 ".repeat(1_000_000)),
        format!("p cnf 1 1000000\n{}", "1 0 ".repeat(1_000_000)),
    ] {
        for library in &LIBRARIES {
            read(library, text.as_bytes()).ok();
        }
    }
}

/// Reading and solving beside a solver that reads the very same text.
#[test]
fn verdicts_on_the_same_text() {
    let mut verdicts = [0; 2];
    cases(400, |library, rng| {
        let format = library.reading.format;
        let limits = Limits { format, variables: 12, nodes: rng.pick(&[30, 100, 200]) };
        let (_, text) = spelled(rng, library, limits);
        let sheet = read(library, &text).expect("a good text");
        let text = String::from_utf8(text).expect("ASCII");
        compared(library, &sheet, &text, &mut verdicts);
    });
    for library in &LIBRARIES {
        for family in LITERATURE {
            for n in 1..=4 {
                let text = family.qdimacs(n).text();
                let sheet = read(library, text.as_bytes()).expect("a good text");
                compared(library, &sheet, &text, &mut verdicts);
            }
        }
    }
    assert!(verdicts.iter().all(|&count| count > 100), "{verdicts:?}");
}

fn compared(library: &Library, sheet: &[u8], text: &str, verdicts: &mut [usize; 2]) {
    let room = library.reading.format.longest_sheet();
    let answer = library.solve(sheet, &mut vec![0; room], &mut vec![0; room]);
    let theirs = depqbf::verdict_of(text).expect("depqbf is installed");
    // The solver gives up on some blanks in the header, and Solve may stop.
    if let (SolveAnswer::Ended { verdict, .. }, Some(theirs)) = (answer, theirs) {
        assert_eq!(verdict, theirs, "{text}");
        verdicts[usize::from(verdict)] += 1;
    }
}
