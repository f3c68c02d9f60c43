//! The command `outer`: the sheet, what was copied, and refusals in words.

mod common;

use common::{called, READING};
use outside::formulas::{and, clause, formula};
use outside::generate::{cases, paired_formula, Limits};
use outside::reference::{Answer, Copied, Quantifier, Reading};
use Quantifier::{Exists, ForAll};

#[test]
fn the_sheet_and_what_was_copied_are_the_references() {
    let mut counts = [0; 4];
    for (format, reading) in [("wide", Reading::WIDE), ("narrow", Reading::NARROW)] {
        cases(1_000, |rng| {
            let given = paired_formula(rng, Limits::small(reading.format));
            let sheet = reading.format.encode(&given);
            let x = rng.pick(&given.prefix).1;
            let ended = called(&["outer", &x.to_string(), "--from", format], &sheet);
            let mut output = vec![0; reading.format.longest_sheet()];
            match reading.outer(&sheet, x, &mut output) {
                Answer::Accepted(Copied { length, count, lowest }) => {
                    assert_eq!((ended.status, &ended.output[..]), (0, &output[..length]));
                    let told = match count {
                        0 => "no variable is copied\n".to_string(),
                        1 => format!("1 variable is copied: {lowest}\n"),
                        _ => format!("{count} variables are copied, the lowest is {lowest}\n"),
                    };
                    assert_eq!(ended.message, told);
                    counts[count.min(2)] += 1;
                }
                Answer::Refused(number, _) => {
                    assert_eq!((ended.status, ended.output.len()), (1, 0));
                    let told = format!("plumanchor: refused {number}: ");
                    assert!(ended.message.starts_with(&told), "{}", ended.message);
                    counts[3] += 1;
                }
            }
        });
    }
    assert!(counts.iter().all(|&count| count > 20), "{counts:?}");
}

#[test]
fn refusals_in_words() {
    let rows = [(ForAll, 1), (Exists, 2), (ForAll, 3), (Exists, 4)];
    let clauses = vec![clause(&[1, 2]), clause(&[3, 4]), clause(&[-3, -2])];
    let sheet = READING.format.encode(&formula(&rows, and(clauses)));
    for (x, told) in [
        ("1", "for all 1, and behind it has literals: exists 2, for all 3, exists 4"),
        ("4", "exists 4, and behind it has literals: nothing"),
        ("5", "refused 10: the variable is not in the prefix"),
    ] {
        let ended = called(&["outer", x], &sheet);
        assert_eq!((ended.status, ended.output.len()), (1, 0));
        assert!(ended.message.contains(told), "{}", ended.message);
    }
    for words in [&["outer"][..], &["outer", "x"], &["outer", "1", "a", "b"]] {
        assert_eq!(called(words, &sheet).status, 2);
    }
}
