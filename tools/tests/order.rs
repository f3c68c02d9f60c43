//! The commands `sort` and `compare` as people call them.

mod common;

use common::{called, example, text};

/// Exists 1, 2: OR of (not 1) and of AND of 2, 1, whose children are 1, 2 once they are in order.
const DRAWN: [u8; 25] = [2, 0, 5, 0, 1, 1, 6, 4, 5, 3, 3, 1, 0, 2, 0, 2, 0, 1, 0, 2, 0, 2, 0, 1, 0];
const SORTED: [u8; 25] =
    [2, 0, 5, 0, 1, 1, 6, 4, 5, 3, 3, 1, 0, 2, 0, 2, 0, 1, 0, 2, 0, 1, 0, 2, 0];

#[test]
fn a_sheet_is_sorted() {
    for sheet in [DRAWN, SORTED] {
        let ended = called(&["sort", "--from", "narrow", "-"], &sheet);
        assert_eq!((ended.status, ended.output), (0, SORTED.to_vec()));
    }
    let ended = called(&["sort", &example("cut-short")], &[]);
    assert_eq!((ended.status, ended.output.len()), (1, 0));
    assert!(ended.message.contains("cut-short.sheet: refused 3: "), "{ended:?}");
}

#[test]
fn two_sheets_are_compared() {
    let (after, before) = (example("equal-after"), example("equal-before"));
    // For all 2 stands in the first row of one, exists 1 in that of the other.
    for (first, second, word) in
        [(&after, &after, "equal\n"), (&before, &after, "before\n"), (&after, &before, "after\n")]
    {
        let ended = called(&["compare", first, second], &[]);
        assert_eq!((ended.status, text(ended.output)), (0, word.to_string()));
    }
    let ended = called(&["compare", &after, &example("cut-short")], &[]);
    assert_eq!(ended.status, 1);
    assert!(ended.message.contains("cut-short.sheet: refused 3: "), "{ended:?}");
}

#[test]
fn two_sheets_are_needed() {
    let after = example("equal-after");
    for words in [&["compare"][..], &["compare", &after], &["compare", "-", "-"]] {
        assert_eq!(called(words, &[]).status, 2, "{words:?}");
    }
}
