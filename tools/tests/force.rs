//! The command `force` as people call it: output, messages and exit status.

mod common;

use common::{called, example};

/// The exit status, the text written and the message.
fn call(arguments: &[&str]) -> (u8, String, String) {
    let ended = called(arguments, &[]);
    (ended.status, String::from_utf8(ended.output).expect("text"), ended.message)
}

/// Equal 1 and 2: who has the last move wins, with the value that copies the
/// other side's or is its opposite. The press line is the README's.
#[test]
fn the_turn_and_the_values_that_win() {
    for (name, values, line) in [
        ("equal-after", "", "for-all neither\n"),
        ("equal-after", "0", "exists 0\n"),
        ("equal-after", "1", "exists 1\n"),
        ("equal-before", "", "exists neither\n"),
        ("equal-before", "0", "for-all 1\n"),
        ("equal-before", "1", "for-all 0\n"),
        ("press-line", "", "for-all neither\n"),
        ("press-line", "1", "exists 1\n"),
        ("press-line", "111", "exists 0\n"),
        ("press-line", "10", "for-all both\n"),
        ("crowded", "", "for-all stopped 1\n"),
    ] {
        let answer = (0, line.to_string(), String::new());
        assert_eq!(call(&["force", values, &example(name)]), answer, "{name} {values}");
    }
}

#[test]
fn a_refusal_is_told_in_words() {
    for (values, name, message) in [
        ("2", "equal-after", "refused 21: a value is neither 0 nor 1"),
        ("002", "equal-after", "refused 21: a value is neither 0 nor 1"),
        ("01", "equal-after", "refused 22: there are as many values as variables, or more"),
        ("", "cut-short", "refused 3: the sheet's length is not that of its sizes"),
    ] {
        let (status, output, told) = call(&["force", values, &example(name)]);
        assert_eq!((status, output.as_str()), (1, ""), "{values}");
        assert!(told.contains(&format!("{name}.sheet: {message}")), "{told}");
    }
}

#[test]
fn wrong_use_is_not_ignored() {
    let name = example("equal-after");
    let calls: [&[&str]; 4] =
        [&["force"], &["force", "0x", &name], &["force", "-1", &name], &["force", "0", &name, "1"]];
    for arguments in calls {
        let (status, output, message) = call(arguments);
        assert_eq!((status, output.as_str()), (2, ""), "{arguments:?}");
        assert!(message.starts_with("plumanchor: "), "{message}");
    }
}
