//! The command `quote` as people call it: output, messages and exit status.

mod common;

use common::{example, spawned};

/// Exit status, standard output and standard error of one call.
fn call(arguments: &[&str], input: &[u8]) -> (u8, String, String) {
    let ended = spawned(arguments, input);
    (ended.status, common::text(ended.output), ended.message)
}

/// For all 2, exists 1, both equal: 7 rows, all copied under a new one.
#[test]
fn a_quote_is_the_raw_row_count() {
    let name = example("equal-after");
    let sheet = std::fs::read(&name).expect("an example");
    let answer = (0, "15\n".to_string(), String::new());
    assert_eq!(call(&["quote", "1", &name], &[]), answer);
    assert_eq!(call(&["quote", "1", "-"], &sheet), answer);
    assert_eq!(call(&["quote", "1"], &sheet), answer);
}

#[test]
fn a_refusal_is_told_in_words() {
    let refused = |x: &str, name: &str| call(&["quote", x, &example(name)], &[]);
    for (x, name, message) in [
        ("2", "equal-after", "refused 11: the variable is not in the innermost block"),
        ("18446744073709551615", "equal-after", "refused 10: the variable is not in the prefix"),
        ("1", "cut-short", "refused 3: the sheet's length is not that of its sizes"),
        ("1", "too-many-variables", "refused 2: a size is outside its limits"),
    ] {
        let (status, output, told) = refused(x, name);
        assert_eq!((status, output.as_str()), (1, ""));
        assert!(told.contains(&format!("{name}.sheet: {message}")), "{told}");
    }
    let unbound = common::READING.format.sheet_of(0, &[(3, 5)]);
    let (status, output, message) = call(&["quote", "5"], &unbound);
    assert_eq!((status, output.as_str()), (1, ""));
    assert!(message.contains("refused 7") && message.contains("row 0"), "{message}");
}

#[test]
fn wrong_use_is_not_ignored() {
    let name = example("equal-after");
    let calls: [&[&str]; 9] = [
        &[],
        &["quotes", "1"],
        &["quote"],
        &["quote", "-1", &name],
        &["quote", "", &name],
        &["quote", "18446744073709551616", &name],
        &["quote", "1", "--from"],
        &["quote", "1", &name, &name],
        &["quote", "1", "no/such/file"],
    ];
    for arguments in calls {
        let (status, output, message) = call(arguments, &[]);
        assert_eq!((status, output.as_str()), (2, ""), "{arguments:?}");
        assert!(message.starts_with("plumanchor: "), "{message}");
    }
}

#[test]
fn help_for_the_whole_and_for_each_command() {
    for arguments in [&["--help"][..], &["quote", "--help"]] {
        let (status, output, message) = call(arguments, &[]);
        assert_eq!((status, message.as_str()), (0, ""));
        assert!(output.starts_with("Usage: plumanchor"), "{output}");
    }
}
