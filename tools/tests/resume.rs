//! A stopped run kept in a file and gone on from, as from the shell.

mod common;

use common::{called, example, text};
use outside::generate::{self, cases, Limits};
use outside::reference::{line_of, resume, Counts, Format, SolveAnswer};
use std::path::PathBuf;

/// A file of this test's own.
fn kept(name: &str) -> PathBuf {
    let file = format!("plumanchor-{}-{name}.sheet", std::process::id());
    std::env::temp_dir().join(file)
}

/// `solve --reached` and then `resume` say in the end what `solve` says at once.
#[test]
fn a_stopped_run_goes_on_from_its_file() {
    let (file, mut stops) = (kept("round-trip"), 0);
    let name = file.to_str().expect("a name");
    cases(1000, |rng| {
        let sheet = generate::sheet(rng, Limits { format: Format::WIDE, variables: 8, nodes: 40 });
        let room = (sheet.len() + rng.below(100)).to_string();
        let ended = called(&["solve", "--room", &room, "--reached", name], &sheet);
        let line = text(ended.output);
        let words: Vec<&str> = line.split_whitespace().collect();
        if words[0] != "stopped" {
            assert_eq!(ended.message, "");
            return;
        }
        stops += 1;
        let (started, _) = Format::WIDE.sizes(&sheet).expect("a good sheet");
        let started = started.to_string();
        let told = format!("resume {started} {} {} {name}\n", words[1], words[2]);
        assert!(ended.message.ends_with(&told), "{}", ended.message);
        let on = called(&["resume", &started, words[1], words[2], name], &[]);
        assert_eq!(text(on.output), text(called(&["solve"], &sheet).output));
    });
    assert!(stops > 100, "{stops}");
    std::fs::remove_file(file).expect("the file kept");
}

/// Any state of either format, with counts beyond 16 bits, as in the reference.
#[test]
fn any_state_is_the_references() {
    let mut answered = 0;
    cases(2000, |rng| {
        let narrow = rng.one_in(2);
        let (format, from) =
            if narrow { (Format::NARROW, "narrow") } else { (Format::WIDE, "wide") };
        let sheet = generate::sheet(rng, Limits::small(format));
        let (left, _) = format.sizes(&sheet).expect("a good sheet");
        let (settled, expanded) = (rng.below(200_000), rng.below(200_000));
        let started = settled + expanded + left + usize::from(rng.one_in(5));
        let numbers = [started, settled, expanded].map(|number| number.to_string());
        let [one, two, three] = numbers.each_ref().map(String::as_str);
        let ended = called(&["resume", one, two, three, "--from", from], &sheet);
        let mut buffers = [0; 2].map(|_| vec![0; Format::WIDE.longest_sheet()]);
        let [first, second] = &mut buffers;
        let counts = Counts { started, settled, expanded };
        let answer = resume(counts, &sheet, narrow, first, second);
        assert_eq!(text(ended.output).trim_end(), line_of(&answer));
        assert_eq!(ended.status, u8::from(matches!(answer, SolveAnswer::Refused(..))));
        answered += u32::from(ended.status == 0);
    });
    assert!(answered > 1000, "{answered}");
}

#[test]
fn counts_that_do_not_add_up_are_told() {
    let ended = called(&["resume", "2", "1", "0", &example("equal-after")], &[]);
    assert_eq!((ended.status, text(ended.output)), (1, "refused 0 0 25\n".to_string()));
    let told =
        "refused 25: settled, expanded and variables left don't add up to the starting count";
    assert!(ended.message.ends_with(&format!("equal-after.sheet: {told}\n")));
    assert_eq!(called(&["resume", "2", "0", &example("equal-after")], &[]).status, 2);
}
