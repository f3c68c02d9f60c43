//! The program itself: the examples' lines, inputs up to and past the longest
//! sheet, and the hint that an owner of a narrow sheet gets.

use outside::examples::{examples, narrow_examples};
use outside::generate::{cases, damage, limit_sheets, sheet, Limits};
use outside::reference::{Format, Reading};
use outside::with_deep_stack;
use std::io::Write;
use std::process::{Command, Stdio};

/// What the program reads.
const FORMAT: Format = Format::WIDE;

fn program_line(input: &[u8]) -> String {
    Reading::WIDE.program_line(input)
}

/// What the program writes for an input, to standard output and to standard error.
fn run_with_hint(input: &[u8]) -> (String, String) {
    let program = concat!(env!("CARGO_MANIFEST_DIR"), "/../../crates/plumanchor/out/plumanchor");
    let mut child = Command::new(program)
        .stdin(Stdio::piped())
        .stdout(Stdio::piped())
        .stderr(Stdio::piped())
        .spawn()
        .expect("crates/plumanchor/out/plumanchor, which install/program builds");
    // The program stops reading at 46,089 bytes, and may be gone before a longer input is written.
    let _ = child.stdin.take().expect("a pipe").write_all(input);
    let output = child.wait_with_output().expect("the program's output");
    assert!(output.status.success());
    let text = |bytes| String::from_utf8(bytes).expect("text");
    (text(output.stdout), text(output.stderr))
}

/// The line for an input that isn't a narrow sheet: nothing else is written.
fn run(input: &[u8]) -> String {
    let (line, hint) = run_with_hint(input);
    assert_eq!(hint, "");
    line
}

#[test]
fn program_gives_the_examples_lines() {
    for example in examples() {
        assert_eq!(run(&example.sheet), format!("{}\n", example.line), "{}", example.name);
    }
}

#[test]
fn program_gives_the_references_line() {
    with_deep_stack(|| {
        cases(300, |rng| {
            let mut input = sheet(rng, Limits::medium(FORMAT));
            if rng.one_in(3) {
                input = damage(rng, FORMAT, &input);
            }
            assert_eq!(run(&input).trim_end(), program_line(&input), "sheet {input:02x?}");
        })
    });
}

#[test]
fn program_reads_no_more_than_a_sheet_may_have() {
    with_deep_stack(|| {
        for limit in limit_sheets(FORMAT) {
            assert_eq!(run(&limit.sheet).trim_end(), program_line(&limit.sheet), "{}", limit.name);
        }
        assert_eq!(run(&vec![0; 60_000]), "refused 0 0 2\n");
        assert_eq!(run(b""), "refused 0 0 1\n");
    });
}

/// A good sheet of 16-bit numbers is refused like any other bytes, and the hint
/// stands on standard error; a damaged one gets none.
#[test]
fn narrow_sheets_get_a_hint() {
    const HINT: &str = "plumanchor: this is a sheet of 16-bit numbers; \
                        './plumanchor solve --from narrow' solves it\n";
    with_deep_stack(|| {
        for example in narrow_examples() {
            assert_eq!(run_with_hint(&example.sheet), ("refused 0 0 2\n".into(), HINT.into()));
        }
        assert_eq!(run_with_hint(&[0, 0, 1, 0, 5, 0, 0]), ("refused 0 0 1\n".into(), HINT.into()));
        cases(200, |rng| {
            let mut input = sheet(rng, Limits::medium(Format::NARROW));
            if rng.one_in(2) {
                input = damage(rng, Format::NARROW, &input);
            }
            let (line, hint) = run_with_hint(&input);
            assert_eq!(line.trim_end(), program_line(&input), "sheet {input:02x?}");
            let good = Format::NARROW.check(&input).is_ok();
            assert_eq!(hint, if good { HINT } else { "" }, "sheet {input:02x?}");
        })
    });
}
