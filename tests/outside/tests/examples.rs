//! The stored examples are the ones that `write_examples` writes, and the reference solves them with their lines.

use outside::examples::{examples, narrow_examples, text_examples, Example};
use outside::reference::{Format, Reading};
use outside::with_deep_stack;
use std::fs;

fn are_stored(folder: &str, examples: Vec<Example>) {
    let examples_folder = concat!(env!("CARGO_MANIFEST_DIR"), "/../../examples");
    for example in examples {
        let name = format!("{examples_folder}/{folder}{}.sheet", example.name);
        assert_eq!(fs::read(&name).expect(&name), example.sheet, "{name}");
    }
}

#[test]
fn examples_are_stored_as_written() {
    are_stored("", examples());
    are_stored("narrow/", narrow_examples());
}

#[test]
fn reference_gives_the_examples_lines() {
    with_deep_stack(|| {
        for (reading, examples) in
            [(Reading::WIDE, examples()), (Reading::NARROW, narrow_examples())]
        {
            for example in examples {
                let line = reading.program_line(&example.sheet);
                assert_eq!(line, example.line, "{}", example.name);
            }
        }
    });
}

#[test]
fn texts_are_stored_and_give_their_lines() {
    let folder = concat!(env!("CARGO_MANIFEST_DIR"), "/../../examples");
    for example in text_examples() {
        let name = format!("{folder}/{}.qdimacs", example.name);
        assert_eq!(fs::read(&name).expect(&name), example.text.as_bytes(), "{name}");
        let mut output = vec![0; Format::WIDE.longest_sheet()];
        let read = Reading::WIDE.qdimacs(example.text.as_bytes(), &mut output);
        let sheet = &output[..read.accepted().expect(&name)];
        assert_eq!(Reading::WIDE.program_line(sheet), example.line, "{name}");
        let fellow = examples().into_iter().find(|fellow| fellow.name == example.name);
        assert!(fellow.is_none_or(|fellow| fellow.sheet == sheet), "{name}");
    }
}

/// The rows of a narrow example are those of its fellow.
#[test]
fn narrow_examples_have_wide_fellows() {
    let wide = examples();
    for example in narrow_examples() {
        let fellow = wide.iter().find(|other| other.name == example.name).expect(example.name);
        let formula = Format::NARROW.parse(&example.sheet).expect(example.name);
        assert_eq!(Format::WIDE.encode(&formula), fellow.sheet);
    }
}
