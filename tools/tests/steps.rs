//! The command `steps`: the reference's final sheet and answers, and messages.

mod common;

use common::{called, example, text, READING};
use outside::generate::{self, cases, damage, Limits, Rng};
use outside::reference::{Answer, Operation, Step};

fn list(rng: &mut Rng) -> Vec<Step> {
    let step = |rng: &mut Rng| Step {
        operation: if rng.one_in(2) { Operation::Settle } else { Operation::Expand },
        variable: rng.between(0, 9),
        answer: Answer::Accepted(0),
    };
    (0..rng.below(9)).map(|_| step(rng)).collect()
}

fn written(steps: &[Step]) -> String {
    let word = |step: &Step| {
        let letter = if step.operation == Operation::Settle { 's' } else { 'e' };
        format!("{letter}{}", step.variable)
    };
    steps.iter().map(word).collect::<Vec<String>>().join(",")
}

/// How a step's line begins, up to a refusal's number.
fn told(step: &Step) -> String {
    let word = if step.operation == Operation::Settle { "settle" } else { "expand" };
    match step.answer {
        Answer::Accepted(length) => format!("{word} {}: {length} bytes", step.variable),
        Answer::Refused(number, _) => format!("{word} {}: refused {number}:", step.variable),
    }
}

#[test]
fn lists_are_the_references() {
    cases(1000, |rng| {
        let formula = generate::tidy_formula(rng, Limits::small(READING.format));
        let sheet = READING.format.encode(&formula);
        for sheet in [damage(rng, READING.format, &sheet), sheet] {
            let mut steps = list(rng);
            let room = rng.between(sheet.len().saturating_sub(1), 3 * sheet.len());
            let room = room.min(READING.format.longest_sheet());
            let (mut first, mut second) = (vec![0; room], vec![0; room]);
            let whole = READING.steps(&sheet, &mut steps, &mut first, &mut second);
            let asked = ["steps", &written(&steps), "--from=wide", "--room", &room.to_string()];
            let ended = called(&asked, &sheet);
            match whole {
                Answer::Refused(number, _) => {
                    assert_eq!((ended.status, ended.output.len()), (1, 0));
                    let message = format!("plumanchor: refused {number}: ");
                    assert!(ended.message.starts_with(&message), "{}", ended.message);
                }
                Answer::Accepted(length) => {
                    assert_eq!((ended.status, &ended.output[..]), (0, &first[..length]));
                    assert_eq!(ended.message.lines().count(), steps.len());
                    for (line, step) in ended.message.lines().zip(&steps) {
                        assert!(line.starts_with(&told(step)), "{line}");
                    }
                }
            }
        }
    });
}

/// A cut-short list is no list, and neither is another letter.
#[test]
fn wrong_use_is_not_ignored() {
    let name = example("equal-after");
    for list in ["e", "s1,", "s1,,e2", "x1", "1", "s-1", "s1;e2", "s1 e2"] {
        let ended = called(&["steps", list, &name], &[]);
        assert_eq!((ended.status, ended.output.len()), (2, 0), "{list}");
    }
    assert_eq!(called(&["steps"], &[]).status, 2);
    let none = called(&["steps", "", &name], &[]);
    assert_eq!((none.status, none.message.as_str()), (0, ""));
    assert_eq!(none.output, common::example_bytes("equal-after"));
    let told = text(called(&["show"], &none.output).output);
    assert_eq!(told, text(called(&["show", &name], &[]).output));
}
