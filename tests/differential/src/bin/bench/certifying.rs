//! Certify beside the search that its derivation comes from: families from the literature and
//! random clause sets, wide sheets.

use crate::decided_set::{decided_set, Question};
use crate::page::{section, shown, Table};
use crate::time_of;
use differential::WIDE;
use outside::depqbf;
use outside::literature::LITERATURE;
use outside::qrp::Trace;
use outside::reference::{words_of, Answer, Certified};
use std::time::Instant;

/// The sizes of the families that the solver decides soon, in their order there.
const FAMILY_SIZES: [&[usize]; 5] = [&[8, 12], &[8, 12], &[10, 14], &[4, 5], &[8, 16]];

/// Of the random clause sets every so many-th.
const EVERY: usize = 9;

fn row(table: &mut Table<6>, name: String, question: &Question) {
    let start = Instant::now();
    let Ok(text) = depqbf::whole_trace_of(&question.text) else { return };
    let search = start.elapsed();
    let Some(trace) = Trace::read(&text) else { return };
    let Some(steps) = trace.steps() else { return };
    let (heads, codes) = words_of(&steps);
    let sheet = WIDE.reading.format.encode(&question.formula);
    let verdict = usize::from(trace.verdict);
    let answer = WIDE.certify(&sheet, verdict, &heads, &codes);
    let told = match answer {
        Answer::Accepted(Certified::Certain(verdict)) => verdict.to_string(),
        Answer::Accepted(Certified::Uncertain(step)) => format!("step {step} isn't valid"),
        Answer::Refused(number, _) => format!("refused {number}"),
    };
    let time = time_of(|| {
        WIDE.certify(&sheet, verdict, &heads, &codes);
    });
    let size = format!("{} KB", text.len() / 1024);
    table.row([name, steps.len().to_string(), size, shown(search), shown(time), told]);
}

pub fn report() {
    section(
        "Certify",
        "A search by `depqbf` that traces itself, the whole process; the steps that lead to the last \
         line of its trace; and the proved check of these steps, the library's call.",
    );
    let mut table =
        Table::new(["questions", "steps", "trace", "`depqbf --trace`", "Certify", "certified"]);
    for (family, sizes) in LITERATURE.into_iter().zip(FAMILY_SIZES) {
        for &n in sizes {
            let (formula, text) = (family.formula(n), family.qdimacs(n).text());
            let question = Question { formula, text, verdict: Some(family.verdict) };
            row(&mut table, format!("{}, n = {n}", family.name), &question);
        }
    }
    for (name, questions) in decided_set().iter().filter(|(name, _)| name.starts_with("random")) {
        for question in questions.iter().step_by(EVERY) {
            let variables = question.formula.prefix.len();
            row(&mut table, format!("{name}, {variables} variables"), question);
        }
    }
    print!("{table}");
}
