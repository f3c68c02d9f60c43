//! The line of each call.

use super::{Call, Case, Letter, SHORT};
use crate::reference::{
    bring_back, line_of, widen, Answer, CompareAnswer, Forced, GuardsAnswer, Quantifier, Reading,
};
use std::cmp::Ordering;

/// Every output is filled with this byte before a call.
const FILLING: u8 = 165;

pub fn lines(cases: &[Case]) -> String {
    let of = |case: &Case| -> String {
        case.calls.iter().map(|call| named_line(&case.sheet, call) + "\n").collect()
    };
    cases.iter().map(of).collect()
}

/// A line of a wide sheet begins with that word.
fn named_line(sheet: &[u8], call: &Call) -> String {
    let line = line(call.reading(), sheet, call);
    if call.wide {
        format!("wide {line}")
    } else {
        line
    }
}

fn line(reading: Reading, sheet: &[u8], call: &Call) -> String {
    let Call { letter, number, room, .. } = *call;
    let format = reading.format;
    match letter {
        Letter::Check => {
            told("check", format.check(sheet).into(), |(v, n)| format!("accepted {v} {n}"))
        }
        Letter::Trial => {
            told("trial", format.trial(sheet), |(verdict, leaves)| format!("{verdict} {leaves}"))
        }
        Letter::Part => {
            let kinds = format.part(sheet, number).iter();
            format!("part{}", kinds.map(|kind| format!(" {kind}")).collect::<String>())
        }
        Letter::Tidy => written_line("tidy", room, |output| reading.tidy(sheet, output)),
        Letter::Reduce => written_line("reduce", room, |output| reading.reduce(sheet, output)),
        Letter::Settle => written_line(&format!("settle {number}"), room, |output| {
            reading.settle(sheet, number, output)
        }),
        Letter::Expand => written_line(&format!("expand {number}"), room, |output| {
            reading.expand(sheet, number, output)
        }),
        Letter::Quote => told(&format!("quote {number}"), reading.quote(sheet, number), |rows| {
            format!("rows {rows}")
        }),
        Letter::Execute => {
            let ceiling = call.first_of_list();
            written_line(&format!("execute {number} {ceiling}"), room, |output| {
                reading.execute(sheet, number, ceiling, output)
            })
        }
        Letter::Outer => outer_line(reading, sheet, room, number),
        Letter::Solve => solve_line(reading, sheet, room, number),
        Letter::Force => force_line(reading, sheet, &call.list, room, number),
        Letter::Guards => guards_line(reading, sheet, room, call.first_of_list(), number),
        Letter::Sort => written_line("sort", room, |output| reading.sort(sheet, output)),
        Letter::Qdimacs => written_line("qdimacs", room, |output| reading.qdimacs(sheet, output)),
        Letter::Compare => compare_line(reading, sheet, &call.list, room, number),
        Letter::Widen => written_line("widen", room, |output| widen(sheet, output)),
        Letter::BringBack => written_line("bring back", room, |output| bring_back(sheet, output)),
    }
}

fn told<T>(name: &str, answer: Answer<T>, accepted: impl Fn(T) -> String) -> String {
    match answer {
        Answer::Refused(number, place) => format!("{name} refused {number} {place}"),
        Answer::Accepted(value) => format!("{name} {}", accepted(value)),
    }
}

/// The answer, a sum over the whole output, and the new sheet if it is short.
fn written_line(name: &str, room: usize, write: impl Fn(&mut [u8]) -> Answer<usize>) -> String {
    let mut output = vec![FILLING; room];
    let answer = write(&mut output);
    let written = match answer {
        Answer::Refused(..) => String::new(),
        Answer::Accepted(length) => short_sheet(&output[..length]),
    };
    let answer = told(name, answer, |length| format!("accepted {length}"));
    format!("{answer} sum {}{written}", sum(&output))
}

/// The length, how many variables are copied and the lowest of them, a sum over the whole output, and the new sheet if it is short.
fn outer_line(reading: Reading, sheet: &[u8], room: usize, x: usize) -> String {
    let mut output = vec![FILLING; room];
    let answer = reading.outer(sheet, x, &mut output);
    let written = match &answer {
        Answer::Refused(..) => String::new(),
        Answer::Accepted(copied) => short_sheet(&output[..copied.length]),
    };
    let answer = told(&format!("outer {x}"), answer, |copied| {
        format!("accepted {} {} {}", copied.length, copied.count, copied.lowest)
    });
    format!("{answer} sum {}{written}", sum(&output))
}

/// The program's line, a sum over each buffer, and the sheet reached if it is short.
fn solve_line(reading: Reading, sheet: &[u8], first: usize, second: usize) -> String {
    let (mut first, mut second) = (vec![FILLING; first], vec![FILLING; second]);
    let answer = reading.solve(sheet, &mut first, &mut second);
    let reached = match answer.counts() {
        None => String::new(),
        Some(_) => short_sheet(reading.format.front(&first)),
    };
    format!("solve {} sum {} sum {}{reached}", line_of(&answer), sum(&first), sum(&second))
}

/// The turn, the outcome, and a sum over each buffer.
fn force_line(
    reading: Reading,
    sheet: &[u8],
    values: &[u8],
    first: usize,
    second: usize,
) -> String {
    let (mut first, mut second) = (vec![FILLING; first], vec![FILLING; second]);
    let answer = reading.force(sheet, values, &mut first, &mut second);
    let answer = told("force", answer, |(turn, forced)| {
        let turn = match turn {
            Quantifier::Exists => "exists",
            Quantifier::ForAll => "for-all",
        };
        match forced {
            Forced::Neither => format!("{turn} neither"),
            Forced::Zero => format!("{turn} 0"),
            Forced::One => format!("{turn} 1"),
            Forced::Both => format!("{turn} both"),
            Forced::Stopped(variable) => format!("{turn} stopped {variable}"),
        }
    });
    format!("{answer} sum {} sum {}", sum(&first), sum(&second))
}

/// The answer, a sum over each buffer, and the kept children's sheet if it is short.
fn guards_line(
    reading: Reading,
    sheet: &[u8],
    output: usize,
    first: usize,
    second: usize,
) -> String {
    let mut buffers = [output, first, second].map(|room| vec![FILLING; room]);
    let [output, first, second] = &mut buffers;
    let answer = reading.guards(sheet, output, first, second);
    let (told, length) = match answer {
        GuardsAnswer::Refused(number, place) => (format!("refused {number} {place}"), None),
        GuardsAnswer::Stopped { variable, settled, expanded } => {
            (format!("stopped {settled} {expanded} {variable}"), None)
        }
        GuardsAnswer::True { settled, expanded } => (format!("true {settled} {expanded}"), None),
        GuardsAnswer::Kept { length, stops } => (format!("kept {length} {stops}"), Some(length)),
    };
    let written = length.map_or(String::new(), |length| short_sheet(&buffers[0][..length]));
    let sums: String = buffers.iter().map(|buffer| format!(" sum {}", sum(buffer))).collect();
    format!("guards {told}{sums}{written}")
}

/// The answer, the sheet that is refused behind it, and a sum over each buffer.
fn compare_line(
    reading: Reading,
    sheet: &[u8],
    other: &[u8],
    first: usize,
    second: usize,
) -> String {
    let (mut first, mut second) = (vec![FILLING; first], vec![FILLING; second]);
    let answer = match reading.compare(sheet, other, &mut first, &mut second) {
        CompareAnswer::Refused(which, number, place) => format!("refused {number} {place} {which}"),
        CompareAnswer::Ordered(Ordering::Less) => "before".into(),
        CompareAnswer::Ordered(Ordering::Equal) => "equal".into(),
        CompareAnswer::Ordered(Ordering::Greater) => "after".into(),
    };
    format!("compare {answer} sum {} sum {}", sum(&first), sum(&second))
}

/// A sum that depends on each byte and on its place.
fn sum(bytes: &[u8]) -> u32 {
    bytes.iter().fold(0, |sum, &byte| (257 * sum + u32::from(byte)) % 65_521)
}

/// A short sheet in hexadecimal; nothing of a longer one.
fn short_sheet(sheet: &[u8]) -> String {
    if sheet.len() > SHORT {
        return String::new();
    }
    let bytes: String = sheet.iter().map(|byte| format!(" {byte:02x}")).collect();
    format!(" sheet{bytes}")
}
