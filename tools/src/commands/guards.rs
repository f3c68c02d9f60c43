//! `plumanchor guards [SHEET]`.

use crate::arguments::Arguments;
use crate::command::{Answer, Command, Failure};
use crate::format::DEFAULT;
use crate::formula::{Formula, Row, AND};
use crate::input::{self, Input};
use crate::json::Field;
use crate::options::{FROM, JSON, NAMES, QUIET, RENUMBER, ROOM};
use crate::refusal::Refusal;
use crate::sheet::Sheet;
use crate::tell;
use plumanchor::Guarded;
use std::sync::mpsc::{channel, Receiver, RecvTimeoutError};
use std::time::{Duration, Instant};

pub const COMMAND: Command = Command {
    name: "guards",
    purpose: "the guards to blame for a false sheet",
    words: "[SHEET] > KEPT",
    about: "For a false sheet whose root is AND: leaves out each of its children in turn, for good if\n\
           Solve still says false of the others, and writes the sheet of those kept. Their numbers,\n\
           counted from 1, or what a circuit calls them, stand on standard error, and with '--json' on\n\
           standard output in place of the sheet. A child whose run stops for want of room is kept and\n\
           counted. A sheet that is true, or on which Solve stops as it is, has no such guards: that is\n\
           said, and the exit status is 1. It takes as many runs of Solve as there are children, and\n\
           one more.\n",
    options: &[&FROM, &RENUMBER, &NAMES, &ROOM, &JSON],
    run,
};

fn run(arguments: &mut Arguments) -> Result<Answer, Failure> {
    let asked = arguments.number_option(&ROOM)?;
    let Input { sheet, names, guards, .. } = input::input(arguments, DEFAULT)?;
    let room = input::within(sheet.room(None), asked)?;
    let length = Some(sheet.bytes.len()).filter(|_| !arguments.has(&QUIET));
    let found = watched(length, || -> Result<_, Refusal> {
        let found = sheet.guards(room)?;
        let places = match &found {
            Guarded::Kept { sheet: kept, stops } => places(&sheet, kept, *stops, room)?,
            _ => Vec::new(),
        };
        Ok((found, places))
    });
    let found = found.map_err(|refusal| refusal.lacking(sheet.bytes.len(), room))?;
    let (kept, stops, places) = match found {
        (Guarded::True { settled, expanded }, _) => {
            let line = format!("true {settled} {expanded}: no guard is to blame");
            return Err(Failure::Unusable(line));
        }
        (Guarded::Stopped { variable, settled, expanded }, _) => {
            let line = format!("stopped {settled} {expanded} {}", names.of(variable));
            return Err(Failure::Unusable(format!("{line}: no verdict, so no guard is blamed")));
        }
        (Guarded::Kept { sheet: kept, stops }, places) => (kept, stops, places),
    };
    let all = children(&sheet).len();
    let called = |at: &usize| guards.get(*at).cloned().unwrap_or_else(|| (at + 1).to_string());
    let kept_names: Vec<String> = places.iter().map(called).collect();
    let fields = vec![
        Field::texts("kept", &kept_names),
        Field::number("of", all),
        Field::number("stopped", stops),
    ];
    let note = kept_note(all, &kept_names, stops);
    Ok(Answer { output: kept.bytes, note, fields, ..Answer::default() })
}

fn kept_note(all: usize, kept: &[String], stops: usize) -> String {
    let note = format!("kept {} of {all} guards: {}\n", kept.len(), kept.join(" "));
    if stops == 0 {
        return note;
    }
    format!("{note}{stops} of them because the run without it stopped; they may not be needed\n")
}

/// The rows of each child of a good sheet's root.
fn children(sheet: &Sheet) -> Vec<Vec<Row>> {
    let matrix = Formula::decode(sheet.format, &sheet.bytes).matrix;
    let mut children: Vec<Vec<Row>> = Vec::new();
    let mut owed = 0;
    for row in &matrix[1..] {
        if owed == 0 {
            children.push(Vec::new());
            owed = 1;
        }
        owed = owed - 1 + row.children();
        children.last_mut().expect("a child").push(*row);
    }
    children
}

/// Where the kept children stand among all, counted from 0. Where no run stopped, only the last of
/// equal children can have been kept. Else, from the first child on: where the child or a later
/// equal one may be the one kept, the operation's run without the child is made once more.
fn places(sheet: &Sheet, kept: &Sheet, stops: usize, room: usize) -> Result<Vec<usize>, Refusal> {
    let (all, kept) = (children(sheet), children(kept));
    let latest = latest_places(&all, &kept);
    if stops == 0 {
        return Ok(latest);
    }
    let mut places: Vec<usize> = Vec::new();
    for at in 0..all.len() {
        let next = places.len();
        if kept.get(next) != Some(&all[at]) {
            continue;
        }
        if at == latest[next] || !says_false_without(sheet, &all, &places, at, room)? {
            places.push(at);
        }
    }
    Ok(places)
}

/// The last places at which the kept children can stand among all.
fn latest_places(all: &[Vec<Row>], kept: &[Vec<Row>]) -> Vec<usize> {
    let mut places = Vec::new();
    let mut end = all.len();
    for child in kept.iter().rev() {
        end = all[..end].iter().rposition(|one| one == child).expect("a child of the sheet");
        places.push(end);
    }
    places.reverse();
    places
}

/// Whether Solve says false of the children kept so far and all behind child `at`.
fn says_false_without(
    sheet: &Sheet,
    all: &[Vec<Row>],
    kept: &[usize],
    at: usize,
    room: usize,
) -> Result<bool, Refusal> {
    let later = &all[at + 1..];
    let mut matrix = vec![Row::new(AND, kept.len() + later.len())];
    matrix.extend(kept.iter().map(|&at| &all[at]).chain(later).flatten());
    let prefix = Formula::decode(sheet.format, &sheet.bytes).prefix;
    let bytes = Formula { prefix, matrix }.encode(sheet.format);
    let solved = Sheet { format: sheet.format, bytes }.solve(room)?;
    Ok(solved.verdict == Some(false))
}

/// Makes the call; if it takes longer than a second, says so now and then, of a sheet of so many
/// bytes, or of none.
fn watched<T>(length: Option<usize>, call: impl FnOnce() -> T) -> T {
    let Some(length) = length else { return call() };
    let (done, wait) = channel::<()>();
    std::thread::scope(|scope| {
        scope.spawn(move || watch(&wait, length));
        let answer = call();
        drop(done);
        answer
    })
}

fn watch(wait: &Receiver<()>, length: usize) {
    let start = Instant::now();
    let mut pause = Duration::from_secs(1);
    // The call is over when its end of the channel is dropped.
    while wait.recv_timeout(pause) == Err(RecvTimeoutError::Timeout) {
        let seconds = start.elapsed().as_secs();
        tell(&format!("plumanchor: guards of a sheet of {length} bytes: {seconds} s so far\n"));
        pause = Duration::from_secs(5);
    }
}
