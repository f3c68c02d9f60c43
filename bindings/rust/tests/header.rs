//! The header for C and C++: it compiles without a warning, takes answers apart as the Rust here
//! does, and has the same version, limits, refusals and functions as all else.

mod common;

use common::{compile, output, root, Folder, LANGUAGES};
use outside::examples::examples;
use outside::generate::Rng;
use plumanchor::{
    packed, ClaimPart, ClaimRefusal, Counts, DecideEnd, Format, Guarded, Operation, Outcome,
    PairRefusal, Quantifier, Reason, Refusal, Solved, Strategy, TRIAL_VARIABLES,
};
use std::cmp::Ordering;
use std::process::Command;

const LIBRARY: &str = "target/staticlib/libplumanchor.a";

/// A program of `bindings/c` in each language, compiled with the header in this repository.
fn programs(folder: &Folder, name: &str, linked: &[String]) -> Vec<Command> {
    let source = root(&format!("bindings/c/{name}.c"));
    let include = format!("-I{}", root("include").display());
    let more: Vec<String> = [include].iter().chain(linked).cloned().collect();
    let compiled = LANGUAGES.map(|language| {
        let program = folder.path(&format!("{name}-{}", language.2));
        compile(language, &source, &more, &program);
        Command::new(program)
    });
    compiled.into()
}

/// Mostly numbers that an operation may return, and some that none does.
fn packed_number(rng: &mut Rng) -> u64 {
    let number = if rng.one_in(3) { rng.word() & 0xff } else { 0 };
    let word = if rng.one_in(4) { rng.word() & 0xff } else { rng.word() % 5 };
    let low = if rng.one_in(2) { rng.word() & 0xffff } else { rng.word() % 3 };
    let high = if rng.one_in(2) { rng.word() >> 32 } else { rng.word() % 9000 };
    number | word << 8 | low << 16 | high << 32
}

/// The refusal and its place, 0 and 0 for none; and what is told of an accepted answer, else so
/// many zeros.
fn told<T>(
    name: &str,
    answer: Result<T, Refusal>,
    fields: usize,
    tell: impl FnOnce(T) -> Vec<usize>,
) -> String {
    let numbers = match answer {
        Err(Refusal { number, place }) => [vec![number.into(), place], vec![0; fields]].concat(),
        Ok(value) => [vec![0, 0], tell(value)].concat(),
    };
    let words: Vec<String> = numbers.iter().map(usize::to_string).collect();
    format!("{name} {}", words.join(" "))
}

fn verdict(verdict: Option<bool>) -> usize {
    verdict.map_or(2, usize::from)
}

fn told_solved(Solved { verdict: ended, settled, expanded, variable }: Solved) -> Vec<usize> {
    vec![verdict(ended), variable, settled, expanded]
}

fn told_guarded(guarded: Guarded<usize>) -> Vec<usize> {
    match guarded {
        Guarded::True { settled, expanded } => vec![1, 0, 0, 0, settled, expanded],
        Guarded::Stopped { variable, settled, expanded } => {
            vec![2, 0, 0, variable, settled, expanded]
        }
        Guarded::Kept { sheet, stops } => vec![0, sheet, stops, 0, 0, 0],
    }
}

fn told_outcome(outcome: Outcome) -> [usize; 2] {
    match outcome {
        Outcome::Neither => [0, 0],
        Outcome::Zero => [1, 0],
        Outcome::One => [2, 0],
        Outcome::Both => [3, 0],
        Outcome::Stopped(variable) => [4, variable],
    }
}

fn told_compared(compared: Result<Ordering, PairRefusal>) -> String {
    match compared {
        Err(PairRefusal { sheet, refusal: Refusal { number, place } }) => {
            format!("compared {number} {place} {sheet} 0")
        }
        Ok(order) => format!("compared 0 0 0 {}", order as i8 + 1),
    }
}

fn told_planned(planned: Strategy<usize>) -> Vec<usize> {
    match planned {
        Strategy::Written { verdict, settled, expanded, sheet } => {
            vec![verdict.into(), settled, expanded, 0, sheet, 0]
        }
        Strategy::TooLong { verdict, settled, expanded, rows } => {
            vec![verdict.into(), settled, expanded, 0, 0, rows]
        }
        Strategy::Stopped { variable, settled, expanded } => {
            vec![2, settled, expanded, variable, 0, 0]
        }
    }
}

fn told_claimed(claimed: Result<usize, ClaimRefusal>) -> String {
    match claimed {
        Err(ClaimRefusal { at, refusal: Refusal { number, place } }) => {
            let at = match at {
                ClaimPart::Output => 0,
                ClaimPart::Sheet => 1,
                ClaimPart::Strategy => 2,
            };
            format!("claimed {number} {place} {at} 0")
        }
        Ok(length) => format!("claimed 0 0 0 {length}"),
    }
}

/// The line of `bindings/c/unpack.c` by the Rust here.
fn unpacked(answer: u64, counts: Counts) -> String {
    let turn = |turn| if turn == Quantifier::Exists { 1 } else { 2 };
    [
        told("sizes", packed::sizes(answer), 2, |sizes| vec![sizes.variables, sizes.nodes]),
        told("tried", packed::tried(answer), 2, |tried| vec![tried.verdict.into(), tried.leaves]),
        told("written", packed::written(answer), 1, |length| vec![length]),
        told("quoted", packed::quoted(answer), 1, |rows| vec![rows]),
        told("copied", packed::copied(answer), 3, |copied| {
            vec![copied.sheet, copied.count, copied.lowest]
        }),
        told("solved", packed::solved(answer), 4, told_solved),
        told("resumed", packed::resumed(answer, counts), 4, told_solved),
        told("guarded", packed::guarded(answer), 6, told_guarded),
        told("forced", packed::forced(answer), 3, |forced| {
            [&[turn(forced.turn)], &told_outcome(forced.outcome)[..]].concat()
        }),
        told_compared(packed::compared(answer)),
        told("planned", packed::strategy(answer), 6, told_planned),
        told_claimed(packed::claimed(answer)),
        told("certified", packed::certified(answer), 2, |certified| match certified {
            Ok(verdict) => vec![verdict.into(), 0],
            Err(step) => vec![2, step],
        }),
        told("decided", packed::decided(answer), 2, |decided| {
            let word = match decided.end {
                DecideEnd::Ended => verdict(decided.verdict),
                DecideEnd::NoPlace => 2,
                DecideEnd::Spent => 3,
            };
            vec![word, decided.runs]
        }),
        told("joined", packed::joined(answer), 1, |joined| vec![verdict(joined)]),
    ]
    .join(" ")
}

#[test]
fn answers_are_taken_apart_alike() {
    let folder = Folder::new("unpack");
    let mut rng = Rng::new(outside::generate::run_seed());
    let cases: Vec<(u64, Counts)> = (0..50_000)
        .map(|_| {
            let [settled, expanded] = [(); 2].map(|()| (rng.word() >> (rng.word() % 64)) as usize);
            (packed_number(&mut rng), Counts { started: 0, settled, expanded })
        })
        .collect();
    let line = |(answer, counts): &(u64, Counts)| {
        format!("{answer:x} {:x} {:x}\n", counts.settled, counts.expanded)
    };
    let input: String = cases.iter().map(line).collect();
    for mut program in programs(&folder, "unpack", &[]) {
        let told = output(&mut program, &input);
        assert_eq!(told.lines().count(), cases.len());
        for (line, &(answer, counts)) in told.lines().zip(&cases) {
            assert_eq!(line, unpacked(answer, counts), "{answer:x} {counts:x?}");
        }
    }
}

#[test]
fn constants_and_words_are_those_of_rust() {
    let folder = Folder::new("constants");
    let version = env!("CARGO_PKG_VERSION");
    let parts: Vec<usize> =
        version.split('.').map(|part| part.parse().expect("a number")).collect();
    let [major, minor, patch] = parts[..] else { panic!("three parts: {version}") };
    let number = major * 10_000 + minor * 100 + patch;
    let mut expected = format!("version {version} {major} {minor} {patch} {number}\n");
    for format in Format::ALL {
        let (most_variables, most_nodes) = (format.most_variables(), format.most_nodes());
        let (width, header, row) = (format.width(), format.header(), format.row());
        let longest = format.longest();
        expected +=
            &format!("{format} {width} {most_variables} {most_nodes} {header} {row} {longest}\n");
    }
    expected += &format!("trial {TRIAL_VARIABLES}\n");
    expected += &format!("steps {} {}\n", Operation::Settle as u8, Operation::Expand as u8);
    expected += "0 accepted\n";
    for number in 1..=255 {
        let refusal = Refusal { number, place: 0 };
        assert!(refusal.reason().is_none_or(|reason| reason.number() == number));
        expected += &format!("{number} {}\n", refusal.text());
    }
    assert_eq!(Reason::from_number(30), None);
    for mut program in programs(&folder, "unpack", &[]) {
        assert_eq!(output(program.arg("constants"), ""), expected);
    }
}

/// The archive's objects show the functions declared and nothing else, so that no two meet.
#[test]
fn the_library_shows_its_functions_alone() {
    let symbols =
        output(Command::new("nm").args(["-A", "-g", "--defined-only"]).arg(root(LIBRARY)), "");
    let mut shown: Vec<&str> = symbols.lines().filter_map(|line| line.rsplit(' ').next()).collect();
    shown.sort_unstable();
    let mut declared: Vec<&str> = plumanchor::DECLARED.iter().map(|function| function.0).collect();
    declared.sort_unstable();
    assert_eq!(shown, declared);
}

#[test]
fn programs_in_c_and_in_cpp_link_the_library() {
    let folder = Folder::new("link");
    let library = root(LIBRARY).display().to_string();
    for program in programs(&folder, "solve", &[library]) {
        for example in examples().iter().filter(|example| !example.line.starts_with("refused")) {
            let sheet = root(&format!("examples/{}.sheet", example.name));
            let told = output(Command::new(program.get_program()).arg(sheet), "");
            assert_eq!(told, format!("{}\n", example.line));
        }
    }
}
