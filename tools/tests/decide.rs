//! The command `decide`: verdicts by each of its ways, on sheets that Solve
//! stops on and on those that it doesn't, and what is left behind.

mod common;

use common::{answered, called, example, text, READING};
use outside::generate::{self, cases, Limits};
use outside::literature::LITERATURE;
use outside::reference::{DecideAnswer, Format};
use outside::truth;
use std::io::{BufRead, BufReader, Read, Write};
use std::path::PathBuf;
use std::process::{Command, Stdio};
use std::thread::sleep;
use std::time::{Duration, Instant};

/// What the line says: the verdict's word, and how it was found.
fn decided(options: &[&str], sheet: &[u8]) -> (String, String) {
    let arguments: Vec<&str> =
        ["decide", "--from", "wide"].iter().chain(options).copied().collect();
    let ended = called(&arguments, sheet);
    assert_eq!(ended.status, 0, "{}", ended.message);
    let line = text(ended.output);
    let words: Vec<&str> = line.split([' ', ':', '\n']).collect();
    (words[0].to_string(), words[2].to_string())
}

/// In short buffers most runs stop. The verdict and the runs are the reference's.
#[test]
fn by_splitting() {
    let (mut verdicts, mut runs_seen) = ([0; 2], 0);
    cases(600, |rng| {
        let limits = Limits { format: Format::WIDE, variables: 8, nodes: 60 };
        let formula = generate::tidy_formula(rng, limits);
        let sheet = READING.format.encode(&formula);
        let room = sheet.len() + rng.below(20);
        let answer = READING.decide_formula(&formula, room, formula.prefix.len(), usize::MAX);
        let DecideAnswer::Ended { verdict, runs } = answer else { panic!("{answer:?}") };
        assert_eq!(verdict, truth::is_true(&formula));
        let told = called(
            &["decide", "--from", "wide", "--search", "none", "--room", &room.to_string()],
            &sheet,
        );
        let line = text(told.output);
        if runs == 1 {
            assert!(line.starts_with(&format!("{verdict} by expansion: ")), "{line}");
            return;
        }
        assert_eq!(line, format!("{verdict} by splitting: {runs} runs\n"));
        // One run fewer than it takes leaves the verdict open.
        let fewer = (runs - 1).to_string();
        let told = called(
            &[
                "decide",
                "--from",
                "wide",
                "--search",
                "none",
                "--runs",
                &fewer,
                "--room",
                &room.to_string(),
            ],
            &sheet,
        );
        let line = text(told.output);
        let ending = if runs == 2 { "run" } else { "runs" };
        assert_eq!(line, format!("unknown after {fewer} {ending}\n"));
        verdicts[usize::from(verdict)] += 1;
        runs_seen = runs_seen.max(runs);
    });
    assert!(verdicts.iter().all(|&count| count > 50) && runs_seen > 5, "{verdicts:?} {runs_seen}");
}

/// With no runs to split by, on any tree.
#[test]
fn by_certificate() {
    let mut verdicts = [0; 2];
    cases(200, |rng| {
        let limits = Limits { format: Format::WIDE, variables: 8, nodes: 60 };
        let formula = generate::tidy_formula(rng, limits);
        let sheet = READING.format.encode(&formula);
        let room = sheet.len().to_string();
        let (word, way) = decided(&["--runs", "1", "--room", &room], &sheet);
        if way == "expansion" {
            return;
        }
        assert_eq!((word, way.as_str()), (truth::is_true(&formula).to_string(), "certificate"));
        verdicts[usize::from(truth::is_true(&formula))] += 1;
    });
    assert!(verdicts.iter().all(|&count| count > 20), "{verdicts:?}");
}

/// A folder with programs that are taken for solvers, which goes when it is dropped.
struct Folder(PathBuf);

impl Folder {
    fn new(name: &str) -> Folder {
        let name = format!("plumanchor-decide-{name}-{}", std::process::id());
        let folder = std::env::temp_dir().join(name);
        std::fs::create_dir_all(&folder).expect("a folder");
        Folder(folder)
    }

    /// A script that is called as a solver is.
    fn solver(&self, name: &str, script: &str) -> String {
        let file = self.0.join(name).to_str().expect("a name").to_string();
        common::write_script(&file, &format!("#!/bin/sh\n{script}\n"));
        file
    }
}

impl Drop for Folder {
    fn drop(&mut self) {
        // What is left in a folder for temporary files does no harm.
        let _ = std::fs::remove_dir_all(&self.0);
    }
}

/// A sheet that is false, and on which Solve stops.
fn crowded() -> String {
    example("crowded")
}

#[test]
fn the_word_of_a_solver_counts_for_nothing() {
    let folder = Folder::new("solvers");
    let whole = "exec depqbf \"$@\"";
    let line = text(answered(
        &["decide", "--runs", "1", "--search", &folder.solver("whole", whole), &crowded()],
        &[],
    ));
    assert!(line.starts_with("false by certificate: "), "{line}");
    for (name, script, told) in [
        ("silent", "cat > /dev/null", "is refused: line 1: the trace ends without a verdict"),
        ("failing", "exit 3", "is refused: line 1: the trace ends without a verdict"),
        ("true", "printf 'p qrp 0 0\\n1 0 0\\nr SAT\\n'", "is refused: line 2: a clause of the"),
        ("false", "printf 'p qrp 0 0\\n1 0 0\\nr UNSAT\\n'", "is refused: line 2: the clause has"),
        ("other", "exec depqbf \"$@\" | sed 's/r UNSAT/r SAT/'", "is refused: line "),
        ("cut", "exec depqbf \"$@\" | head -n -2", "is refused: line "),
        ("noise", "head -c 100000 /dev/urandom", "is refused: line 1: "),
    ] {
        let search = folder.solver(name, script);
        let ended = called(&["decide", "--runs", "1", "--search", &search, &crowded()], &[]);
        let answer = (ended.status, text(ended.output));
        assert_eq!(answer, (0, "unknown after 1 run\n".to_string()), "{name}");
        assert!(ended.message.contains(told), "{name}: {}", ended.message);
    }
    for (search, told) in [
        ("no-such-solver", "no 'no-such-solver' on the path, so nothing was searched"),
        ("/dev/null", "'/dev/null' can't be run"),
    ] {
        let ended = called(&["decide", "--runs", "1", "--search", search, &crowded()], &[]);
        assert_eq!(text(ended.output), "unknown after 1 run\n");
        assert!(ended.message.contains(told), "{}", ended.message);
    }
}

/// A solver that never ends, with its process in a file.
const ENDLESS: &str = "echo $$ > \"$0.process\"; exec sleep 600";

/// Whether the endless solver has been started, and runs.
fn runs(solver: &str) -> Option<bool> {
    let process = std::fs::read_to_string(format!("{solver}.process")).ok()?;
    let process = process.trim();
    (!process.is_empty()).then(|| PathBuf::from(format!("/proc/{process}/exe")).exists())
}

/// Whether something comes to hold within some seconds.
fn comes_to_hold(what: impl Fn() -> bool) -> bool {
    let start = Instant::now();
    while !what() {
        if start.elapsed() > Duration::from_secs(20) {
            return false;
        }
        sleep(Duration::from_millis(5));
    }
    true
}

#[test]
fn the_time_is_kept() {
    let folder = Folder::new("time");
    let solver = folder.solver("endless", ENDLESS);
    let start = Instant::now();
    let call = ["decide", "--runs", "1", "--seconds", "1", "--search", &solver, &crowded()];
    let ended = called(&call, &[]);
    assert_eq!(text(ended.output), "unknown after 1 run\n");
    let seconds = start.elapsed().as_secs_f64();
    assert!((1.0..5.0).contains(&seconds), "{seconds}");
    assert_eq!(runs(&solver), Some(false));
}

/// Ctrl-C and the end of a batch job: how far it got is said, and the solver ends.
#[test]
fn an_interruption_leaves_nothing_behind() {
    let folder = Folder::new("interrupted");
    for (signal, status) in [("INT", 130), ("TERM", 143)] {
        let solver = folder.solver(signal, ENDLESS);
        let mut tool = Command::new(env!("CARGO_BIN_EXE_plumanchor-tool"));
        tool.args(["decide", "--quiet", "--runs", "1", "--search", &solver, &crowded()]);
        let tool = tool.stdin(Stdio::null()).stdout(Stdio::piped()).stderr(Stdio::piped());
        let tool = tool.spawn().expect("the tool");
        assert!(comes_to_hold(|| runs(&solver) == Some(true)));
        let mut kill = Command::new("kill");
        kill.arg(format!("-{signal}")).arg(tool.id().to_string());
        assert!(kill.status().expect("kill").success());
        let output = tool.wait_with_output().expect("its output");
        assert_eq!((output.status.code(), output.stdout.len()), (Some(status), 0));
        let told = "\nplumanchor: interrupted without a verdict; runs of Solve: 1\n";
        assert_eq!(text(output.stderr), told);
        assert!(comes_to_hold(|| runs(&solver) == Some(false)));
    }
}

/// After a second it is told how far it is. Ctrl-C and the end of a batch job tell the same.
#[test]
fn how_far_it_is() {
    let question = LITERATURE.iter().find(|family| family.name == "QParity").expect("the family");
    for (signal, status) in [("INT", 130), ("TERM", 143)] {
        let mut tool = Command::new(env!("CARGO_BIN_EXE_plumanchor-tool"));
        tool.args(["decide", "--search", "none"])
            .stdin(Stdio::piped())
            .stdout(Stdio::piped())
            .stderr(Stdio::piped());
        let mut tool = tool.spawn().expect("the tool");
        let written = question.qdimacs(80).text();
        tool.stdin.take().expect("a pipe").write_all(written.as_bytes()).expect("its input");
        let mut told = BufReader::new(tool.stderr.take().expect("a pipe"));
        let mut line = String::new();
        told.read_line(&mut line).expect("a line");
        assert!(line.starts_with("plumanchor: splitting, more than "), "{line}");
        assert!(line.ends_with(" runs, 1 s so far\n"), "{line}");
        let mut kill = Command::new("kill");
        kill.arg(format!("-{signal}")).arg(tool.id().to_string());
        assert!(kill.status().expect("kill").success());
        let output = tool.wait_with_output().expect("its output");
        assert_eq!((output.status.code(), output.stdout.len()), (Some(status), 0));
        line.clear();
        told.read_to_string(&mut line).expect("text");
        let beginning = "\nplumanchor: interrupted without a verdict; runs of Solve: ";
        let runs = line.strip_prefix(beginning).and_then(|rest| rest.trim_end().parse().ok());
        assert!(runs.is_some_and(|runs: usize| runs > 1), "{line}");
    }
}
