//! The commands `split` and `join`, against the reference; and the work spread
//! as docs/MANUAL.md shows it, with workers that fail.

mod common;

use common::{called, example, text, write_script, READING};
use outside::generate::{self, cases, Limits, Rng};
use outside::reference::{join_answers, Formula};
use outside::truth;
use std::path::{Path, PathBuf};
use std::process::{Command, Stdio};

const ROOT: &str = concat!(env!("CARGO_MANIFEST_DIR"), "/..");

/// A folder to work in, which goes when it is dropped.
struct Folder(PathBuf);

impl Folder {
    fn new(name: &str) -> Folder {
        let name = format!("plumanchor-spread-{name}-{}", std::process::id());
        let folder = std::env::temp_dir().join(name);
        std::fs::create_dir_all(folder.join("bin")).expect("a folder");
        let tool = env!("CARGO_BIN_EXE_plumanchor-tool");
        std::os::unix::fs::symlink(tool, folder.join("bin/plumanchor")).expect("a link");
        Folder(folder)
    }

    fn path(&self, name: &str) -> String {
        self.0.join(name).to_str().expect("a name").to_string()
    }

    fn write(&self, name: &str, text: &str) {
        std::fs::write(self.0.join(name), text).expect("a file");
    }

    /// What lines of shell write, in this folder, with the tool on the path as 'plumanchor'.
    fn shell(&self, lines: &str) -> (String, String) {
        let path = std::env::var("PATH").expect("a path");
        let mut shell = Command::new("bash");
        shell.args(["-c", lines]).current_dir(&self.0).stdin(Stdio::null());
        shell.env("PATH", format!("{}:{path}", self.path("bin"))).env("HOME", &self.0);
        let output = shell.output().expect("a shell");
        (text(output.stdout), text(output.stderr))
    }
}

impl Drop for Folder {
    fn drop(&mut self) {
        // What is left in a folder for temporary files does no harm.
        let _ = std::fs::remove_dir_all(&self.0);
    }
}

/// A formula of several variables, and how many of them are split on.
fn question(rng: &mut Rng) -> (Formula, usize) {
    loop {
        let limits = Limits { format: READING.format, variables: 7, nodes: 40 };
        let formula = generate::formula(rng, limits);
        let variables = formula.prefix.len();
        if variables > 0 {
            return (formula, rng.between(1, variables.min(4)));
        }
    }
}

fn bits(at: usize, k: usize) -> String {
    format!("{at:0k$b}")
}

#[test]
fn the_sheets_are_the_references() {
    let folder = Folder::new("sheets");
    cases(60, |rng| {
        let (formula, k) = question(rng);
        let sheet = READING.format.encode(&formula);
        let target = folder.path("work");
        let ended = called(&["split", "--from", "wide", &k.to_string(), "-", &target], &sheet);
        assert_eq!((ended.status, ended.output.len()), (0, 0), "{}", ended.message);
        let list = std::fs::read_to_string(format!("{target}/list")).expect("the list");
        let expected: String =
            (0..1 << k).map(|at| format!("{0} {0}.sheet\n", bits(at, k))).collect();
        assert_eq!(list, expected);
        for at in 0..1 << k {
            let values: Vec<u8> = bits(at, k).bytes().map(|bit| bit - b'0').collect();
            let mut output = vec![0; READING.format.longest_sheet()];
            let length = READING.split(&sheet, &values, &mut output).accepted().expect("a part");
            let written = std::fs::read(format!("{target}/{}.sheet", bits(at, k)));
            assert_eq!(written.expect("a sheet"), &output[..length]);
        }
    });
}

/// Answers in any order, some missing, some unknown, some twice: the verdict is the reference's,
/// with the lines up to where there is one; what is spare may be anything, and what is open isn't.
#[test]
fn the_verdict_is_the_references() {
    let folder = Folder::new("verdicts");
    let file = folder.path("answers");
    let mut seen = [0; 3];
    cases(1_500, |rng| {
        let (formula, k) = question(rng);
        let sheet = READING.format.encode(&formula);
        let mut known: Vec<Option<bool>> =
            (0..1 << k).map(|_| (!rng.one_in(4)).then(|| rng.one_in(2))).collect();
        let mut order: Vec<usize> = (0..1 << k).filter(|_| !rng.one_in(10)).collect();
        order.extend((0..rng.below(3)).map(|_| rng.below(1 << k)).collect::<Vec<_>>());
        rng.shuffle(&mut order);
        let missing: Vec<usize> = (0..1 << k).filter(|at| !order.contains(at)).collect();
        missing.iter().for_each(|&at| known[at] = None);
        let lines: String = order.iter().map(|&at| line(rng, &bits(at, k), known[at])).collect();
        std::fs::write(&file, &lines).expect("a file");
        let ended = called(&["join", "--json", "--from", "wide", "-", &file], &sheet);
        let verdict = join_answers(&formula.prefix[..k], &known);
        if lines.is_empty() {
            assert_eq!((ended.status, ended.output.len()), (1, 0));
            return;
        }
        assert_eq!(ended.status, 0, "{}", ended.message);
        let object = text(ended.output);
        let word = verdict.map_or("unknown".to_string(), |verdict| verdict.to_string());
        assert!(object.starts_with(&format!("{{\"answer\":\"{word}\",")), "{object}");
        seen[verdict.map_or(2, usize::from)] += 1;
        let listed: Vec<&str> = object.split('"').skip(7).step_by(2).collect();
        let mut other = known.clone();
        match verdict {
            // Without all that is spare, and with any of it, the verdict is the same.
            Some(_) => {
                let is_spare = |at: usize| {
                    listed.iter().any(|word| bits(at, k).starts_with(word.trim_end_matches('*')))
                };
                for known in [None, Some(false), Some(true)] {
                    (0..1 << k).filter(|&at| is_spare(at)).for_each(|at| other[at] = known);
                    assert_eq!(join_answers(&formula.prefix[..k], &other), verdict, "{object}");
                }
            }
            // Those that are open decide it either way, and others don't.
            None => {
                for value in [false, true] {
                    let place = |word: &&str| usize::from_str_radix(word, 2).expect("values");
                    listed.iter().map(place).for_each(|at| {
                        assert_eq!(known[at], None);
                        other[at] = Some(value);
                    });
                    assert_eq!(join_answers(&formula.prefix[..k], &other), Some(value), "{object}");
                }
            }
        }
    });
    assert!(seen.iter().all(|&count| count > 150), "{seen:?}");
}

/// An answer as somebody writes it, or a command.
fn line(rng: &mut Rng, bits: &str, known: Option<bool>) -> String {
    let endings = match known {
        Some(_) => [
            "",
            " 3 4 0",
            " by expansion: 0 settled, 3 expanded",
            " by splitting: 17 runs",
            " by certificate: 1 step",
        ],
        None => ["", "", " after 1 run", " after 20 runs", ""],
    };
    let word = known.map_or("unknown".to_string(), |known| known.to_string());
    let blank = rng.pick(&[" ", "\t", "  "]);
    let end = rng.pick(&["\n", "\n", "\n\n", "\r\n"]);
    format!("{bits}{blank}{word}{}{end}", rng.pick(&endings))
}

#[test]
fn lines_that_are_refused() {
    let folder = Folder::new("refused");
    let sheet = example("press-line");
    let joined = |answers: &str| {
        folder.write("answers", answers);
        called(&["join", &sheet, &folder.path("answers")], &[])
    };
    for (answers, told) in [
        ("", "answers: no answer"),
        ("\n \n", "answers: no answer"),
        ("000 true\n00 true\n", "line 2: '00' has not 3 values"),
        ("000 true\n000 false\n", "line 2: 000 is false, and true in line 1"),
        ("000 true\n\n001 true\n000 false\n", "line 4: 000 is false, and true in line 1"),
        ("000\n", "line 1: '' is no answer"),
        ("000 maybe\n", "line 1: 'maybe' is no answer"),
        ("000 refused 0 0 7\n", "line 1: 'refused 0 0 7' is no answer"),
        ("000 true 1 2 3\n", "line 1: 'true 1 2 3' is no answer"),
        ("000 unknown by splitting: 3 runs\n", "is no answer"),
        ("000 true by luck: 3 runs\n", "line 1: 'true by luck: 3 runs' is no answer"),
        ("012 true\n", "line 1: '012' is no list of up to 16 values, 0 and 1"),
        ("00000000000000000 true\n", "is no list of up to 16 values"),
        ("00000 true\n", "refused 22: "),
    ] {
        let ended = joined(answers);
        assert_eq!((ended.status, ended.output.len()), (1, 0), "{answers}");
        assert!(ended.message.contains(told), "{answers}{}", ended.message);
    }
    // A stop is no verdict. Lines behind a verdict aren't read, as from a pipe.
    assert_eq!(text(joined("0 stopped 0 3 stop\n").output), "unknown\n");
    let ended = joined("0 stopped\n0 false 0 0 0\nno answer\n");
    assert_eq!(
        (text(ended.output), ended.message),
        ("false\n".into(), "plumanchor: not needed: 1\n".into())
    );
    for arguments in [
        &["split", "0", &sheet, "work"][..],
        &["split", "17", &sheet, "work"],
        &["split", "1", &sheet],
        &["split", &sheet, "work"],
        &["split", "1", "-", "-"],
        &["split", "1", &sheet, "/dev/null"],
        &["join", &sheet],
        &["join", "-", "-"],
        &["join", &sheet, "no/such/file"],
        &["join", &sheet, "/"],
    ] {
        let ended = called(arguments, &[]);
        assert_eq!((ended.status, ended.output.len()), (2, 0), "{arguments:?} {}", ended.message);
    }
    let ended = called(&["split", "5", &sheet, &folder.path("none")], &[]);
    assert!(ended.status == 1 && ended.message.contains("refused 22: "), "{}", ended.message);
    assert!(!Path::new(&folder.path("none")).exists());
}

/// The code that the manual shows behind a line that begins so.
fn shown(beginning: &str) -> String {
    let page = std::fs::read_to_string(Path::new(ROOT).join("docs/MANUAL.md")).expect("the manual");
    let behind = page.lines().skip_while(|line| !line.starts_with(beginning)).skip(2);
    let code = behind.map_while(|line| line.strip_prefix("    "));
    let code: Vec<&str> = code.collect();
    assert!(code.len() > 1, "{beginning}");
    code.join("\n") + "\n"
}

/// A worker in place of the tool, which fails on its first call for some values.
const FAILING: &str = "#!/bin/bash
if [[ $1 == decide && $* == *01.sheet && ! -e $HOME/failed-${!#//\\//-} ]]; then
    touch \"$HOME/failed-${!#//\\//-}\"
    echo 'true by chance'
    exit 1
fi
exec \"$TOOL\" \"$@\"
";

impl Folder {
    /// A question, and the worker in place of the tool.
    fn with_worker(&self) -> bool {
        let mut rng = Rng::new(11);
        let limits = Limits { format: READING.format, variables: 9, nodes: 200 };
        let formula = generate::tidy_formula(&mut rng, limits);
        std::fs::write(self.0.join("SHEET"), READING.format.encode(&formula)).expect("a file");
        std::fs::remove_file(self.0.join("bin/plumanchor")).expect("the link");
        let tool = env!("CARGO_BIN_EXE_plumanchor-tool");
        write_script(&self.path("bin/plumanchor"), &FAILING.replace("$TOOL", tool));
        truth::is_true(&formula)
    }

    fn failed(&self) -> usize {
        let (count, _) = self.shell("ls | grep -c '^failed'");
        count.trim().parse().expect("a count")
    }
}

#[test]
fn by_parallel() {
    let folder = Folder::new("parallel");
    let verdict = folder.with_worker();
    let (output, told) = folder.shell(&shown("With GNU `parallel`"));
    assert_eq!(output, format!("{verdict}\n"), "{told}");
    // To the end, from a file.
    let lines = shown("With GNU `parallel`").replace("| plumanchor join SHEET -", "> answers");
    let (_, told) = folder.shell(&format!("rm failed-*; {lines}"));
    let answers = std::fs::read_to_string(folder.0.join("answers")).expect("answers");
    assert_eq!((folder.failed(), answers.lines().count()), (2, 8), "{told}{answers}");
    assert!(!answers.contains("chance"), "{answers}");
    assert_eq!(folder.shell("plumanchor join SHEET answers").0, format!("{verdict}\n"));
}

#[test]
fn by_make_and_by_a_batch_array() {
    let folder = Folder::new("make");
    let verdict = format!("{}\n", folder.with_worker());
    folder.write("Makefile", &shown("With `make -j 8 answers`"));
    let calls = "plumanchor split 3 SHEET work; make -k -j 2 answers; test -e answers || echo none;
                 make -j 2 answers > /dev/null && plumanchor join SHEET answers";
    let (output, told) = folder.shell(calls);
    assert!(output.contains("none\n") && output.ends_with(&verdict), "{output}{told}");
    assert_eq!(folder.failed(), 2);
    folder.write("job", &shown("As an array of Slurm"));
    let calls = "rm failed-* work/*.answer; each() { for SLURM_ARRAY_TASK_ID in $(seq $(wc -l < work/list)); do
                 export SLURM_ARRAY_TASK_ID; bash job; done; }; each; ls work/*.answer | wc -l; each;
                 cat work/*.answer | plumanchor join SHEET -";
    let (output, told) = folder.shell(calls);
    assert_eq!(output, format!("6\n{verdict}"), "{told}");
}
