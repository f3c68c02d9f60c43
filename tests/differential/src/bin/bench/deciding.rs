//! What is decided of one fixed set of clause sets, random ones and families from the literature:
//! by Solve, by splitting alone and by `decide`, whose verdicts are proved or checked by what is
//! proved; and by a solver from outside alone, whose verdicts aren't. And how the runs of Decide
//! grow on the families.

use crate::decided_set::{decided_set, Question};
use crate::page::{section, shown, Table};
use differential::WIDE;
use outside::depqbf;
use outside::literature::{Literature, LITERATURE};
use outside::reference::SolveAnswer;
use plumanchor::{Format, Sheet};
use std::collections::BTreeMap;
use std::io::Write;
use std::process::{Command, Stdio};
use std::time::{Duration, Instant};

const TOOL: &str = concat!(env!("CARGO_MANIFEST_DIR"), "/../../build/release/plumanchor-tool");

/// How long each may take.
const LIMIT: Duration = Duration::from_secs(10);

/// So that a search that takes far longer ends.
const MOST_RUNS: usize = 100_000;

/// A verdict if there is one, how it was found, and how long that took.
struct Tried {
    verdict: Option<bool>,
    way: String,
    time: Duration,
}

fn timed(call: impl FnOnce() -> (Option<bool>, String)) -> Tried {
    let start = Instant::now();
    let (verdict, way) = call();
    Tried { verdict, way, time: start.elapsed() }
}

fn solve(question: &Question) -> Tried {
    let format = WIDE.reading.format;
    let sheet = format.encode(&question.formula);
    let [mut first, mut second] = [(); 2].map(|()| vec![0; format.longest_sheet()]);
    timed(|| match WIDE.solve(&sheet, &mut first, &mut second) {
        SolveAnswer::Ended { verdict, .. } => (Some(verdict), "expansion".into()),
        _ => (None, String::new()),
    })
}

/// The command's line: the verdict, 'by', and the way.
fn decide(question: &Question, options: &[&str]) -> Tried {
    let limit = LIMIT.as_secs().to_string();
    timed(|| {
        let mut command = Command::new(TOOL);
        command.args(["decide", "--quiet", "--seconds", &limit]).args(options);
        command.stdin(Stdio::piped()).stdout(Stdio::piped());
        let line = command.spawn().and_then(|mut process| {
            process.stdin.take().expect("a pipe").write_all(question.text.as_bytes())?;
            Ok(String::from_utf8_lossy(&process.wait_with_output()?.stdout).into_owned())
        });
        let line = line.unwrap_or_default();
        let mut words = line.split([' ', ':']);
        let verdict = words.next().and_then(|word| word.parse().ok());
        (verdict, words.nth(1).unwrap_or_default().to_string())
    })
}

fn searched(question: &Question) -> Tried {
    timed(|| (depqbf::verdict_within(&question.text, LIMIT).ok().flatten(), String::new()))
}

/// What one way has decided of a group, and how long it took for these.
#[derive(Default)]
struct Total {
    decided: usize,
    time: Duration,
    ways: BTreeMap<String, usize>,
}

impl Total {
    fn add(&mut self, tried: &Tried) {
        if tried.verdict.is_some() {
            self.decided += 1;
            self.time += tried.time;
            *self.ways.entry(tried.way.clone()).or_default() += 1;
        }
    }

    fn told(&self) -> String {
        match self.decided {
            0 => "0".into(),
            decided => format!("{decided} in {}", shown(self.time)),
        }
    }
}

/// The questions of one group, by each way.
fn group(questions: &[Question], wrong: &mut usize) -> [Total; 4] {
    let mut totals: [Total; 4] = Default::default();
    for question in questions {
        let tried = [
            solve(question),
            decide(question, &["--search", "none"]),
            decide(question, &[]),
            searched(question),
        ];
        let verdicts = tried.iter().filter_map(|tried| tried.verdict);
        let known: Vec<bool> = verdicts.chain(question.verdict).collect();
        *wrong += usize::from(known.windows(2).any(|pair| pair[0] != pair[1]));
        totals.iter_mut().zip(&tried).for_each(|(total, tried)| total.add(tried));
    }
    totals
}

fn row(table: &mut Table<6>, name: String, count: usize, totals: &[Total; 4]) {
    let [solve, split, decide, searched] = totals.each_ref().map(Total::told);
    table.row([name, count.to_string(), solve, split, decide, searched]);
}

pub fn report() {
    section(
        "Decided with proof",
        "Of one fixed set of questions, random clause sets of 20 to 75 variables and families from \
         the literature: how many are decided within 10 s each, and in how much time all of these; \
         by Solve, by splitting alone (`decide --search none`), by `decide`, whose verdicts are proved \
         or checked by what is proved, and by `depqbf` alone, whose verdicts aren't.",
    );
    let mut table = Table::new(["questions", "of", "Solve", "splitting", "`decide`", "`depqbf`"]);
    let (mut all, mut wrong, mut count): ([Total; 4], _, _) = (Default::default(), 0, 0);
    for (name, questions) in decided_set() {
        count += questions.len();
        let totals = group(&questions, &mut wrong);
        row(&mut table, name, questions.len(), &totals);
        for (total, part) in all.iter_mut().zip(totals) {
            total.decided += part.decided;
            total.time += part.time;
            part.ways.into_iter().for_each(|(way, n)| *total.ways.entry(way).or_default() += n);
        }
    }
    row(&mut table, "all".into(), count, &all);
    let ways = all[2].ways.iter().map(|(way, n)| format!("{n} by {way}"));
    println!("{table}\n`decide` found {}.", ways.collect::<Vec<String>>().join(", "));
    println!("Questions on which two verdicts differ: {wrong}.");
}

/// How the runs of Decide grow on the families.
pub fn report_runs() {
    section(
        "Runs of Decide",
        "The sizes of the families that Solve alone doesn't decide on wide sheets, up to the first one \
         that takes longer than 10 s or 100,000 runs; beside `depqbf` with 10 s at most.",
    );
    let mut table = Table::new(["family", "n", "runs", "Decide", "`depqbf`"]);
    LITERATURE.into_iter().for_each(|family| growth(&mut table, family));
    print!("{table}");
}

/// The sizes of a family that take more than one run; or the largest, if Solve decides all that a
/// sheet holds.
fn growth(table: &mut Table<5>, family: Literature) {
    let mut last = 0;
    for n in 1.. {
        let text = family.qdimacs(n).text();
        let Ok(sheet) = Sheet::from_qdimacs(Format::Wide, text.as_bytes()) else { break };
        last = n;
        let start = Instant::now();
        let Ok(decided) = sheet.decide(MOST_RUNS, sheet.sizes().variables) else { break };
        let time = start.elapsed();
        if decided.runs == 1 {
            continue;
        }
        let outside =
            timed(|| (depqbf::verdict_within(&text, LIMIT).ok().flatten(), String::new()));
        let theirs = outside.verdict.map_or("given up".into(), |_| shown(outside.time));
        let runs = match decided.verdict {
            Some(_) => decided.runs.to_string(),
            None => format!("over {MOST_RUNS}"),
        };
        table.row([family.name.into(), n.to_string(), runs, shown(time), theirs]);
        if time > LIMIT || decided.verdict.is_none() {
            return;
        }
    }
    let all = "all that a sheet holds".to_string();
    table.row([family.name.into(), last.to_string(), "1".into(), all, String::new()]);
}
