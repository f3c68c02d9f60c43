//! `plumanchor decide [SHEET]`.

use crate::arguments::Arguments;
use crate::clausal;
use crate::command::{Answer, Command, Failure};
use crate::format::DEFAULT;
use crate::input::{self, Input};
use crate::interrupt::{self, Watch};
use crate::json::Field;
use crate::options::{Choice, FROM, JSON, QUIET, RENUMBER, ROOM, STATUS};
use crate::progress::Progress;
use crate::refusal::Refusal;
use crate::search::{Search, Searched};
use crate::sheet::Sheet;
use crate::words::count;
use plumanchor::{DecideEnd, Decided};
use std::ffi::OsString;
use std::sync::mpsc::channel;
use std::thread;
use std::time::{Duration, Instant};

pub const COMMAND: Command = Command {
    name: "decide",
    purpose: "the verdict, also where the program stops",
    words: "[SHEET]",
    about: "Writes the verdict, and how it was found: 'by expansion', the program's run, with its counts; 'by\n\
           splitting', the proved Decide, with its runs of Solve: where a run stops, both values of the\n\
           first variable are put into the sheet that it reached; or 'by certificate', of a search solver,\n\
           with the steps of its trace, which the proved Certify found to show it. The two take turns that\n\
           become longer. 'unknown' is written if no way is left, or time or runs are up. Each verdict is\n\
           proved or checked by what is proved; a solver's own word counts for nothing. PROGRAM is called\n\
           as depqbf is: a text in QDIMACS on standard input, a trace in QRP on standard output.\n",
    options: &[&FROM, &RENUMBER, &SECONDS, &RUNS, &PLACES, &ROOM, &SEARCH, &STATUS, &JSON],
    run,
};

static SECONDS: Choice =
    Choice::of("seconds", "N", "how long it may take; there is no limit if not given");
static RUNS: Choice = Choice::of("runs", "N", "how many runs of Solve splitting may take");
static PLACES: Choice =
    Choice::of("places", "N", "how many sheets may wait, if not one for each variable");
static SEARCH: Choice =
    Choice::of("search", "PROGRAM", "the search solver, if not depqbf; 'none' for none");

/// How long the first turn of each takes; the next ones take twice as long.
const FIRST_TURN: Duration = Duration::from_millis(250);

/// The runs of the first turn, by which the next ones are measured.
const FIRST_RUNS: usize = 16;

/// The stack that splitting has: that of a main thread.
const STACK: usize = 8 << 20;

fn run(arguments: &mut Arguments) -> Result<Answer, Failure> {
    let seconds = arguments.number_option(&SECONDS)?;
    let most = arguments.number_option(&RUNS)?.unwrap_or(usize::MAX);
    let places = arguments.number_option(&PLACES)?;
    let room = input::within(DEFAULT.longest(), arguments.number_option(&ROOM)?)?;
    let program = arguments.file_option(&SEARCH).unwrap_or_else(|| "depqbf".into());
    let Input { sheet, .. } = input::input(arguments, DEFAULT)?;
    let sheet = sheet.carried(DEFAULT)?;
    let lacking = |refusal: Refusal| refusal.lacking(sheet.bytes.len(), room);
    let solved = sheet.solve(room).map_err(lacking)?;
    if let Some(verdict) = solved.verdict {
        let (settled, expanded) = (solved.settled, solved.expanded);
        return Ok(told(arguments, Some((verdict, Way::Expansion { settled, expanded })), 1));
    }
    let until = seconds.map(|seconds| Duration::from_secs(seconds as u64));
    let progress = Progress::new(arguments.has(&QUIET));
    let mut deciding = Deciding {
        places: places.unwrap_or(sheet.check()?.0),
        sheet,
        room,
        most,
        until: until.and_then(|limit| Instant::now().checked_add(limit)),
        runs: 1,
        pace: None,
        splits: true,
        search: None,
        progress,
        told: String::new(),
    };
    interrupt::with_runs(deciding.runs);
    let _watch = Watch::new();
    let found = deciding.decide(program)?;
    Ok(told(arguments, found, deciding.runs).with_note(deciding.told))
}

/// How a verdict was found.
enum Way {
    Expansion { settled: usize, expanded: usize },
    Splitting { runs: usize },
    Certificate { steps: usize },
}

/// The line, with how many runs there were if there is no verdict.
fn told(arguments: &Arguments, found: Option<(bool, Way)>, runs: usize) -> Answer {
    let (line, fields, status) = match found {
        None => {
            let fields = vec![Field::text("answer", "unknown"), Field::number("runs", runs)];
            (format!("unknown after {}", count(runs, "run")), fields, 0)
        }
        Some((verdict, way)) => {
            let (word, told, counts) = match way {
                Way::Expansion { settled, expanded } => (
                    "expansion",
                    format!("{settled} settled, {expanded} expanded"),
                    vec![Field::number("settled", settled), Field::number("expanded", expanded)],
                ),
                Way::Splitting { runs } => {
                    ("splitting", count(runs, "run"), vec![Field::number("runs", runs)])
                }
                Way::Certificate { steps } => {
                    ("certificate", count(steps, "step"), vec![Field::number("steps", steps)])
                }
            };
            let mut fields =
                vec![Field::text("answer", &verdict.to_string()), Field::text("by", word)];
            fields.extend(counts);
            (format!("{verdict} by {word}: {told}"), fields, if verdict { 10 } else { 20 })
        }
    };
    let status = arguments.has(&STATUS).then_some(status);
    Answer { status, ..Answer::of_words(line, fields) }
}

/// A sheet on which Solve stopped, and what was done for its verdict so far.
struct Deciding {
    sheet: Sheet,
    room: usize,
    places: usize,
    /// How many runs splitting may take.
    most: usize,
    until: Option<Instant>,
    /// The runs of the longest turn.
    runs: usize,
    /// How many seconds a run of it took.
    pace: Option<f64>,
    /// Whether more runs may help.
    splits: bool,
    /// The solver, if it may help.
    search: Option<Search>,
    progress: Progress,
    /// What is to be told beside the answer.
    told: String,
}

impl Deciding {
    /// Splitting and searching take turns until one has the verdict.
    fn decide(&mut self, program: OsString) -> Result<Option<(bool, Way)>, Refusal> {
        let mut turn = FIRST_TURN;
        if let Some(found) = self.split(turn)? {
            return Ok(Some(found));
        }
        if program != "none" {
            // Tidied first it takes fewer names.
            let tidied = self.sheet.tidy(self.sheet.format.longest())?;
            match clausal::tidied(&tidied) {
                Ok(clauses) => self.search = Some(Search::new(program, clauses)),
                Err(refusal) => self.tell(&format!("nothing was searched: {refusal}")),
            }
        }
        while (self.splits || self.search.is_some()) && !self.is_over() {
            if let Some(found) = self.search(turn) {
                return Ok(Some(found));
            }
            turn *= 2;
            if let Some(found) = self.split(turn)? {
                return Ok(Some(found));
            }
        }
        Ok(None)
    }

    fn tell(&mut self, what: &str) {
        self.told += &format!("plumanchor: {what}\n");
    }

    fn is_over(&self) -> bool {
        self.until.is_some_and(|until| until <= Instant::now())
    }

    /// A call of Decide with as many runs as may be made in such a time, and more than before.
    fn split(&mut self, turn: Duration) -> Result<Option<(bool, Way)>, Refusal> {
        self.splits &= self.runs < self.most;
        if !self.splits || self.is_over() {
            return Ok(None);
        }
        let budget = self.pace.map_or(FIRST_RUNS, |pace| (turn.as_secs_f64() / pace) as usize);
        let budget = budget.max(2 * self.runs).min(self.most);
        let (room, places, sheet) = (self.room, self.places, self.sheet.clone());
        let (done, decided) = channel();
        let began = Instant::now();
        // A turn that takes too long is left alone; it ends with the process.
        let call = move || done.send(sheet.decide(budget, places, room));
        let spawned = thread::Builder::new().stack_size(STACK).spawn(call);
        if let Err(error) = spawned {
            self.splits = false;
            self.tell(&format!("nothing more was split: {error}"));
            return Ok(None);
        }
        let doing = format!("splitting, more than {}", count(self.runs, "run"));
        let Some(decided) = self.progress.awaited(&decided, self.until, &doing) else {
            return Ok(None);
        };
        let Decided { verdict, runs, end } = decided?;
        if let Some(verdict) = verdict {
            return Ok(Some((verdict, Way::Splitting { runs })));
        }
        self.pace = Some(began.elapsed().as_secs_f64() / runs.max(1) as f64);
        self.runs = runs;
        interrupt::with_runs(runs);
        if end == DecideEnd::NoPlace {
            self.splits = false;
            self.tell(&format!("no place is left for a sheet to wait in; there are {places}"));
        }
        Ok(None)
    }

    /// A search that may take such a time.
    fn search(&mut self, turn: Duration) -> Option<(bool, Way)> {
        let search = self.search.as_ref()?;
        let end = Instant::now() + turn;
        let until = self.until.map_or(end, |until| until.min(end));
        match search.run(Some(until), &mut self.progress) {
            Searched::Shown { verdict, steps } => {
                return Some((verdict, Way::Certificate { steps }))
            }
            Searched::Unended => {}
            Searched::Useless(why) => {
                self.search = None;
                self.tell(&why);
            }
        }
        None
    }
}
