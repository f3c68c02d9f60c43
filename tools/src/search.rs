//! A search solver from outside, asked of clauses. What it says counts for nothing: Certify judges
//! the trace that it writes.

use crate::formula::Formula;
use crate::interrupt;
use crate::progress::Progress;
use crate::qdimacs;
use crate::qrp::{Derivation, Trace};
use crate::sheet::Sheet;
use plumanchor::Certified;
use std::ffi::OsString;
use std::io::{self, ErrorKind, Read, Write};
use std::process::{Child, Command, Stdio};
use std::sync::mpsc::{channel, Receiver};
use std::thread;
use std::time::Instant;

/// What `depqbf` needs to write a trace, in QRP and of the calculus that Certify judges.
const OPTIONS: [&str; 4] = ["--trace", "--dep-man=simple", "--no-qbce-dynamic", "--no-lazy-qpup"];

/// The longest trace that is read: some ten million steps.
const LONGEST: u64 = 1 << 30;

/// A solver, and the tidied clauses that it is asked of.
pub struct Search {
    program: OsString,
    clauses: Sheet,
    text: String,
}

/// How a search came out.
pub enum Searched {
    /// The trace shows the verdict, by so many steps.
    Shown { verdict: bool, steps: usize },
    /// It took too long.
    Unended,
    /// It is no help, and why.
    Useless(String),
}

impl Search {
    pub fn new(program: OsString, clauses: Sheet) -> Search {
        let text = qdimacs::write(&Formula::decode(clauses.format, &clauses.bytes));
        Search { program, clauses, text }
    }

    /// Lets the solver search up to a moment.
    pub fn run(&self, until: Option<Instant>, progress: &mut Progress) -> Searched {
        let name = self.program.to_string_lossy();
        let (running, traced) = match Running::new(&self.program, self.text.clone()) {
            Ok(started) => started,
            Err(error) if error.kind() == ErrorKind::NotFound => {
                let why = format!("no '{name}' on the path, so nothing was searched");
                return Searched::Useless(why);
            }
            Err(error) => return Searched::Useless(format!("'{name}' can't be run: {error}")),
        };
        let trace = progress.awaited(&traced, until, &format!("'{name}' is searching"));
        drop(running);
        match trace {
            None => Searched::Unended,
            Some(Err(error)) => Searched::Useless(format!("'{name}': {error}")),
            Some(Ok(trace)) if trace.len() as u64 > LONGEST => {
                Searched::Useless(format!("the trace of '{name}' has more than {LONGEST} bytes"))
            }
            Some(Ok(trace)) => self.judged(&trace).unwrap_or_else(|why| {
                Searched::Useless(format!("the trace of '{name}' is refused: {why}"))
            }),
        }
    }

    fn judged(&self, trace: &[u8]) -> Result<Searched, String> {
        let steps = Trace::read(trace)?.derivation(Some)?;
        let Derivation { verdict, heads, codes, .. } = &steps;
        let certified = self.clauses.certify(*verdict, heads, codes);
        match certified.map_err(|refusal| refusal.to_string())? {
            Certified::Yes => Ok(Searched::Shown { verdict: *verdict, steps: steps.len() }),
            Certified::No { step } => Err(steps.fault(step)),
        }
    }
}

/// A solver's process, which ends when it is dropped, or this process is interrupted.
struct Running(Child);

impl Running {
    /// Starts a solver with a text on its standard input, and what it writes is sent.
    fn new(
        program: &OsString,
        text: String,
    ) -> io::Result<(Running, Receiver<io::Result<Vec<u8>>>)> {
        let mut command = Command::new(program);
        command.args(OPTIONS).stdin(Stdio::piped()).stdout(Stdio::piped()).stderr(Stdio::null());
        let mut child = interrupt::started(|| command.spawn())?;
        let (input, output) = (child.stdin.take(), child.stdout.take());
        // One that doesn't read all of the text is no fault: what counts is the trace.
        thread::spawn(move || input.map(|mut input| input.write_all(text.as_bytes())));
        let (done, traced) = channel();
        thread::spawn(move || {
            let mut trace = Vec::new();
            let read =
                output.map_or(Ok(0), |output| output.take(LONGEST + 1).read_to_end(&mut trace));
            // Nobody waits any more if the time is up.
            let _ = done.send(read.map(|_| trace));
        });
        Ok((Running(child), traced))
    }
}

impl Drop for Running {
    fn drop(&mut self) {
        // It may have ended by itself.
        let _ = self.0.kill();
        interrupt::without_child();
        let _ = self.0.wait();
    }
}
