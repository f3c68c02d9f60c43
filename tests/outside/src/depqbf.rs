//! Debian's solver `depqbf`, run as a process on the clause translation.

use crate::qdimacs::translate;
use crate::qrp::Trace;
use crate::reference::Formula;
use std::io::{Result, Write};
use std::process::{Command, Stdio};
use std::thread::sleep;
use std::time::{Duration, Instant};

/// What one run may cost, so that it is bounded and the same everywhere.
const DECISIONS: u32 = 2_000;

/// What the solver says of QDIMACS text, if it comes to an end.
pub fn verdict_of(text: &str) -> Result<Option<bool>> {
    let mut process = Command::new("depqbf")
        .arg(format!("--max-dec={DECISIONS}"))
        .stdin(Stdio::piped())
        .stdout(Stdio::null())
        .stderr(Stdio::null())
        .spawn()?;
    process.stdin.take().expect("a piped input").write_all(text.as_bytes())?;
    // The exit status of SAT and UNSAT, as of other solvers.
    Ok(match process.wait()?.code() {
        Some(10) => Some(true),
        Some(20) => Some(false),
        _ => None,
    })
}

/// The trace of a run in the QRP format, if it comes to an end.
pub fn trace_of(text: &str) -> Result<Option<Trace>> {
    Ok(Trace::read(&trace_text_of(text)?))
}

/// What a run writes that traces itself.
pub fn trace_text_of(text: &str) -> Result<String> {
    traced(text, &[&format!("--max-dec={DECISIONS}")])
}

/// The same of a run without a limit of decisions.
pub fn whole_trace_of(text: &str) -> Result<String> {
    traced(text, &[])
}

fn traced(text: &str, options: &[&str]) -> Result<String> {
    let mut process = Command::new("depqbf")
        .args(["--trace", "--dep-man=simple", "--no-qbce-dynamic", "--no-lazy-qpup"])
        .args(options)
        .stdin(Stdio::piped())
        .stdout(Stdio::piped())
        .stderr(Stdio::null())
        .spawn()?;
    process.stdin.take().expect("a piped input").write_all(text.as_bytes())?;
    let output = process.wait_with_output()?;
    Ok(String::from_utf8_lossy(&output.stdout).into_owned())
}

/// The verdict without a limit of decisions, for at most so long: nothing if it
/// takes longer.
pub fn verdict_within(text: &str, limit: Duration) -> Result<Option<bool>> {
    let mut process = Command::new("depqbf")
        .stdin(Stdio::piped())
        .stdout(Stdio::null())
        .stderr(Stdio::null())
        .spawn()?;
    process.stdin.take().expect("a piped input").write_all(text.as_bytes())?;
    let start = Instant::now();
    while start.elapsed() < limit {
        match process.try_wait()?.map(|status| status.code()) {
            Some(Some(10)) => return Ok(Some(true)),
            Some(Some(20)) => return Ok(Some(false)),
            Some(_) => return Ok(None),
            None => sleep(Duration::from_micros(200)),
        }
    }
    process.kill()?;
    process.wait()?;
    Ok(None)
}

pub fn verdict(formula: &Formula) -> Option<bool> {
    verdict_of(&translate(formula).text()).expect("depqbf is installed")
}

#[cfg(test)]
mod tests {
    use super::*;
    use crate::generate::{self, Limits};
    use crate::reference::Format;
    use crate::truth;

    #[test]
    fn verdicts_are_the_truth() {
        generate::cases(300, |rng| {
            let formula = generate::formula(rng, Limits::small(Format::NARROW));
            assert_eq!(verdict(&formula), Some(truth::is_true(&formula)));
        });
    }
}
