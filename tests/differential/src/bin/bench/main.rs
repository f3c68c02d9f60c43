//! Times of the proved operations, with the ratio to the independent reading
//! in the same run, as the page docs/BENCHMARKS.md. It reports and never fails.
//! Arguments name the sections that are wanted; none means all, with the page's
//! head.

mod certifying;
mod decided_set;
mod deciding;
mod guards;
mod literature;
mod order;
mod page;
mod reading;
mod solving;
mod steps;
mod strategies;
mod twin;

use std::time::{Duration, Instant};

/// How long one call takes: the best of five rounds, each long enough to be seen.
fn time_of(mut call: impl FnMut()) -> Duration {
    let round = || {
        let start = Instant::now();
        let mut calls = 0;
        while calls < 1000 && start.elapsed() < Duration::from_millis(20) {
            call();
            calls += 1;
        }
        start.elapsed() / calls
    };
    std::iter::repeat_with(round).take(5).min().expect("five rounds")
}

fn ratio(a: Duration, b: Duration) -> f64 {
    a.as_secs_f64() / b.as_secs_f64()
}

/// What makes the page from a clean clone.
const COMMAND: &str = "install/program && install/archive && \
    cargo build --release -p plumanchor-tool && \
    cargo run --profile bench -p differential --bin bench > docs/BENCHMARKS.md";

/// The sections by name, in the page's order.
const SECTIONS: [(&str, fn()); 11] = [
    ("solving", solving::report),
    ("twin", twin::report),
    ("literature", literature::report),
    ("strategies", strategies::report),
    ("deciding", deciding::report),
    ("runs", deciding::report_runs),
    ("certifying", certifying::report),
    ("steps", steps::report),
    ("reading", reading::report),
    ("guards", guards::report),
    ("order", order::report),
];

fn main() {
    let wanted: Vec<String> = std::env::args().skip(1).collect();
    outside::with_deep_stack(move || {
        if wanted.is_empty() {
            page::head(COMMAND, &SECTIONS.map(|(name, _)| name));
        }
        for (name, report) in SECTIONS {
            if wanted.is_empty() || wanted.iter().any(|section| section == name) {
                report();
            }
        }
    });
}
