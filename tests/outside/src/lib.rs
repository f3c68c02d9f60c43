//! A second reading of document 01, kept apart from the one under test.
//!
//! `reference` holds every operation on plain trees, `truth` the two splitting
//! rules by brute force, `formulas` document 01's own formulas, `examples` the
//! sheets of `examples/` with their lines, `generate` seeded random sheets and
//! damage to them, `literature` families of clause sets from papers, `stored`
//! the cases of the test program, `qdimacs` a clause translation for solvers
//! from outside, `depqbf` and `cadical` a run of one of them, `qrp` a trace of
//! such a run, `twin` Solve once more, tuned. Nothing else here is optimised, and
//! trees recurse: sheets of full size want `with_deep_stack`.

pub mod cadical;
pub mod depqbf;
pub mod examples;
pub mod formulas;
pub mod generate;
pub mod literature;
pub mod qdimacs;
pub mod qrp;
pub mod reference;
pub mod stored;
pub mod truth;
pub mod twin;

const DEEP_STACK: usize = 512 << 20;

/// Runs `work` on a stack that holds any recursion over as many nested nodes as
/// a format has, dropping such a tree included.
pub fn with_deep_stack<T: Send>(work: impl FnOnce() -> T + Send) -> T {
    std::thread::scope(|scope| {
        let worker = std::thread::Builder::new()
            .stack_size(DEEP_STACK)
            .spawn_scoped(scope, work)
            .expect("a thread with a large stack");
        worker.join().unwrap_or_else(|panic| std::panic::resume_unwind(panic))
    })
}
