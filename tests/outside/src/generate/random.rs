//! The generator of numbers, and the runs of a test over its seeds.

/// The splitmix64 generator: the same seed gives the same sheets everywhere.
pub struct Rng {
    state: u64,
}

impl Rng {
    pub fn new(seed: u64) -> Rng {
        Rng { state: seed }
    }

    pub fn word(&mut self) -> u64 {
        self.state = self.state.wrapping_add(0x9e37_79b9_7f4a_7c15);
        let mut z = self.state;
        z = (z ^ (z >> 30)).wrapping_mul(0xbf58_476d_1ce4_e5b9);
        z = (z ^ (z >> 27)).wrapping_mul(0x94d0_49bb_1331_11eb);
        z ^ (z >> 31)
    }

    /// 0 to `bound` - 1. The bias of the remainder does not matter here.
    pub fn below(&mut self, bound: usize) -> usize {
        (self.word() % bound as u64) as usize
    }

    /// Both ends included.
    pub fn between(&mut self, low: usize, high: usize) -> usize {
        low + self.below(high - low + 1)
    }

    pub fn one_in(&mut self, n: usize) -> bool {
        self.below(n) == 0
    }

    pub fn pick<T: Copy>(&mut self, items: &[T]) -> T {
        items[self.below(items.len())]
    }

    pub fn shuffle<T>(&mut self, items: &mut [T]) {
        for end in (1..items.len()).rev() {
            items.swap(end, self.below(end + 1));
        }
    }
}

/// The seed of a run: `OUTSIDE_SEED` if it is set, else always the same.
pub fn run_seed() -> u64 {
    match std::env::var("OUTSIDE_SEED") {
        Ok(text) => text.parse().expect("OUTSIDE_SEED is a decimal number"),
        Err(_) => 2024,
    }
}

/// Runs `test` on `count` generators with consecutive seeds. A failing case
/// prints its seed; with that as `OUTSIDE_SEED` it is the first case.
pub fn cases(count: u64, mut test: impl FnMut(&mut Rng)) {
    let seed = run_seed();
    println!("seed {seed}, {count} cases");
    for case in 0..count {
        let announce = AnnounceOnPanic(seed.wrapping_add(case));
        test(&mut Rng::new(announce.0));
    }
}

struct AnnounceOnPanic(u64);

impl Drop for AnnounceOnPanic {
    fn drop(&mut self) {
        if std::thread::panicking() {
            println!("failed with OUTSIDE_SEED={}", self.0);
        }
    }
}
