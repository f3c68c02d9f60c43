//! A fixed set of clause sets: random ones of 20 to 75 variables with two to four blocks, and
//! families from the literature.

use outside::formulas::{and, clause};
use outside::generate::Rng;
use outside::literature::LITERATURE;
use outside::qdimacs::Qdimacs;
use outside::reference::{Binding, Formula, Quantifier};
use Quantifier::{Exists, ForAll};

pub struct Question {
    pub formula: Formula,
    pub text: String,
    /// The verdict, of a family.
    pub verdict: Option<bool>,
}

const SIZES: [usize; 9] = [20, 25, 30, 35, 40, 45, 50, 60, 75];

/// Of each size and number of blocks.
const SEEDS: u64 = 3;

/// The sizes of each family, in its order there.
const FAMILY_SIZES: [&[usize]; 5] = [
    &[8, 16, 32, 64],
    &[16, 32, 64, 85],
    &[14, 18, 20, 22, 24, 28],
    &[4, 5, 6, 7, 8],
    &[16, 32, 64, 128],
];

/// Groups by their names.
pub fn decided_set() -> Vec<(String, Vec<Question>)> {
    let mut groups = Vec::new();
    for blocks in 2..=4 {
        let questions = SIZES.into_iter().flat_map(|variables| {
            (0..SEEDS).map(move |seed| random(seed + 1000 * variables as u64, variables, blocks))
        });
        groups.push((format!("random, {blocks} blocks"), questions.collect()));
    }
    for (family, sizes) in LITERATURE.into_iter().zip(FAMILY_SIZES) {
        let question = |&n: &usize| Question {
            formula: family.formula(n),
            text: family.qdimacs(n).text(),
            verdict: Some(family.verdict),
        };
        groups.push((family.name.to_string(), sizes.iter().map(question).collect()));
    }
    groups
}

/// Clauses of three existential literals, for the most part with one or two universal ones; the
/// innermost block is existential, and blocks are about as large.
fn random(seed: u64, variables: usize, blocks: usize) -> Question {
    let mut rng = Rng::new(seed.wrapping_mul(31).wrapping_add(blocks as u64));
    let row = |at: usize| -> Binding {
        let outside = blocks - 1 - at * blocks / variables;
        ([Exists, ForAll][outside % 2], at + 1)
    };
    let prefix: Vec<Binding> = (0..variables).map(row).collect();
    let of = |quantifier| {
        prefix.iter().filter(move |row| row.0 == quantifier).map(|row| row.1 as i32).collect()
    };
    let pools: [Vec<i32>; 2] = [of(Exists), of(ForAll)];
    let ratio = rng.between(35, 75);
    let count = pools[0].len() * ratio / 10;
    let clauses: Vec<Vec<i32>> = (0..count)
        .map(|_| {
            let mut literals = Vec::new();
            for (pool, most) in pools.iter().zip([3, rng.between(0, 2)]) {
                let mut left = most.min(pool.len());
                while left > 0 {
                    let x = rng.pick(pool);
                    if !literals.contains(&x) && !literals.contains(&-x) {
                        literals.push(if rng.one_in(2) { x } else { -x });
                        left -= 1;
                    }
                }
            }
            literals
        })
        .collect();
    let matrix = and(clauses.iter().map(|literals| clause(literals)).collect());
    let text = Qdimacs::of_clauses(&prefix, clauses).text();
    Question { formula: Formula { prefix, matrix }, text, verdict: None }
}
