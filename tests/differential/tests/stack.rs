//! The deepest and the widest sheets on a stack of 1 MiB, as the program has it:
//! a proof says nothing of the stack.

use differential::{Library, LIBRARIES};
use outside::formulas::{all, and, clause, cube, formula, lit, or};
use outside::generate::{ladder_formula, limit_sheets};
use outside::reference::*;
use outside::with_deep_stack;

/// Runs `work` on a stack of so many bytes.
fn with_stack<T: Send>(bytes: usize, work: impl FnOnce() -> T + Send) -> T {
    std::thread::scope(|scope| {
        let worker = std::thread::Builder::new().stack_size(bytes).spawn_scoped(scope, work);
        worker.expect("a thread").join().unwrap_or_else(|panic| std::panic::resume_unwind(panic))
    })
}

/// Runs `work` on a stack of 1 MiB.
fn with_small_stack<T: Send>(work: impl FnOnce() -> T + Send) -> T {
    with_stack(1 << 20, work)
}

/// The sheets at the limits, and the deepest tidy ones.
fn deepest(library: &Library) -> Vec<Vec<u8>> {
    let format = library.reading.format;
    let limits = limit_sheets(format).into_iter().filter(|limit| limit.refusal == 0);
    let ladders = [1, 2]
        .map(|literals| format.encode(&ladder_formula(format, format.most_nodes - 1, literals)));
    limits.map(|limit| limit.sheet).chain(ladders).collect()
}

/// For each of these sheets the winner's strategy, by the reading, if there is one.
fn strategies(library: &Library, sheets: &[Vec<u8>]) -> Vec<Option<(usize, Vec<u8>)>> {
    let reading = library.reading;
    let longest = reading.format.longest_sheet();
    let of = |sheet: &Vec<u8>| {
        let [mut first, mut second, mut output] = [(); 3].map(|()| vec![0; longest]);
        match reading.strategy(sheet, &mut first, &mut second, &mut output) {
            StrategyAnswer::Written { verdict, length, .. } => {
                Some((if verdict { 1 } else { 2 }, output[..length].to_vec()))
            }
            _ => None,
        }
    };
    sheets.iter().map(of).collect()
}

#[test]
fn the_deepest_and_the_widest_sheets() {
    for library in &LIBRARIES {
        let (sheets, strategies) = with_deep_stack(|| {
            let sheets = deepest(library);
            let strategies = strategies(library, &sheets);
            (sheets, strategies)
        });
        let longest = library.reading.format.longest_sheet();
        let most = library.reading.format.most_variables;
        let accepted = with_small_stack(|| {
            let mut accepted = [0; 5];
            let [mut output, mut first, mut second, mut stack] =
                [1, 1, 1, 2].map(|sheets| vec![0; sheets * longest]);
            // All literals, once and once more, and nothing.
            let codes: Vec<u32> = (2..2 * most as u32 + 2).collect();
            let count = codes.len() as u32;
            let heads = [0, 0, 0, count, 1, 0, 0, count];
            for (sheet, strategy) in sheets.iter().zip(&strategies) {
                for x in [1, 2, most] {
                    let answer = library.response(sheet, x, &mut output);
                    accepted[0] += usize::from(answer.accepted().is_some());
                }
                if let Some((side, strategy)) = strategy {
                    let answer = library.claim(sheet, *side, strategy, &mut output);
                    accepted[1] += usize::from(matches!(answer, ClaimAnswer::Written(_)));
                }
                for verdict in [0, 1] {
                    let answer = library.certify(sheet, verdict, &heads, &codes);
                    accepted[2] += usize::from(answer.accepted().is_some());
                }
                for room in [sheet.len(), longest] {
                    let (first, second) = (&mut first[..room], &mut second[..room]);
                    let answer = library.decide(sheet, 3, first, second, &mut stack[..2 * room]);
                    accepted[3] += usize::from(matches!(answer, DecideAnswer::Ended { .. }));
                }
                let ended = library.strategy(sheet, &mut first, &mut second, &mut output);
                accepted[4] += usize::from(matches!(ended, StrategyAnswer::Written { .. }));
                library.clauses(sheet, &mut output);
                assert!(library.split(sheet, &[], &mut output).accepted().is_some());
                assert!(library.join(sheet, 0, &[1]).accepted().is_some());
            }
            accepted
        });
        assert!(accepted.iter().all(|&count| count > 5), "{accepted:?}");
    }
}

/// All variables but the last two stand once in an OR, and negated once in an AND below an OR, so
/// that value 0 takes these two literals away and leaves all else as it is. Two ladders of the last
/// two variables make it too long to be copied, so that every run stops at once. It is true with
/// value 0 for all.
fn splitting(format: Format) -> Formula {
    let most = format.most_variables as i32;
    let (a, b) = (most - 1, most);
    let sides = |ladder: Node| {
        let positive = (1..a).map(lit);
        let negative = (1..a).map(|x| lit(-x));
        let equal = [clause(&[a, -b]), clause(&[-a, b])];
        and(vec![
            or(positive.chain([cube(&[a, b]), and(vec![lit(-a), ladder.clone()])]).collect()),
            or(vec![and(negative.chain(equal).collect()), and(vec![lit(-b), ladder])]),
        ])
    };
    let mut ladder = clause(&[a, b]);
    // Four rungs more are 8 rows in each ladder.
    let spare = format.most_nodes - sides(ladder.clone()).rows();
    for _ in 0..spare / 16 {
        ladder = or(vec![lit(-b), and(vec![lit(a), ladder])]);
        ladder = or(vec![lit(-a), and(vec![lit(b), ladder])]);
    }
    formula(&all(Quantifier::Exists, format.most_variables), sides(ladder))
}

/// As many sheets wait as can, one for each variable but the last. A split's frame has the tables of a
/// run, some 58 KB as it was compiled when it was measured.
#[test]
fn searches_with_every_split_open() {
    for library in &LIBRARIES {
        let format = library.reading.format;
        let sheet = with_deep_stack(|| format.encode(&splitting(format)));
        let (room, most) = (sheet.len(), format.most_variables);
        let answers = with_stack(most * (96 << 10), || {
            let (mut first, mut second) = (vec![0; room], vec![0; room]);
            let mut stack = vec![0; most * room];
            [most - 2, most - 1].map(|places| {
                let stack = &mut stack[..places * room];
                library.decide(&sheet, 2 * most, &mut first, &mut second, stack)
            })
        });
        // Every half for value 0 is true, so no other is looked at.
        let ended = DecideAnswer::Ended { verdict: true, runs: most };
        assert_eq!(answers, [DecideAnswer::NoPlace { runs: most - 1 }, ended]);
    }
}
