//! `plumanchor claim SHEET STRATEGY`.

use crate::arguments::{Arguments, Misuse};
use crate::command::{Answer, Command, Failure};
use crate::format::DEFAULT;
use crate::formula::{value, Formula, Row, AND, EXISTS, FOR_ALL};
use crate::input::{self, Given, Input};
use crate::json::Field;
use crate::names::Names;
use crate::options::{Choice, FROM, JSON, NAMES, RENUMBER};
use crate::refusal::Refusal;
use crate::sheet::Sheet;
use crate::strategy::text::{self, Text};
use crate::strategy::{
    in_order, pairs, pairs_formula, side_words, wants, Play, Strategy, Tested, Tree,
};
use crate::words::count;
use plumanchor::{refusals, Outcome, Quantifier, Solved};

pub static SIDE: Choice = Choice::of("side", "SIDE", "whose strategy it is, if that doesn't show")
    .among(&["exists", "for-all"]);
static TO: Choice = Choice::of("to", "FORMAT", "sheet: write the claim itself, and don't solve it")
    .among(&["sheet"]);

pub const COMMAND: Command = Command {
    name: "claim",
    purpose: "whether a strategy of any origin wins",
    words: "SHEET STRATEGY",
    about: "STRATEGY is a text as 'strategy' writes it, changed by hand or not, or a strategy's sheet. Writes\n\
           'wins'; 'loses' with a play that breaks it; or 'stopped', if the claim is not decided for want\n\
           of room and none of the plays that are tried breaks it. The claim that the strategy wins is the\n\
           proved Claim's, and its verdict the proved Solve's; a play is shown only if the functions,\n\
           followed through it, break the sheet, and the proved Force says that it breaks the claim.\n\
           The lines of a text may stand in any order, '#' begins a comment, and a line that begins with\n\
           a blank goes on the one above it. Whose strategy it is shows in its first line or in its\n\
           variables; '--side' says it where neither does. With '--to sheet' the claim is written: a\n\
           sheet of one quantifier, true (for the side for-all: false) exactly if the strategy wins.\n",
    options: &[&FROM, &RENUMBER, &NAMES, &SIDE, &TO, &JSON],
    run,
};

/// A strategy that Claim takes, and the claim that it wins.
pub struct Claimed {
    pub strategy: Strategy,
    pub guards: Vec<String>,
    claim: Sheet,
}

impl Claimed {
    /// The two files that the last words name.
    pub fn read(arguments: &mut Arguments) -> Result<Claimed, Failure> {
        let asked = arguments.option(&SIDE)?.map(|word| side_called(&word)).transpose()?;
        let (Input { sheet, names, guards, .. }, given) = input::with_strategy(arguments)?;
        let sheet = sheet.carried(DEFAULT)?;
        let formula = sheet.formula()?;
        let (written, said) = written(given, &formula, &names)?;
        let strategy = written.formula()?;
        let side = side_of(asked, said, &strategy, &formula)?;
        let tested = Tested { side, formula: &formula, names: &names, strategy: &strategy };
        let claim = sheet.claim(side, &written).map_err(|refused| in_words(refused.1, &tested))?;
        let strategy = Strategy::of_pairs(side, formula, names, &strategy);
        let wrong = || Failure::Contradicted("functions that Claim takes, in a circle".into());
        Ok(Claimed { strategy: strategy.ok_or_else(wrong)?, guards, claim })
    }

    /// Whether the strategy wins, if the run on the claim says.
    pub fn wins(&self) -> Result<Option<bool>, Failure> {
        let verdict = self.claim.solve(DEFAULT.longest())?.verdict;
        Ok(verdict.map(|verdict| verdict == wants(self.strategy.side)))
    }
}

fn run(arguments: &mut Arguments) -> Result<Answer, Failure> {
    let to_sheet = match arguments.option(&TO)?.as_deref() {
        None => false,
        Some("sheet") => true,
        Some(other) => return Err(Misuse::new(format!("no claim as '{other}'")).into()),
    };
    let Claimed { strategy, guards, claim } = Claimed::read(arguments)?;
    if to_sheet {
        return Ok(claim.bytes.into());
    }
    let solved = claim.solve(DEFAULT.longest())?;
    match solved.verdict {
        Some(verdict) if verdict == wants(strategy.side) => {
            Ok(answer("wins", String::new(), Vec::new()))
        }
        None => Ok(match tried(&strategy, &claim)? {
            Some(play) => loses(&strategy, Some(play), &guards),
            None => stopped(&solved, &strategy.names),
        }),
        Some(_) => {
            let play = match tried(&strategy, &claim)? {
                Some(play) => Some(play),
                None => forced(&strategy, &claim)?,
            };
            Ok(loses(&strategy, play, &guards))
        }
    }
}

fn side_called(word: &str) -> Result<Quantifier, Misuse> {
    match word {
        "exists" => Ok(Quantifier::Exists),
        "for-all" => Ok(Quantifier::ForAll),
        _ => Err(Misuse::new(format!("a side is exists or for-all, and not '{word}'"))),
    }
}

/// The sheet of a strategy, and the side that its text names.
fn written(
    given: Given,
    formula: &Formula,
    names: &Names,
) -> Result<(Sheet, Option<Quantifier>), Failure> {
    let lines = match given {
        Given::Sheet(sheet) => return Ok((sheet.carried(DEFAULT)?, None)),
        Given::Lines(lines) => lines,
    };
    let most = DEFAULT.most_nodes;
    let text = text::read(&lines, formula, names, most);
    let Text { side, functions } = text.map_err(|fault| Failure::Unusable(fault.to_string()))?;
    // In an order in which each is known before it is read; where there is none, Claim says so.
    let functions = in_order(formula, functions.clone()).unwrap_or(functions);
    let pairs: Vec<(usize, &Tree)> = functions.iter().rev().map(|(x, tree)| (*x, tree)).collect();
    let strategy = pairs_formula(&formula.prefix, &pairs);
    let rows = strategy.matrix.len();
    if rows > most {
        let why = format!("its sheet has {}, and a sheet has at most {most}", count(rows, "node"));
        return Err(Failure::Unusable(why));
    }
    Ok((Sheet { format: DEFAULT, bytes: strategy.encode(DEFAULT) }, side))
}

/// Whose strategy it is: as asked or said, that of its first variable, or that of a side without
/// variables.
fn side_of(
    asked: Option<Quantifier>,
    said: Option<Quantifier>,
    strategy: &Formula,
    formula: &Formula,
) -> Result<Quantifier, Misuse> {
    if let (Some(asked), Some(said)) = (asked, said) {
        if asked != said {
            let words = side_words(said);
            return Err(Misuse::new(format!(
                "the text says that {words} wins, and --side another"
            )));
        }
    }
    let first = pairs(strategy).and_then(|pairs| pairs.first().map(|pair| pair.0));
    let row = |x: usize| formula.prefix.iter().find(|row| row.argument == x).copied();
    let all = |kind: u8| formula.prefix.iter().all(|row| row.kind == kind);
    let shown = match first.and_then(row) {
        Some(row) if row.kind == FOR_ALL => Quantifier::ForAll,
        None if all(EXISTS) && !formula.prefix.is_empty() => Quantifier::ForAll,
        _ => Quantifier::Exists,
    };
    Ok(asked.or(said).unwrap_or(shown))
}

/// A refusal with what there is against the strategy.
fn in_words(refusal: Refusal, tested: &Tested) -> Refusal {
    let evidence = match refusal.number {
        refusals::NOT_A_STRATEGY => tested.form(),
        refusals::READS_BEYOND => tested.reading(refusal.place),
        _ => None,
    };
    match evidence {
        Some(evidence) => refusal.with_evidence(evidence),
        None => refusal,
    }
}

/// The answer's word, and what is told of it.
fn answer(word: &'static str, told: String, more: Vec<Field>) -> Answer {
    let fields = [Field::text("answer", word)].into_iter().chain(more).collect();
    Answer::of_words(format!("{word}{told}"), fields)
}

fn stopped(solved: &Solved, names: &Names) -> Answer {
    let name = names.of(solved.variable);
    let told = format!(": the run on the claim has no room to expand {name}");
    answer("stopped", told, vec![Field::text("variable", &name)])
}

/// How many plays are tried.
const TRIED: u64 = 4096;

/// A play that breaks a strategy, among some that are tried: all of them where they are so few. That
/// it does is the proved Force's word too, which is given all values of the claim but the last.
fn tried(strategy: &Strategy, claim: &Sheet) -> Result<Option<Play>, Failure> {
    let others = strategy.others();
    let all = 1u64.checked_shl(others.len() as u32).filter(|&all| all <= TRIED);
    let mut random: u64 = 1;
    for number in 0..all.unwrap_or(TRIED) {
        let mut value = |at: usize| match (all, number) {
            // The first variable changes last.
            (Some(_), _) => number >> (others.len() - 1 - at) & 1 == 1,
            (None, 0) => false,
            (None, 1) => true,
            _ => {
                random ^= random << 13;
                random ^= random >> 7;
                random ^= random << 17;
                random >> 63 == 1
            }
        };
        let values: Vec<bool> = (0..others.len()).map(&mut value).collect();
        let play = strategy.answer(&values);
        if play.holds != wants(strategy.side) {
            return lost(strategy, claim, play).map(Some);
        }
    }
    Ok(None)
}

/// The play by which a lost claim is lost: one side has all its variables, and the proved Force says
/// of one after the other with which value that side wins. There is none if a run on the way stops.
fn forced(strategy: &Strategy, claim: &Sheet) -> Result<Option<Play>, Failure> {
    let prefix = &strategy.formula.prefix;
    let mut values: Vec<u8> = Vec::with_capacity(prefix.len());
    while values.len() < prefix.len() {
        match claim.force(&values, DEFAULT.longest())?.1 {
            Outcome::Zero | Outcome::Both => values.push(0),
            Outcome::One => values.push(1),
            Outcome::Neither | Outcome::Stopped(_) => return Ok(None),
        }
    }
    let is_one = |row: &Row, value: u8| value == 1 && !strategy.owns(row.argument);
    let ones = prefix.iter().zip(values).filter(|(row, value)| is_one(row, *value));
    let play = strategy.play(&ones.map(|(row, _)| row.argument).collect::<Vec<usize>>());
    lost(strategy, claim, play).map(Some)
}

/// A play that breaks a strategy, if the functions and the claim both say so.
fn lost(strategy: &Strategy, claim: &Sheet, play: Play) -> Result<Play, Failure> {
    let rows = strategy.formula.prefix.iter();
    let values: Vec<u8> = rows.map(|row| u8::from(play.values[row.argument])).collect();
    let by_claim = match values.split_last() {
        None => true,
        Some((last, others)) => match claim.force(others, DEFAULT.longest())?.1 {
            Outcome::Zero => *last == 0,
            Outcome::One => *last == 1,
            outcome => outcome == Outcome::Both,
        },
    };
    if play.holds == wants(strategy.side) || !by_claim {
        return Err(Failure::Contradicted("a play breaks the functions or the claim alone".into()));
    }
    Ok(play)
}

fn loses(strategy: &Strategy, play: Option<Play>, guards: &[String]) -> Answer {
    let Some(play) = play else {
        return answer(
            "loses",
            ": a run on the way to the play that breaks it stopped".into(),
            Vec::new(),
        );
    };
    let moved = |glue: &str, row: &Row| {
        let value = u8::from(play.values[row.argument]);
        format!("{}{glue}{value}", strategy.names.of(row.argument))
    };
    let turn = |block: &[Row]| -> String {
        block.iter().map(|row| moved(" = ", row)).collect::<Vec<String>>().join(", ")
    };
    let prefix = &strategy.formula.prefix;
    let turns: Vec<String> = prefix.chunk_by(|one, next| one.kind == next.kind).map(turn).collect();
    let outcome = outcome(strategy, &play, guards);
    let told = [turns.join(", then "), outcome.clone()].into_iter().filter(|part| !part.is_empty());
    let told = told.map(|part| format!(": {part}")).collect();
    let moves: Vec<String> = prefix.iter().map(|row| moved("=", row)).collect();
    let fields = vec![Field::texts("play", &moves), Field::text("outcome", &outcome)];
    answer("loses", told, fields)
}

/// What a play comes to: what fails of an AND whose children have names.
fn outcome(strategy: &Strategy, play: &Play, guards: &[String]) -> String {
    let Formula { matrix, .. } = &strategy.formula;
    if play.holds {
        return "the formula holds".into();
    }
    let ends = strategy.formula.ends();
    let children = std::iter::successors(Some(1), |&at| ends.get(at).copied());
    let failing: Vec<&str> = children
        .zip(guards)
        .filter(|(at, _)| matrix[0].kind == AND && !value(&matrix[*at..ends[*at]], &play.values))
        .map(|(_, guard)| guard.as_str())
        .collect();
    match failing[..] {
        [] => "the formula fails".into(),
        _ => format!("{} fails", failing.join(" and ")),
    }
}
