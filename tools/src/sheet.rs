//! Bytes that are taken for a sheet, and the proved operations on them: a refusal shows what the
//! bytes have at its place.

use crate::format::{Format, NARROW, WIDE};
use crate::formula::{Formula, Row};
use crate::refusal::Refusal;
use plumanchor::{
    refusals, Certified, ClaimPart, Copied, Counts, Decided, Forced, Guarded, Outcome, Quantifier,
    Sizes, Solved, Step, Tried,
};
use std::cmp::Ordering;

/// Bytes that are taken for a sheet of a format. Every operation checks them.
#[derive(Clone)]
pub struct Sheet {
    pub format: &'static Format,
    pub bytes: Vec<u8>,
}

/// What an operation gave is a sheet.
impl From<plumanchor::Sheet> for Sheet {
    fn from(sheet: plumanchor::Sheet) -> Sheet {
        let format = match sheet.format() {
            plumanchor::Format::Narrow => &NARROW,
            plumanchor::Format::Wide => &WIDE,
        };
        Sheet { format, bytes: sheet.into_bytes() }
    }
}

impl Sheet {
    /// The sheet of a format that a QDIMACS text says.
    pub fn of_qdimacs(text: &[u8], format: &'static Format) -> Result<Sheet, Refusal> {
        let sheet = plumanchor::Sheet::from_qdimacs(format.proved, text);
        sheet.map(Sheet::from).map_err(|refusal| Refusal::of_text(refusal.number))
    }

    /// So many bytes for an output, or as many as the program has. More than these never matter.
    pub fn room(&self, asked: Option<usize>) -> usize {
        let longest = self.format.longest();
        asked.map_or(longest, |room| room.min(longest))
    }

    /// V and N.
    pub fn check(&self) -> Result<(usize, usize), Refusal> {
        let Sizes { variables, nodes } = self.asked(|sheet| Ok(sheet.sizes()))?;
        Ok((variables, nodes))
    }

    /// The rows of a sheet that Check accepts.
    pub fn formula(&self) -> Result<Formula, Refusal> {
        self.check()?;
        Ok(Formula::decode(self.format, &self.bytes))
    }

    /// The same rows in a format, carried over or brought back by the proved operation.
    pub fn carried(self, format: &'static Format) -> Result<Sheet, Refusal> {
        self.asked(|sheet| sheet.convert(format.proved)).map(Sheet::from)
    }

    /// The verdict, and how many leaves were tried.
    pub fn trial(&self) -> Result<(bool, usize), Refusal> {
        let Tried { verdict, leaves } = self.asked(plumanchor::Sheet::trial)?;
        Ok((verdict, leaves))
    }

    /// The kind bytes of the subtree at a node: none if sheet or node is bad.
    pub fn part(&self, node: usize) -> &[u8] {
        self.format.proved.part(&self.bytes, node)
    }

    /// The tidied sheet, written to an output of so many bytes.
    pub fn tidy(&self, room: usize) -> Result<Sheet, Refusal> {
        self.asked_within(room, plumanchor::Sheet::tidy).map(Sheet::from)
    }

    /// The sheet after universal reduction, in the same way.
    pub fn reduce(&self, room: usize) -> Result<Sheet, Refusal> {
        self.asked_within(room, plumanchor::Sheet::reduce).map(Sheet::from)
    }

    /// The sheet with all children in order, in the same way.
    pub fn sort(&self, room: usize) -> Result<Sheet, Refusal> {
        self.asked_within(room, plumanchor::Sheet::sort).map(Sheet::from)
    }

    /// An equal question as AND of clauses, with names for operators, in the same way.
    pub fn clauses(&self, room: usize) -> Result<Sheet, Refusal> {
        self.asked_within(room, plumanchor::Sheet::clauses).map(Sheet::from)
    }

    /// Whether the steps that the words say show that the sheet has the verdict.
    pub fn certify(
        &self,
        verdict: bool,
        heads: &[u32],
        codes: &[u32],
    ) -> Result<Certified, Refusal> {
        self.asked(|sheet| Ok(sheet.certify(verdict, heads, codes)))
    }

    /// How this sheet is filed beside another one: before it, equal to it or after it.
    pub fn compare(&self, other: &Sheet) -> Result<&'static str, Refusal> {
        self.check()?;
        let second = other.asked(|second| Ok(second.clone()))?;
        Ok(match self.asked(|first| first.compare(&second))? {
            Ordering::Less => "before",
            Ordering::Equal => "equal",
            Ordering::Greater => "after",
        })
    }

    /// The sheet with `x` settled, in the same way.
    pub fn settle(&self, x: usize, room: usize) -> Result<Sheet, Refusal> {
        self.asked_within(room, |sheet| sheet.settle(x)).map(Sheet::from)
    }

    /// The sheet with `x` expanded, in the same way.
    pub fn expand(&self, x: usize, room: usize) -> Result<Sheet, Refusal> {
        self.asked_within(room, |sheet| sheet.expand(x)).map(Sheet::from)
    }

    /// The sheet with `x` expanded one block out, in the same way; how many variables were copied,
    /// and the lowest of them, 0 if none.
    pub fn outer(&self, x: usize, room: usize) -> Result<(Sheet, usize, usize), Refusal> {
        let copied = self.asked_within(room, |sheet| sheet.outer(x)).map_err(|refusal| {
            if refusal.number == refusals::WRONG_BLOCK {
                refusal.with_evidence(self.behind(x))
            } else {
                refusal
            }
        });
        let Copied { sheet, count, lowest } = copied?;
        Ok((sheet.into(), count, lowest))
    }

    /// What a bound variable is, and what has literals behind it in a good sheet.
    fn behind(&self, x: usize) -> String {
        let Formula { prefix, matrix } = Formula::decode(self.format, &self.bytes);
        let at = prefix.iter().position(|row| row.argument == x).expect("a bound variable");
        let used = |row: &&Row| matrix.iter().any(|node| node.is_literal_of(row.argument));
        let told = |row: &Row| format!("{} {}", row.quantifier(), row.argument);
        let rows: Vec<String> = prefix[at + 1..].iter().filter(used).map(told).collect();
        let listed = if rows.is_empty() { "nothing".to_string() } else { rows.join(", ") };
        format!("{}, and behind it has literals: {listed}", told(&prefix[at]))
    }

    /// The same if the raw rows are no more than the ceiling.
    pub fn execute(&self, x: usize, ceiling: usize, room: usize) -> Result<Sheet, Refusal> {
        self.asked_within(room, |sheet| sheet.execute(x, ceiling)).map(Sheet::from)
    }

    /// The sheet that a list of steps leaves, in two buffers of so many bytes, and what each step
    /// answers: the length of the sheet that it wrote, or its refusal.
    pub fn steps(
        &self,
        steps: &[Step],
        room: usize,
    ) -> Result<(Sheet, Vec<Result<usize, Refusal>>), Refusal> {
        let (last, answers) = self.asked_within(room, |sheet| sheet.steps(steps))?;
        // Only 9 has a place in the sheet, and a sheet that isn't tidy is the first one still.
        let answers = answers.into_iter().map(|answer| self.shown(answer)).collect();
        Ok((last.into(), answers))
    }

    /// The function of `x` as a sheet of the other rows, in the same way.
    pub fn response(&self, x: usize, room: usize) -> Result<Sheet, Refusal> {
        self.asked_within(room, |sheet| sheet.response(x)).map(Sheet::from)
    }

    /// Solve in two buffers of so many bytes, and the winner's strategy in an output of as many.
    pub fn strategy(&self, room: usize) -> Result<plumanchor::Strategy<Sheet>, Refusal> {
        Ok(self.asked_within(room, plumanchor::Sheet::strategy)?.map(Sheet::from))
    }

    /// The claim that a strategy's sheet wins for a side, as a sheet of one quantifier; a refusal
    /// comes with what it is of.
    pub fn claim(&self, side: Quantifier, strategy: &Sheet) -> Result<Sheet, (ClaimPart, Refusal)> {
        let asked = |sheet: &Sheet, part| {
            let asked = sheet.asked(|sheet| Ok(sheet.clone()));
            asked.map_err(|refusal| (part, refusal))
        };
        let first = asked(self, ClaimPart::Sheet)?;
        let second = asked(strategy, ClaimPart::Strategy)?;
        let claim = first.claim(side, &second).map_err(|refused| {
            let of = if refused.at == ClaimPart::Strategy { strategy } else { self };
            (refused.at, Refusal::new(refused.refusal.number, refused.refusal.place, of))
        });
        claim.map(Sheet::from)
    }

    /// The raw rows of the expansion of `x`.
    pub fn quote(&self, x: usize) -> Result<usize, Refusal> {
        self.asked(|sheet| sheet.quote(x))
    }

    /// Whether the next turn under the values is an existential one, and with which values its
    /// owner wins; in two buffers of so many bytes.
    pub fn force(&self, values: &[u8], room: usize) -> Result<(bool, Outcome), Refusal> {
        let Forced { turn, outcome } = self.asked_within(room, |sheet| sheet.force(values))?;
        Ok((turn == Quantifier::Exists, outcome))
    }

    /// The guards that clash, with an output and two buffers of so many bytes.
    pub fn guards(&self, room: usize) -> Result<Guarded<Sheet>, Refusal> {
        let guarded = self.asked_within(room, plumanchor::Sheet::guards)?;
        Ok(guarded.map(Sheet::from))
    }

    /// Solve in two buffers of so many bytes.
    pub fn solve(&self, room: usize) -> Result<Solved, Refusal> {
        self.asked_within(room, plumanchor::Sheet::solve)
    }

    /// The same with the sheet reached.
    pub fn reach(&self, room: usize) -> Result<(Solved, Sheet), Refusal> {
        let (solved, reached) = self.asked_within(room, plumanchor::Sheet::reach)?;
        Ok((solved, reached.into()))
    }

    /// Decide with so many runs of Solve, in two buffers of so many bytes and so many places as long.
    pub fn decide(&self, runs: usize, places: usize, room: usize) -> Result<Decided, Refusal> {
        self.asked_within(room, |sheet| sheet.decide(runs, places))
    }

    /// The sheet with values for the first variables put in, in an output of so many bytes.
    pub fn split(&self, values: &[u8], room: usize) -> Result<Sheet, Refusal> {
        self.asked_within(room, |sheet| sheet.split(values)).map(Sheet::from)
    }

    /// The verdict of an answer for each list of values of the first `k` variables, if they have
    /// one: 0 false, 1 true, 2 unknown.
    pub fn join(&self, k: usize, answers: &[u8]) -> Result<Option<bool>, Refusal> {
        self.asked(|sheet| sheet.join(k, answers))
    }

    /// Goes on from this sheet, which a stopped run reached, under the wide limits.
    pub fn resume(&self, counts: Counts, room: usize) -> Result<(Solved, Sheet), Refusal> {
        let (solved, reached) = self.asked_within(room, |sheet| sheet.resume(counts))?;
        Ok((solved, reached.into()))
    }

    /// What an operation answers on these bytes, which are checked first.
    fn asked<T>(
        &self,
        operation: impl FnOnce(&plumanchor::Sheet) -> Result<T, plumanchor::Refusal>,
    ) -> Result<T, Refusal> {
        self.asked_within(self.format.longest(), operation)
    }

    /// The same with outputs and buffers of so many bytes.
    fn asked_within<T>(
        &self,
        room: usize,
        operation: impl FnOnce(&plumanchor::Sheet) -> Result<T, plumanchor::Refusal>,
    ) -> Result<T, Refusal> {
        let sheet = plumanchor::Sheet::new(self.format.proved, &self.bytes[..]);
        self.shown(sheet.and_then(|sheet| operation(&sheet.with_room(room))))
    }

    /// A refusal with what these bytes have at its place.
    fn shown<T>(&self, answer: Result<T, plumanchor::Refusal>) -> Result<T, Refusal> {
        answer.map_err(|refusal| Refusal::new(refusal.number, refusal.place, self))
    }
}
