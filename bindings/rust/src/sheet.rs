//! Sheets that were checked once.

use crate::answer::{
    Certified, Copied, Counts, Decided, Forced, Guarded, Quantifier, Sizes, Solved, Step, Strategy,
    Tried,
};
use crate::format::Format;
use crate::refusal::{ClaimPart, ClaimRefusal, Refusal};
use crate::row::{Kind, Row};
use std::cmp::Ordering;
use std::hash::{Hash, Hasher};

/// Bytes that Check accepts, with their format. Sheets are equal if both are.
///
/// They are checked where they come in, by [`Sheet::new`]; what an operation writes is proved to be
/// a sheet. So refusals 1 to 8 never come from a method. Outputs and work buffers are as long as
/// the longest sheet, as those of the program are, unless [`Sheet::with_room`] says otherwise.
///
/// ```
/// use plumanchor::{Format, Reason, Sheet};
///
/// // For all 1 there is a 2 that is equal to it.
/// let text = b"p cnf 2 2\na 1 0\ne 2 0\n1 -2 0\n-1 2 0\n";
/// let sheet = Sheet::from_qdimacs(Format::Wide, text)?;
/// assert_eq!(sheet.sizes().variables, 2);
/// assert_eq!(sheet.solve()?.verdict, Some(true));
///
/// let mut bytes = sheet.into_bytes();
/// bytes.pop();
/// let refusal = Sheet::new(Format::Wide, bytes).unwrap_err();
/// assert_eq!(refusal.reason(), Some(Reason::WrongLength));
/// # Ok::<(), plumanchor::Refusal>(())
/// ```
#[derive(Clone, Debug)]
pub struct Sheet {
    format: Format,
    bytes: Vec<u8>,
    /// None for that of the longest sheet.
    room: Option<usize>,
}

impl Sheet {
    /// Checks the bytes.
    pub fn new(format: Format, bytes: impl Into<Vec<u8>>) -> Result<Sheet, Refusal> {
        let bytes = bytes.into();
        format.check(&bytes)?;
        Ok(Sheet { format, bytes, room: None })
    }

    /// The sheet that a QDIMACS text says.
    pub fn from_qdimacs(format: Format, text: &[u8]) -> Result<Sheet, Refusal> {
        let mut bytes = vec![0; format.longest()];
        let length = format.qdimacs(text, &mut bytes)?;
        bytes.truncate(length);
        Ok(Sheet { format, bytes, room: None })
    }

    /// The sheet of a prefix, outermost variable first, and of the nodes in preorder: each operator
    /// in front of its children.
    ///
    /// ```
    /// use plumanchor::{Format, Kind, Row, Sheet};
    ///
    /// // For all 1 there is a 2 that differs from it.
    /// let prefix = [Row::new(Kind::ForAll, 1), Row::new(Kind::Exists, 2)];
    /// let nodes = [
    ///     Row::new(Kind::Or, 2),
    ///     Row::new(Kind::And, 2),
    ///     Row::new(Kind::Positive, 1),
    ///     Row::new(Kind::Negative, 2),
    ///     Row::new(Kind::And, 2),
    ///     Row::new(Kind::Negative, 1),
    ///     Row::new(Kind::Positive, 2),
    /// ];
    /// let sheet = Sheet::from_rows(Format::Wide, &prefix, &nodes)?;
    /// assert_eq!(sheet.solve()?.verdict, Some(true));
    /// assert!(sheet.prefix().eq(prefix) && sheet.nodes().eq(nodes));
    /// # Ok::<(), plumanchor::Refusal>(())
    /// ```
    pub fn from_rows(format: Format, prefix: &[Row], nodes: &[Row]) -> Result<Sheet, Refusal> {
        let rows = || prefix.iter().chain(nodes);
        let mut bytes = Vec::with_capacity(format.length(rows().count()));
        format.push_number(prefix.len(), &mut bytes);
        format.push_number(nodes.len(), &mut bytes);
        bytes.extend(rows().map(|row| row.kind as u8));
        rows().for_each(|row| format.push_number(row.argument, &mut bytes));
        Sheet::new(format, bytes)
    }

    /// The same sheet, and operations on it have outputs and work buffers of so many bytes, or of
    /// the longest sheet's if that is less. Sheets that they make have the same room.
    ///
    /// ```
    /// use plumanchor::{Format, Reason, Sheet};
    ///
    /// let sheet = Sheet::from_qdimacs(Format::Wide, b"p cnf 1 1\ne 1 0\n1 0\n")?;
    /// let refusal = sheet.with_room(10).tidy().unwrap_err();
    /// assert_eq!(refusal.reason(), Some(Reason::NoRoom));
    /// # Ok::<(), plumanchor::Refusal>(())
    /// ```
    pub fn with_room(self, room: usize) -> Sheet {
        Sheet { room: Some(room), ..self }
    }

    /// The format.
    pub fn format(&self) -> Format {
        self.format
    }

    /// The bytes.
    pub fn bytes(&self) -> &[u8] {
        &self.bytes
    }

    /// The bytes, taken out.
    pub fn into_bytes(self) -> Vec<u8> {
        self.bytes
    }

    /// How many variables and nodes it has.
    pub fn sizes(&self) -> Sizes {
        let [variables, nodes] =
            [0, self.format.width()].map(|at| self.format.number(&self.bytes, at));
        Sizes { variables, nodes }
    }

    /// The quantifiers, outermost first.
    pub fn prefix(&self) -> impl Iterator<Item = Row> + '_ {
        (0..self.sizes().variables).map(|at| self.row(at))
    }

    /// The rows of the tree, in preorder.
    pub fn nodes(&self) -> impl Iterator<Item = Row> + '_ {
        let Sizes { variables, nodes } = self.sizes();
        (variables..variables + nodes).map(|at| self.row(at))
    }

    /// A row by its number, quantifiers first.
    fn row(&self, at: usize) -> Row {
        let Sizes { variables, nodes } = self.sizes();
        let (format, header) = (self.format, self.format.header());
        let kind = Kind::from_byte(self.bytes[header + at]).expect("the kind of a sheet's row");
        let argument = header + variables + nodes + format.width() * at;
        Row { kind, argument: format.number(&self.bytes, argument) }
    }

    /// The verdict of trying all values.
    ///
    /// ```
    /// use plumanchor::{Format, Sheet};
    ///
    /// let sheet = Sheet::from_qdimacs(Format::Wide, b"p cnf 1 1\na 1 0\n1 0\n")?;
    /// assert!(!sheet.trial()?.verdict);
    /// # Ok::<(), plumanchor::Refusal>(())
    /// ```
    pub fn trial(&self) -> Result<Tried, Refusal> {
        self.format.trial(&self.bytes)
    }

    /// The kind bytes of the subtree at a node, none if there is no such node.
    pub fn part(&self, node: usize) -> &[u8] {
        self.format.part(&self.bytes, node)
    }

    /// The tidied sheet.
    pub fn tidy(&self) -> Result<Sheet, Refusal> {
        self.writes(|output| self.format.tidy(&self.bytes, output))
    }

    /// The sheet with `x` settled.
    pub fn settle(&self, x: usize) -> Result<Sheet, Refusal> {
        self.writes(|output| self.format.settle(&self.bytes, x, output))
    }

    /// The sheet with `x` expanded.
    ///
    /// ```
    /// use plumanchor::{Format, Reason, Sheet};
    ///
    /// let text = b"p cnf 2 2\na 1 0\ne 2 0\n1 -2 0\n-1 2 0\n";
    /// let sheet = Sheet::from_qdimacs(Format::Wide, text)?.tidy()?;
    /// assert_eq!(sheet.expand(2)?.sizes().variables, 1);
    /// assert_eq!(sheet.expand(1).unwrap_err().reason(), Some(Reason::WrongBlock));
    /// # Ok::<(), plumanchor::Refusal>(())
    /// ```
    pub fn expand(&self, x: usize) -> Result<Sheet, Refusal> {
        self.writes(|output| self.format.expand(&self.bytes, x, output))
    }

    /// The sheet with a universal `x` expanded one block out, and what was copied with it.
    pub fn outer(&self, x: usize) -> Result<Copied<Sheet>, Refusal> {
        let mut output = self.buffer();
        let copied = self.format.outer(&self.bytes, x, &mut output)?;
        Ok(copied.map(|length| self.front(output, length)))
    }

    /// The raw rows of the expansion of `x`.
    pub fn quote(&self, x: usize) -> Result<usize, Refusal> {
        self.format.quote(&self.bytes, x)
    }

    /// The sheet with `x` expanded, if its raw rows are no more than the ceiling.
    pub fn execute(&self, x: usize, ceiling: usize) -> Result<Sheet, Refusal> {
        self.writes(|output| self.format.execute(&self.bytes, x, ceiling, output))
    }

    /// The sheet after universal reduction.
    pub fn reduce(&self) -> Result<Sheet, Refusal> {
        self.writes(|output| self.format.reduce(&self.bytes, output))
    }

    /// The sheet with all children in order.
    pub fn sort(&self) -> Result<Sheet, Refusal> {
        self.writes(|output| self.format.sort(&self.bytes, output))
    }

    /// How this sheet is filed beside another one. If their formats differ, both are taken as wide
    /// sheets.
    ///
    /// ```
    /// use plumanchor::{Format, Sheet};
    /// use std::cmp::Ordering;
    ///
    /// let one = Sheet::from_qdimacs(Format::Wide, b"p cnf 2 1\ne 1 2 0\n1 2 0\n")?;
    /// let other = Sheet::from_qdimacs(Format::Narrow, b"p cnf 2 1\ne 1 2 0\n2 1 0\n")?;
    /// assert_ne!(one.bytes(), other.convert(Format::Wide)?.bytes());
    /// assert_eq!(one.compare(&other)?, Ordering::Equal);
    /// # Ok::<(), plumanchor::Refusal>(())
    /// ```
    pub fn compare(&self, other: &Sheet) -> Result<Ordering, Refusal> {
        if self.format != other.format {
            return self.convert(Format::Wide)?.compare(&other.convert(Format::Wide)?);
        }
        let (a, b) = (&self.bytes, &other.bytes);
        let (mut first, mut second) = (vec![0; a.len()], vec![0; b.len()]);
        self.format.compare(a, b, &mut first, &mut second).map_err(|refused| refused.refusal)
    }

    /// The same rows as a sheet of a format.
    pub fn convert(&self, format: Format) -> Result<Sheet, Refusal> {
        if format == self.format {
            return Ok(self.clone());
        }
        let mut bytes = vec![0; format.longest()];
        let length = format.convert(&self.bytes, &mut bytes)?;
        bytes.truncate(length);
        Ok(Sheet { format, bytes, room: self.room })
    }

    /// The sheet that a list of steps leaves, and what each step answers: the length of the sheet
    /// that it wrote, or its refusal.
    ///
    /// ```
    /// use plumanchor::{Format, Operation, Sheet, Step};
    ///
    /// let text = b"p cnf 2 2\na 1 0\ne 2 0\n1 -2 0\n-1 2 0\n";
    /// let sheet = Sheet::from_qdimacs(Format::Wide, text)?.tidy()?;
    /// let step = |operation, variable| Step { operation, variable };
    /// let steps = [step(Operation::Settle, 2), step(Operation::Expand, 2)];
    /// let (last, answers) = sheet.steps(&steps)?;
    /// assert!(answers[0].is_err() && answers[1] == Ok(last.bytes().len()));
    /// # Ok::<(), plumanchor::Refusal>(())
    /// ```
    pub fn steps(&self, steps: &[Step]) -> Result<(Sheet, Vec<Result<usize, Refusal>>), Refusal> {
        let operations: Vec<u8> = steps.iter().map(|step| step.operation as u8).collect();
        let variables: Vec<usize> = steps.iter().map(|step| step.variable).collect();
        let (mut numbers, mut values) = (vec![0; steps.len()], vec![0; steps.len()]);
        let mut second = self.buffer();
        let last = self.writes(|first| {
            let (numbers, values) = (&mut numbers, &mut values);
            let (sheet, second) = (&self.bytes, &mut second);
            self.format.steps(sheet, &operations, &variables, numbers, values, first, second)
        })?;
        let answers = numbers.into_iter().zip(values).map(|(number, value)| match number {
            0 => Ok(value),
            number => Err(Refusal { number: number as u8, place: value }),
        });
        Ok((last, answers.collect()))
    }

    /// With values for the first variables of the prefix: whose turn is next, and with which values
    /// its owner gets the outcome wanted.
    ///
    /// ```
    /// use plumanchor::{Forced, Format, Outcome, Quantifier, Sheet};
    ///
    /// let text = b"p cnf 2 2\na 1 0\ne 2 0\n1 -2 0\n-1 2 0\n";
    /// let sheet = Sheet::from_qdimacs(Format::Wide, text)?;
    /// let forced = Forced { turn: Quantifier::Exists, outcome: Outcome::One };
    /// assert_eq!(sheet.force(&[1])?, forced);
    /// # Ok::<(), plumanchor::Refusal>(())
    /// ```
    pub fn force(&self, values: &[u8]) -> Result<Forced, Refusal> {
        self.format.force(&self.bytes, values, &mut self.buffer(), &mut self.buffer())
    }

    /// Of a false sheet whose root is AND, the children to blame.
    ///
    /// ```
    /// use plumanchor::{Format, Guarded, Sheet};
    ///
    /// let text = b"p cnf 2 3\ne 1 2 0\n1 0\n2 0\n-1 0\n";
    /// let sheet = Sheet::from_qdimacs(Format::Wide, text)?;
    /// let Guarded::Kept { sheet: kept, stops: 0 } = sheet.guards()? else { panic!("false") };
    /// // AND, and of each clause, 1 and not 1, OR and a literal.
    /// assert_eq!(kept.sizes().nodes, 5);
    /// # Ok::<(), plumanchor::Refusal>(())
    /// ```
    pub fn guards(&self) -> Result<Guarded<Sheet>, Refusal> {
        let mut output = self.buffer();
        let (first, second) = (&mut self.buffer(), &mut self.buffer());
        let guarded = self.format.guards(&self.bytes, &mut output, first, second)?;
        Ok(guarded.map(|length| self.front(output, length)))
    }

    /// Solve. Refused only if the room is less than the sheet takes.
    pub fn solve(&self) -> Result<Solved, Refusal> {
        self.reach().map(|(solved, _)| solved)
    }

    /// Solve, with the sheet that it reached, which has the same truth.
    pub fn reach(&self) -> Result<(Solved, Sheet), Refusal> {
        let (mut first, mut second) = (self.buffer(), self.buffer());
        let solved = self.format.solve(&self.bytes, &mut first, &mut second)?;
        Ok((solved, self.reached(self.format, first)))
    }

    /// Goes on from this sheet, which a stopped run with these counts reached, under the wide
    /// limits.
    ///
    /// ```
    /// use plumanchor::{Counts, Format, Sheet};
    ///
    /// let text = b"p cnf 2 2\na 1 0\ne 2 0\n1 -2 0\n-1 2 0\n";
    /// let sheet = Sheet::from_qdimacs(Format::Narrow, text)?;
    /// let (stopped, reached) = sheet.clone().with_room(sheet.bytes().len()).reach()?;
    /// assert_eq!(stopped.to_string(), "stopped 0 0 2");
    ///
    /// let counts = Counts { started: 2, settled: stopped.settled, expanded: stopped.expanded };
    /// let reached = Sheet::new(reached.format(), reached.bytes())?;
    /// let (solved, _) = reached.resume(counts)?;
    /// assert_eq!(solved.verdict, Some(true));
    /// # Ok::<(), plumanchor::Refusal>(())
    /// ```
    pub fn resume(&self, counts: Counts) -> Result<(Solved, Sheet), Refusal> {
        let [mut first, mut second] = [(); 2].map(|()| vec![0; self.room_of(Format::Wide)]);
        let solved = self.format.resume(counts, &self.bytes, &mut first, &mut second)?;
        Ok((solved, self.reached(Format::Wide, first)))
    }

    /// The function of `x` by which its owner can answer what the others are, as a sheet of the
    /// prefix without `x`: with its value for `x` the matrix is what the owner can make of it.
    ///
    /// ```
    /// use plumanchor::{Format, Kind, Row, Sheet};
    ///
    /// // For all 1 there is a 2 that is equal to it, so 2 follows 1.
    /// let text = b"p cnf 2 2\na 1 0\ne 2 0\n1 -2 0\n-1 2 0\n";
    /// let sheet = Sheet::from_qdimacs(Format::Wide, text)?.tidy()?;
    /// let function = sheet.response(2)?;
    /// assert!(function.prefix().eq([Row::new(Kind::ForAll, 1)]));
    /// assert!(function.nodes().eq([Row::new(Kind::Positive, 1)]));
    /// # Ok::<(), plumanchor::Refusal>(())
    /// ```
    pub fn response(&self, x: usize) -> Result<Sheet, Refusal> {
        self.writes(|output| self.format.response(&self.bytes, x, output))
    }

    /// Solve, and where it ends the strategy by which the verdict's side wins: OR of one AND for
    /// each variable of the side, its literal and its function, which reads the other side's
    /// variables and those whose pairs come later. Refused only if the room is less than the sheet
    /// takes.
    ///
    /// ```
    /// use plumanchor::{Format, Quantifier, Sheet, Strategy};
    ///
    /// let text = b"p cnf 2 2\na 1 0\ne 2 0\n1 -2 0\n-1 2 0\n";
    /// let sheet = Sheet::from_qdimacs(Format::Wide, text)?;
    /// let Strategy::Written { verdict: true, sheet: strategy, .. } = sheet.strategy()? else {
    ///     panic!("true, and short");
    /// };
    /// // OR of AND of 2 and 1: 2 follows 1.
    /// assert_eq!(strategy.sizes().nodes, 4);
    /// assert!(sheet.claim(Quantifier::Exists, &strategy)?.trial()?.verdict);
    /// # Ok::<(), Box<dyn std::error::Error>>(())
    /// ```
    pub fn strategy(&self) -> Result<Strategy, Refusal> {
        let mut output = self.buffer();
        let (first, second) = (&mut self.buffer(), &mut self.buffer());
        let found = self.format.strategy(&self.bytes, first, second, &mut output)?;
        Ok(found.map(|length| self.front(output, length)))
    }

    /// The claim that a strategy of any origin wins for a side, as a sheet of one quantifier. It
    /// has the truth that the side wants, true for exists and false for all, exactly if the
    /// strategy wins, and then this sheet has it too. A strategy of the other format is converted.
    ///
    /// ```
    /// use plumanchor::{ClaimPart, Format, Kind, Quantifier, Reason, Row, Sheet};
    ///
    /// let text = b"p cnf 2 2\na 1 0\ne 2 0\n1 -2 0\n-1 2 0\n";
    /// let sheet = Sheet::from_qdimacs(Format::Wide, text)?;
    /// // OR of one AND for each variable of the side: its literal, and its function.
    /// let plays = |function| {
    ///     let prefix: Vec<Row> = sheet.prefix().collect();
    ///     let literal = |x| Row::new(Kind::Positive, x);
    ///     let pair = [Row::new(Kind::Or, 1), Row::new(Kind::And, 2), literal(2), literal(function)];
    ///     Sheet::from_rows(Format::Wide, &prefix, &pair)
    /// };
    /// assert!(sheet.claim(Quantifier::Exists, &plays(1)?)?.trial()?.verdict);
    /// let refused = sheet.claim(Quantifier::Exists, &plays(2)?).unwrap_err();
    /// assert_eq!(refused.at, ClaimPart::Strategy);
    /// assert_eq!(refused.refusal.reason(), Some(Reason::ReadsBeyond));
    /// # Ok::<(), Box<dyn std::error::Error>>(())
    /// ```
    pub fn claim(&self, side: Quantifier, strategy: &Sheet) -> Result<Sheet, ClaimRefusal> {
        let strategy = strategy.convert(self.format);
        let strategy =
            strategy.map_err(|refusal| ClaimRefusal { at: ClaimPart::Strategy, refusal })?;
        let kind = match side {
            Quantifier::Exists => Kind::Exists,
            Quantifier::ForAll => Kind::ForAll,
        };
        self.writes(|output| self.format.claim(&self.bytes, kind as usize, &strategy.bytes, output))
    }

    /// Whether a derivation of any origin shows the verdict: with clauses that the sheet is false,
    /// with cubes that it is true. Four words in `heads` say a step: 0, or the pivot's code and 1;
    /// two antecedents, by their numbers; and where its codes in `codes` end. A literal's code is
    /// twice its variable, and one more if it is negative.
    ///
    /// ```
    /// use plumanchor::{Certified, Format, Sheet};
    ///
    /// // 1 and not 1: the two clauses, and the empty one by resolution on 1.
    /// let sheet = Sheet::from_qdimacs(Format::Wide, b"p cnf 1 2\ne 1 0\n1 0\n-1 0\n")?;
    /// let heads = [0, 0, 0, 1, 0, 0, 0, 2, 3, 0, 1, 2];
    /// assert_eq!(sheet.certify(false, &heads, &[2, 3]), Certified::Yes);
    /// assert_eq!(sheet.certify(true, &heads, &[2, 3]), Certified::No { step: 0 });
    /// # Ok::<(), plumanchor::Refusal>(())
    /// ```
    pub fn certify(&self, verdict: bool, heads: &[u32], codes: &[u32]) -> Certified {
        let certified = self.format.certify(&self.bytes, verdict.into(), heads, codes);
        match certified.expect("what was checked isn't refused") {
            Ok(_) => Certified::Yes,
            Err(step) => Certified::No { step },
        }
    }

    /// A sheet of the same truth whose matrix is AND of clauses: under a root AND a literal is a
    /// clause of its own, an OR a clause of its children's names, and every other operator has a
    /// new existential variable as its name, which implies it. Search solvers take it as it is.
    ///
    /// ```
    /// use plumanchor::{Format, Kind, Row, Sheet};
    ///
    /// // 1, or 2 and 3: 4 is the name of the AND.
    /// let rows = |kind, variables: &[usize]| -> Vec<Row> {
    ///     variables.iter().map(|&x| Row::new(kind, x)).collect()
    /// };
    /// let or = [Row::new(Kind::Or, 2), Row::new(Kind::Positive, 1), Row::new(Kind::And, 2)];
    /// let nodes = [&or[..], &rows(Kind::Positive, &[2, 3])].concat();
    /// let sheet = Sheet::from_rows(Format::Wide, &rows(Kind::Exists, &[1, 2, 3]), &nodes)?;
    /// let clauses = sheet.clauses()?;
    /// assert!(clauses.prefix().eq(rows(Kind::Exists, &[1, 2, 3, 4])));
    /// assert_eq!(clauses.trial()?.verdict, sheet.trial()?.verdict);
    /// # Ok::<(), plumanchor::Refusal>(())
    /// ```
    pub fn clauses(&self) -> Result<Sheet, Refusal> {
        self.writes(|output| self.format.clauses(&self.bytes, output))
    }

    /// Runs of Solve, at most so many as the budget; where one stops, both halves of the sheet that
    /// it reached, of which at most so many wait as there are places. More places than variables
    /// change nothing. Refused only if the room is less than the sheet takes.
    ///
    /// ```
    /// use plumanchor::{DecideEnd, Decided, Format, Sheet};
    ///
    /// // Where no expansion fits, Solve stops, and both values of 1 are tried.
    /// let text = b"p cnf 2 2\na 1 0\ne 2 0\n1 -2 0\n-1 2 0\n";
    /// let sheet = Sheet::from_qdimacs(Format::Wide, text)?;
    /// let length = sheet.bytes().len();
    /// let sheet = sheet.with_room(length);
    /// assert_eq!(sheet.solve()?.verdict, None);
    /// let decided = Decided { verdict: Some(true), runs: 3, end: DecideEnd::Ended };
    /// assert_eq!(sheet.decide(10, 1)?, decided);
    /// assert_eq!(sheet.decide(10, 0)?.end, DecideEnd::NoPlace);
    /// assert_eq!(sheet.decide(2, 1)?.end, DecideEnd::Spent);
    /// # Ok::<(), plumanchor::Refusal>(())
    /// ```
    pub fn decide(&self, budget: usize, places: usize) -> Result<Decided, Refusal> {
        // Each split takes a variable away.
        let places = places.min(self.sizes().variables);
        let stack = &mut vec![0; places * self.room_of(self.format)];
        let (first, second) = (&mut self.buffer(), &mut self.buffer());
        self.format.decide(&self.bytes, budget, first, second, stack)
    }

    /// The sheet under values, 0 or 1, for the first variables of its prefix. It isn't tidied.
    pub fn split(&self, values: &[u8]) -> Result<Sheet, Refusal> {
        self.writes(|output| self.format.split(&self.bytes, values, output))
    }

    /// The verdict, if it is known from an answer for each list of values of the first `k`
    /// variables: 0 false, 1 true, 2 unknown. The lists are in order, those that begin with 0
    /// first. It is right if each answer known is that of the sheet which [`Sheet::split`] makes
    /// with those values.
    ///
    /// ```
    /// use plumanchor::{Format, Sheet};
    ///
    /// let text = b"p cnf 2 2\na 1 0\ne 2 0\n1 -2 0\n-1 2 0\n";
    /// let sheet = Sheet::from_qdimacs(Format::Wide, text)?;
    /// let answer = |value| Ok(u8::from(sheet.split(&[value])?.trial()?.verdict));
    /// assert_eq!(sheet.join(1, &[answer(0)?, answer(1)?])?, Some(true));
    /// assert_eq!(sheet.join(1, &[answer(0)?, 2])?, None);
    /// # Ok::<(), plumanchor::Refusal>(())
    /// ```
    pub fn join(&self, k: usize, answers: &[u8]) -> Result<Option<bool>, Refusal> {
        self.format.join(&self.bytes, k, answers)
    }

    /// How long outputs and buffers for sheets of a format are.
    fn room_of(&self, format: Format) -> usize {
        self.room.map_or(format.longest(), |room| room.min(format.longest()))
    }

    fn buffer(&self) -> Vec<u8> {
        vec![0; self.room_of(self.format)]
    }

    /// What an operation leaves at the front of an output: it answers with the length.
    fn writes<E>(&self, operation: impl FnOnce(&mut [u8]) -> Result<usize, E>) -> Result<Sheet, E> {
        let mut output = self.buffer();
        let length = operation(&mut output)?;
        Ok(self.front(output, length))
    }

    /// The sheet at the front of an output.
    fn front(&self, mut output: Vec<u8>, length: usize) -> Sheet {
        output.truncate(length);
        Sheet { format: self.format, bytes: output, room: self.room }
    }

    /// The sheet that a run left in its first buffer, as long as its sizes say.
    fn reached(&self, format: Format, first: Vec<u8>) -> Sheet {
        let sheet = Sheet { format, bytes: first, room: self.room };
        let Sizes { variables, nodes } = sheet.sizes();
        let mut bytes = sheet.bytes;
        bytes.truncate(format.length(variables + nodes));
        Sheet { format, bytes, room: self.room }
    }
}

impl PartialEq for Sheet {
    fn eq(&self, other: &Sheet) -> bool {
        (self.format, &self.bytes) == (other.format, &other.bytes)
    }
}

impl Eq for Sheet {}

impl Hash for Sheet {
    fn hash<H: Hasher>(&self, to: &mut H) {
        (self.format, &self.bytes).hash(to);
    }
}

impl AsRef<[u8]> for Sheet {
    fn as_ref(&self) -> &[u8] {
        &self.bytes
    }
}
