//! Force: whose turn is next, and with which values its owner forces the
//! outcome wanted.

use super::{Answer, Formula, Quantifier, Reading, Refusal, SolveAnswer, Variable};

#[derive(Clone, Copy, Debug, PartialEq, Eq)]
pub enum Forced {
    Neither,
    Zero,
    One,
    Both,
    Stopped(Variable),
}

impl Forced {
    /// Whether the owner may play `value`.
    pub fn allows(self, value: bool) -> bool {
        match self {
            Forced::Neither | Forced::Stopped(_) => false,
            Forced::Zero => !value,
            Forced::One => value,
            Forced::Both => true,
        }
    }
}

impl Quantifier {
    /// The outcome that the owner of a row wants.
    pub fn wants(self) -> bool {
        self == Quantifier::Exists
    }
}

impl Formula {
    /// Without the first rows, with constants for their literals.
    pub fn under(&self, values: &[bool]) -> Formula {
        let (rows, rest) = self.prefix.split_at(values.len());
        let mut matrix = self.matrix.clone();
        for (&(_, x), &value) in rows.iter().zip(values) {
            matrix = matrix.assign(x, value);
        }
        Formula { prefix: rest.to_vec(), matrix }
    }
}

impl Reading {
    /// Force: both buffers become zeros unless it refuses.
    pub fn force(
        &self,
        sheet: &[u8],
        values: &[u8],
        first: &mut [u8],
        second: &mut [u8],
    ) -> Answer<(Quantifier, Forced)> {
        let room = first.len().min(second.len());
        let forced = self.forced(sheet, values, room);
        if forced.is_ok() {
            first.fill(0);
            second.fill(0);
        }
        forced.into()
    }

    fn forced(
        &self,
        sheet: &[u8],
        values: &[u8],
        room: usize,
    ) -> Result<(Quantifier, Forced), Refusal> {
        let formula = self.format.parse(sheet)?;
        if values.iter().any(|&value| value > 1) {
            return Err((21, 0));
        }
        let &(turn, _) = formula.prefix.get(values.len()).ok_or((22, 0))?;
        if room < sheet.len() {
            return Err((13, 0));
        }
        let given: Vec<bool> = values.iter().map(|&value| value == 1).collect();
        Ok((turn, self.outcome(&formula, turn, &given, room)))
    }

    fn outcome(&self, formula: &Formula, turn: Quantifier, given: &[bool], room: usize) -> Forced {
        let mut wins = [false; 2];
        for value in [false, true] {
            let tried = formula.under(&[given, &[value]].concat());
            match self.solve(&self.format.encode(&tried), &mut vec![0; room], &mut vec![0; room]) {
                SolveAnswer::Ended { verdict, .. } => {
                    wins[usize::from(value)] = verdict == turn.wants();
                }
                SolveAnswer::Stopped { variable, .. } => return Forced::Stopped(variable),
                SolveAnswer::Refused(..) => unreachable!("a sheet no longer than the one given"),
            }
        }
        match wins {
            [false, false] => Forced::Neither,
            [true, false] => Forced::Zero,
            [false, true] => Forced::One,
            [true, true] => Forced::Both,
        }
    }
}
