//! Guards on sheets of either format, beside the independent reading.

use crate::compare::hexadecimal;
use crate::Library;
use outside::reference::GuardsAnswer;
use plumanchor::Guarded;

impl Library {
    pub fn guards(&self, sheet: &[u8], buffers: &mut [Vec<u8>; 3]) -> GuardsAnswer {
        let [output, first, second] = buffers;
        match self.proved.guards(sheet, output, first, second) {
            Err(refused) => GuardsAnswer::Refused(refused.number, refused.place),
            Ok(Guarded::Kept { sheet: length, stops }) => GuardsAnswer::Kept { length, stops },
            Ok(Guarded::True { settled, expanded }) => GuardsAnswer::True { settled, expanded },
            Ok(Guarded::Stopped { variable, settled, expanded }) => {
                GuardsAnswer::Stopped { variable, settled, expanded }
            }
        }
    }

    /// One call on both, with equal buffers before it; what is left in them is compared too.
    pub fn agree_on_guards(
        &self,
        sheet: &[u8],
        before: [Vec<u8>; 3],
    ) -> (GuardsAnswer, [Vec<u8>; 3]) {
        let (mut mine, mut theirs) = (before.clone(), before);
        let proved = self.guards(sheet, &mut mine);
        let [output, first, second] = &mut theirs;
        let reference = self.reading.guards(sheet, output, first, second);
        let same = proved == reference && mine == theirs;
        assert!(same, "guards of {}\n{proved:?}\n{reference:?}", hexadecimal(sheet));
        (proved, mine)
    }
}
