//! Sort and Compare of both formats (N14), each beside the independent reading.

use crate::compare::hexadecimal;
use crate::{answer, Library};
use outside::reference::{Answer, CompareAnswer};
use plumanchor::{PairRefusal, Refusal};

impl Library {
    pub fn sort(&self, sheet: &[u8], output: &mut [u8]) -> Answer<usize> {
        answer(self.proved.sort(sheet, output))
    }

    pub fn compare(
        &self,
        a: &[u8],
        b: &[u8],
        first: &mut [u8],
        second: &mut [u8],
    ) -> CompareAnswer {
        match self.proved.compare(a, b, first, second) {
            Ok(order) => CompareAnswer::Ordered(order),
            Err(PairRefusal { sheet, refusal: Refusal { number, place } }) => {
                CompareAnswer::Refused(sheet, number, place)
            }
        }
    }

    /// Sort on both, with equal outputs before it: the answer and what is left.
    pub fn agree_on_sort(&self, sheet: &[u8], before: &[u8]) -> (Answer<usize>, Vec<u8>) {
        let (mut mine, mut theirs) = (before.to_vec(), before.to_vec());
        let proved = self.sort(sheet, &mut mine);
        let reference = self.reading.sort(sheet, &mut theirs);
        assert!((proved, &mine) == (reference, &theirs), "sort of {}", hexadecimal(sheet));
        (proved, mine)
    }

    /// Compare on both, with equal buffers before it.
    pub fn agree_on_compare(&self, a: &[u8], b: &[u8], before: [&[u8]; 2]) -> CompareAnswer {
        let [mut first, mut second] = before.map(<[u8]>::to_vec);
        let proved = self.compare(a, b, &mut first, &mut second);
        let [mut third, mut fourth] = before.map(<[u8]>::to_vec);
        let reference = self.reading.compare(a, b, &mut third, &mut fourth);
        let same = (proved, &first, &second) == (reference, &third, &fourth);
        assert!(same, "compare {}\nwith {}", hexadecimal(a), hexadecimal(b));
        proved
    }
}
