//! Calls that are lent a sheet and working memory, and answer figures.
use super::left;
use crate::guarded::{Against, Guarded};
use crate::random::Random;
use std::fmt::Debug;

/// The sheet and the working memories that are lent, between guard pages.
pub struct Asking {
    sheet: Guarded,
    work: Vec<Guarded>,
    lengths: Vec<usize>,
}

/// What a call is to answer.
pub struct Expected<T> {
    pub figures: T,
    /// Whether it is not refused.
    pub answered: bool,
}

impl Asking {
    /// Working memories of these lengths.
    pub fn new(lengths: &[usize]) -> Asking {
        let work = lengths.iter().map(|length| Guarded::new(*length)).collect();
        Asking { sheet: Guarded::new(1024), work, lengths: lengths.into() }
    }

    /// Makes the call twice, each time with one of the working memories, filled with noise: against the end guards and against the front
    /// guards.
    pub fn compare<T: PartialEq + Debug>(
        &mut self,
        random: &mut Random,
        sheet: &[u8],
        call: impl Fn(&[u8], &mut [u8]) -> T,
        expected: &Expected<T>,
    ) {
        for against in [Against::End, Against::Front] {
            let work = random.place(self.work.len());
            let mut before = vec![0; self.lengths[work]];
            random.fill(&mut before);
            let answer = call(self.sheet.lend(against, sheet), self.work[work].lend(against, &before));

            let about = || format!("sheet {sheet:02x?}, work {}, {against:?}", before.len());
            assert_eq!(answer, expected.figures, "{}", about());
            left::sheet(&self.sheet, sheet, &about);
            left::work(&self.work[work], &before, expected.answered, &about);
        }
    }
}
