//! Reading in one pass against the reader of before, which passes twice: the whole answer, and no other byte looked at.
use super::sheet_calls::READING;
use super::sheets;
use crate::ffi::{self, Reading};
use crate::guarded::{Against, Guarded};
use crate::random::Random;
use crate::MOST_JOBS;

/// Lent memory between guard pages, the reader of before, and how often each number was answered.
pub struct TwoPasses {
    random: Random,
    sheet: Guarded,
    before: fn(&[u8]) -> Reading,
    answers: [usize; 20],
}

impl TwoPasses {
    pub fn new(seed: u64, before: fn(&[u8]) -> Reading) -> TwoPasses {
        TwoPasses { random: Random::new(seed), sheet: Guarded::new(2048), before, answers: [0; 20] }
    }

    /// Reads the sheet both ways, and gives the number.
    fn compare(&mut self, sheet: &[u8]) -> u32 {
        let against = self.random.pick(&[Against::End, Against::Front]);
        let lent = &*self.sheet.lend(against, sheet);
        // SAFETY: live memory of so many bytes.
        let now = unsafe { ffi::depot_read(lent.as_ptr(), lent.len()) };
        assert_eq!(now, (self.before)(lent), "sheet {sheet:02x?}");
        assert_eq!(self.sheet.left(), sheet);
        self.answers[now.refusal as usize] += 1;
        now.refusal
    }

    /// Sheets that read, of 0 to 20 jobs.
    pub fn good(&mut self, times: usize) {
        for i in 0..times {
            let sheet = sheets::of_size(&mut self.random, i % (MOST_JOBS + 1));
            assert_eq!(self.compare(&sheet.bytes()), 0);
        }
    }

    /// Sheets with a fault for each of these checks.
    pub fn damaged(&mut self, checks: &[u32], times: usize) {
        for _ in 0..times {
            let n = 1 + self.random.place(MOST_JOBS);
            let sheet = sheets::of_size(&mut self.random, n);
            let bytes = sheets::damaged(&mut self.random, sheet, checks);
            self.compare(&bytes);
        }
    }

    /// Sheets with some bytes changed, no matter which.
    pub fn scrambled(&mut self, times: usize) {
        for _ in 0..times {
            let n = self.random.place(MOST_JOBS + 1);
            let sheet = sheets::of_size(&mut self.random, n);
            let bytes = sheets::scrambled(&mut self.random, sheet.bytes());
            self.compare(&bytes);
        }
    }

    /// Any bytes of any length up to one more than the longest sheet's.
    pub fn noise(&mut self, times: usize) {
        for _ in 0..times {
            let mut bytes = vec![0; self.random.place(crate::LONGEST_SHEET + 2)];
            self.random.fill(&mut bytes);
            self.compare(&bytes);
        }
    }

    /// How often each number was answered, 0 first, and then in the order of the checks.
    pub fn answers(&self) -> Vec<usize> {
        [0].iter().chain(&READING).map(|number| self.answers[*number as usize]).collect()
    }
}
