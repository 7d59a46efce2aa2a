//! The use of the cabinet against a reading of the requirements that counts every module-minute: answers, working memory, and no other
//! byte.
use super::asking::{Asking, Expected};
use super::sheets;
use crate::random::Random;
use crate::raw_sheet::Sheet;
use crate::{reference, usage, Refusal, Usage};

const WORK_LENGTHS: [usize; 4] = [0, 1, 735, 4096];

/// A call for the use of the cabinet: a sheet and working memory.
pub type User = fn(&[u8], &mut [u8]) -> Result<Usage, Refusal>;

/// Lent memory between guard pages.
pub struct Uses {
    user: User,
    random: Random,
    asking: Asking,
    pub compared: usize,
    /// How often each number was answered.
    pub answers: [usize; 24],
    /// How often the remainder was not 0, and how often modules had rested.
    pub with_remainder: usize,
    pub with_rests: usize,
}

impl Uses {
    /// Compares the library's call.
    pub fn new(seed: u64) -> Uses {
        Uses::of(usage, seed)
    }

    /// Compares another call: what is compared must find fault with a wrong one.
    pub fn of(user: User, seed: u64) -> Uses {
        Uses {
            user,
            random: Random::new(seed),
            asking: Asking::new(&WORK_LENGTHS),
            compared: 0,
            answers: [0; 24],
            with_remainder: 0,
            with_rests: 0,
        }
    }

    fn compare(&mut self, sheet: &[u8]) {
        let expected = reference::usage::used(sheet).map(|used| used.per_mille_and_remainder());
        self.answers[*expected.as_ref().err().unwrap_or(&0) as usize] += 1;
        self.with_remainder += usize::from(matches!(expected, Ok((_, 1..))));
        let answered = expected.is_ok();
        let user = self.user;
        let call = |sheet: &[u8], work: &mut [u8]| {
            let figures = |usage: Usage| (u64::from(usage.per_mille), u64::from(usage.remainder));
            user(sheet, work).map(figures).map_err(Refusal::number)
        };
        self.asking.compare(&mut self.random, sheet, call, &Expected { figures: expected, answered });
        self.compared += 1;
    }

    fn compare_good(&mut self, sheet: &Sheet) {
        self.with_rests += usize::from(sheet.changeover > 0 && !sheet.jobs.is_empty());
        self.compare(&sheet.bytes());
    }

    /// Sheets that read, of up to 7 jobs.
    pub fn good(&mut self, times: usize) {
        for _ in 0..times {
            let sheet = sheets::good(&mut self.random);
            self.compare_good(&sheet);
        }
    }

    /// Such sheets whose modules rest between two jobs.
    pub fn resting(&mut self, times: usize) {
        for _ in 0..times {
            let sheet = sheets::resting(&mut self.random);
            self.compare_good(&sheet);
        }
    }

    /// Sheets with a fault for one of the checks, some with another one.
    pub fn damaged(&mut self, check: u32, times: usize) {
        for _ in 0..times {
            let bytes = sheets::faulty(&mut self.random, check);
            self.compare(&bytes);
        }
    }
}
