//! The count of the job sets against a reading of the requirements that tries every set: answers, and no byte written.
use super::sheets;
use crate::guarded::{Against, Guarded};
use crate::random::Random;
use crate::raw_sheet::{mark_earlier, Sheet};
use crate::{reference, sets, Job, Refusal};

/// A call that counts the job sets of a sheet.
pub type Counter = fn(&[u8]) -> Result<u32, Refusal>;

/// Lent memory between guard pages.
pub struct Sets {
    counter: Counter,
    random: Random,
    sheet: Guarded,
    pub compared: usize,
    /// How often each number was answered.
    pub answers: [usize; 20],
}

impl Sets {
    /// Compares the library's call.
    pub fn new(seed: u64) -> Sets {
        Sets::of(sets, seed)
    }

    /// Compares another call: what is compared must find fault with a wrong one.
    pub fn of(counter: Counter, seed: u64) -> Sets {
        Sets { counter, random: Random::new(seed), sheet: Guarded::new(1024), compared: 0, answers: [0; 20] }
    }

    fn compare(&mut self, sheet: &[u8]) {
        let expected = reference::sets::sets(sheet);
        self.answers[*expected.as_ref().err().unwrap_or(&0) as usize] += 1;
        for against in [Against::End, Against::Front] {
            let lent = self.sheet.lend(against, sheet);
            let answer = (self.counter)(lent);
            assert_eq!(answer.map_err(Refusal::number), expected, "sheet {sheet:02x?}");
            assert!(self.sheet.left() == sheet && self.sheet.rest_untouched(), "sheet {sheet:02x?}");
        }
        self.compared += 1;
    }

    /// Sheets that read, of up to so many jobs.
    pub fn good(&mut self, most: usize, times: usize) {
        for _ in 0..times {
            let n = self.random.place(most + 1);
            let sheet = sheets::of_size(&mut self.random, n);
            self.compare(&sheet.bytes());
        }
    }

    /// Sheets with a fault for one of the checks, some with another one.
    pub fn damaged(&mut self, check: u32, times: usize) {
        for _ in 0..times {
            let bytes = sheets::faulty(&mut self.random, check);
            self.compare(&bytes);
        }
    }
}

/// The sheet of jobs that are alike but for these earlier jobs.
pub fn marked(earlier: &[u32]) -> Vec<u8> {
    let job = |earlier: &u32| Job { label_len: 1, modules: 1, minutes: 1, earlier: *earlier, ..Job::default() };
    Sheet::of(1, earlier.iter().map(job).collect()).bytes()
}

/// A random sheet of n jobs of this density of marks, in percent.
pub fn random_marks(random: &mut Random, n: usize, percent: u32) -> Vec<u8> {
    let mut jobs = vec![Job::default(); n];
    mark_earlier(random, &mut jobs, percent);
    marked(&jobs.iter().map(|job| job.earlier).collect::<Vec<_>>())
}
