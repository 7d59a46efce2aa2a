//! Slack against a reading of the requirements that goes along every chain: answers, working memory, and no other byte.
use super::asking::{Asking, Expected};
use super::sheets;
use crate::ffi::Slacks;
use crate::random::Random;
use crate::{ffi, reference, JobSlack, MOST_JOBS};

/// Working memory of none, of a byte, of too little and of enough.
const WORK_LENGTHS: [usize; 4] = [0, 1, 4096, 1 << 16];

/// A call that answers slack, with the sheet and the working memory that it is lent.
pub type Slacker = fn(&[u8], &mut [u8]) -> Slacks;

/// The library's call.
fn library(sheet: &[u8], work: &mut [u8]) -> Slacks {
    // SAFETY: two live slices that do not overlap; the library keeps no pointer.
    unsafe { ffi::depot_slack(sheet.as_ptr(), sheet.len(), work.as_mut_ptr(), work.len()) }
}

/// The reference's answer as the library gives it.
pub fn expected(sheet: &[u8]) -> Slacks {
    let mut answer = Slacks { refusal: 0, jobs: [JobSlack::default(); MOST_JOBS], count: 0 };
    match reference::slack::slack(sheet) {
        Err(number) => answer.refusal = number,
        Ok(entries) => {
            answer.count = entries.len();
            for (place, entry) in answer.jobs.iter_mut().zip(entries) {
                *place = JobSlack { latest_start: entry.latest_start as i32, slack: entry.slack as i32, implied: entry.implied };
            }
        }
    }
    answer
}

/// Lent memory between guard pages, noise to fill it with, and what was met.
pub struct Slack {
    slacker: Slacker,
    random: Random,
    asking: Asking,
    pub compared: usize,
    /// How often each number was answered.
    pub answers: [usize; 20],
    /// Jobs whose slack is below 0.
    pub late: usize,
    /// Jobs whose latest start lies before the plan's start.
    pub below_0: usize,
    /// Marks that others imply.
    pub implied: usize,
}

impl Slack {
    /// Compares the library's call.
    pub fn new(seed: u64) -> Slack {
        Slack::of(library, seed)
    }

    /// Compares another call: what is compared must find fault with a wrong one.
    pub fn of(slacker: Slacker, seed: u64) -> Slack {
        Slack {
            slacker,
            random: Random::new(seed),
            asking: Asking::new(&WORK_LENGTHS),
            compared: 0,
            answers: [0; 20],
            late: 0,
            below_0: 0,
            implied: 0,
        }
    }

    fn compare(&mut self, sheet: &[u8]) {
        let expected = expected(sheet);
        self.answers[expected.refusal as usize] += 1;
        self.late += expected.jobs.iter().filter(|job| job.slack < 0).count();
        self.below_0 += expected.jobs.iter().filter(|job| job.latest_start < 0).count();
        self.implied += expected.jobs.iter().map(|job| job.implied.count_ones() as usize).sum::<usize>();
        let answered = expected.refusal == 0;
        self.asking.compare(&mut self.random, sheet, self.slacker, &Expected { figures: expected, answered });
        self.compared += 1;
    }

    /// Sheets that read, of up to so many jobs; half of them with departures near the plan's minutes, which buses miss.
    pub fn good(&mut self, most: usize, times: usize) {
        for _ in 0..times {
            let n = self.random.place(most + 1);
            let mut sheet = sheets::of_size(&mut self.random, n);
            if self.random.percent(50) {
                let last = self.random.pick(&[5, 30, 120]);
                sheet.jobs.iter_mut().for_each(|job| job.departure = self.random.between(0, last) as u16);
            }
            self.compare(&sheet.bytes());
        }
    }

    /// Sheets with a fault for one of the checks, some with another one.
    pub fn damaged(&mut self, check: u32, times: usize) {
        for _ in 0..times {
            let bytes = sheets::faulty(&mut self.random, check);
            self.compare(&bytes);
        }
    }
}
