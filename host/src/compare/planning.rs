//! The planning call against a reading of the requirements that tries every order: answers, cards, working memory, and no other byte.
use super::{left, sheets};
use crate::guarded::{Against, Guarded};
use crate::plain_search::{mislead, GROUP};
use crate::random::Random;
use crate::{card_length, earliest_end, plan, reference, Refusal, MOST_JOBS};

/// Every so many sheets are planned with the largest working memory too.
const LARGEST_EVERY: usize = 2;
/// Working memory without a group of part-plans, with one, with two, with some, and with many.
const WORK_LENGTHS: [usize; 9] = [0, 1, GROUP - 1, GROUP, GROUP + 1, 2 * GROUP - 1, 2 * GROUP, 4096, 1 << 20];
const LARGEST: usize = WORK_LENGTHS[WORK_LENGTHS.len() - 1];

/// A planning call: a sheet, a card and working memory.
pub type Planner = fn(&[u8], &mut [u8], &mut [u8]) -> Result<(), Refusal>;

/// Puts part-plans that cut every other into the working memory for a sheet, half of the time.
pub fn mislead_half(random: &mut Random, sheet: &[u8], work: &mut [u8]) {
    if random.percent(50) {
        let jobs = reference::reading::read(sheet).map_or(0, |sheet| sheet.jobs.len());
        mislead(work, jobs);
    }
}

/// Lent memory between guard pages, and noise to fill it with.
pub struct Planning {
    planner: Planner,
    random: Random,
    noise: Vec<u8>,
    sheet: Guarded,
    card: Guarded,
    work: Vec<Guarded>,
    pub compared: usize,
    /// How often each number was answered.
    pub answers: [usize; 20],
}

impl Planning {
    /// Compares the library's planning call.
    pub fn new(seed: u64) -> Planning {
        Planning::of(plan, seed)
    }

    /// Compares another planning call: what is compared must find fault with a wrong one.
    pub fn of(planner: Planner, seed: u64) -> Planning {
        let mut random = Random::new(seed);
        let mut noise = vec![0; 2 * LARGEST];
        random.fill(&mut noise);
        Planning {
            planner,
            random,
            noise,
            sheet: Guarded::new(1024),
            card: Guarded::new(1024),
            work: WORK_LENGTHS.map(Guarded::new).into(),
            compared: 0,
            answers: [0; 20],
        }
    }

    fn noise(&mut self, length: usize) -> Vec<u8> {
        let from = self.random.place(self.noise.len() - length);
        self.noise[from..from + length].to_vec()
    }

    /// Plans the sheet with every working memory, against the end guards, and with one of them against the front guards.
    fn compare(&mut self, sheet: &[u8], room: usize) {
        let expected = reference::planning::plan(sheet, room);
        self.answers[expected.as_ref().err().copied().unwrap_or(0) as usize] += 1;
        let with_largest = self.compared.is_multiple_of(LARGEST_EVERY);
        let works = WORK_LENGTHS.len() - usize::from(!with_largest);
        for work in 0..works {
            self.call(sheet, room, work, Against::End, &expected);
        }
        let work = self.random.place(works);
        self.call(sheet, room, work, Against::Front, &expected);
        let end = reference::planning::end(sheet);
        for against in [Against::End, Against::Front] {
            let work = self.random.place(works);
            self.call_for_the_end(sheet, work, against, &end);
        }
        self.compared += 1;
    }

    /// The call for the end alone: the end on the reference's card, whatever the working memory, and its refusals but 10.
    fn call_for_the_end(&mut self, sheet: &[u8], work: usize, against: Against, expected: &Result<u32, u32>) {
        let work_before = self.noise(WORK_LENGTHS[work]);
        let lent_sheet = self.sheet.lend(against, sheet);
        let lent_work = self.work[work].lend(against, &work_before);
        let answer = earliest_end(lent_sheet, lent_work);

        let about = || format!("end of sheet {sheet:02x?}, work {}, {against:?}", WORK_LENGTHS[work]);
        assert_eq!(answer.map(u32::from).map_err(Refusal::number), *expected, "{}", about());
        left::sheet(&self.sheet, sheet, &about);
        left::work(&self.work[work], &work_before, expected.is_ok(), &about);
    }

    fn call(&mut self, sheet: &[u8], room: usize, work: usize, against: Against, expected: &Result<Vec<u8>, u32>) {
        let card_before = self.noise(room);
        let mut work_before = self.noise(WORK_LENGTHS[work]);
        mislead_half(&mut self.random, sheet, &mut work_before);
        let lent_sheet = self.sheet.lend(against, sheet);
        let lent_card = self.card.lend(against, &card_before);
        let lent_work = self.work[work].lend(against, &work_before);
        let answer = (self.planner)(lent_sheet, lent_card, lent_work);

        let about = || format!("sheet {sheet:02x?}, card {room}, work {}, {against:?}", WORK_LENGTHS[work]);
        assert_eq!(answer.map_err(Refusal::number), expected.as_ref().map(|_| ()).map_err(|number| *number), "{}", about());
        left::sheet(&self.sheet, sheet, &about);
        left::card(&self.card, &card_before, expected.as_deref().ok(), &about);
        left::work(&self.work[work], &work_before, expected.is_ok(), &about);
    }

    /// Sheets that read, of up to 7 jobs.
    pub fn good(&mut self, times: usize) {
        for _ in 0..times {
            let sheet = sheets::good(&mut self.random);
            let room = self.enough(sheet.jobs.len());
            self.compare(&sheet.bytes(), room);
        }
    }

    /// Sheets that read, of n jobs.
    pub fn of_size(&mut self, n: usize, times: usize) {
        for _ in 0..times {
            let sheet = sheets::of_size(&mut self.random, n);
            let room = self.enough(n);
            self.compare(&sheet.bytes(), room);
        }
    }

    /// Sheets with a fault for one of the checks of reading, 8 or 9, some with another one.
    pub fn damaged(&mut self, check: u32, times: usize) {
        for _ in 0..times {
            let room = if self.random.percent(90) { self.enough(MOST_JOBS) } else { self.random.place(100) };
            let bytes = sheets::faulty(&mut self.random, check);
            self.compare(&bytes, room);
        }
    }

    /// Cards that are too short.
    pub fn short_cards(&mut self, times: usize) {
        for _ in 0..times {
            let sheet = sheets::good(&mut self.random);
            let room = self.random.place(card_length(sheet.jobs.len()));
            self.compare(&sheet.bytes(), room);
        }
    }

    /// Sheets with some bytes changed, no matter which.
    pub fn scrambled(&mut self, times: usize) {
        for _ in 0..times {
            let sheet = sheets::good(&mut self.random);
            let room = self.enough(MOST_JOBS);
            let bytes = sheets::scrambled(&mut self.random, sheet.bytes());
            self.compare(&bytes, room);
        }
    }

    /// Any bytes of this length.
    pub fn noisy(&mut self, length: usize) {
        let bytes = self.noise(length);
        let room = self.enough(MOST_JOBS);
        self.compare(&bytes, room);
    }

    /// Room for the card of so many jobs, or more.
    fn enough(&mut self, jobs: usize) -> usize {
        card_length(jobs) + self.random.pick(&[0, 0, 1, 30, 500])
    }
}
