//! The call for the least module count against a reading of the requirements that plans every count by every order: answers, cards, working
//! memory, and no other byte.
use super::planning::mislead_half;
use super::{left, sheets};
use crate::guarded::{Against, Guarded};
use crate::plain_search::GROUP;
use crate::random::Random;
use crate::raw_sheet::Sheet;
use crate::{card_length, reference, size, Refusal, MOST_JOBS, MOST_MODULES};

/// Working memory without a group of part-plans, with one, with some, and with many.
const WORK_LENGTHS: [usize; 6] = [0, 1, GROUP - 1, GROUP, 4096, 1 << 16];

/// A call for the least count: a sheet, a minute, a card and working memory.
pub type Sizer = fn(&[u8], u16, &mut [u8], &mut [u8]) -> Result<u16, Refusal>;

/// Lent memory between guard pages.
pub struct Sizing {
    sizer: Sizer,
    random: Random,
    sheet: Guarded,
    card: Guarded,
    work: Vec<Guarded>,
    pub compared: usize,
    /// How often each number was answered, and how often each count.
    pub answers: [usize; 21],
    pub counts: [usize; MOST_MODULES as usize + 1],
}

impl Sizing {
    /// Compares the library's call.
    pub fn new(seed: u64) -> Sizing {
        Sizing::of(size, seed)
    }

    /// Compares another call: what is compared must find fault with a wrong one.
    pub fn of(sizer: Sizer, seed: u64) -> Sizing {
        Sizing {
            sizer,
            random: Random::new(seed),
            sheet: Guarded::new(1024),
            card: Guarded::new(1024),
            work: WORK_LENGTHS.map(Guarded::new).into(),
            compared: 0,
            answers: [0; 21],
            counts: [0; MOST_MODULES as usize + 1],
        }
    }

    /// Sizes the sheet with two of the working memories, against the end guards and against the front guards.
    fn compare(&mut self, sheet: &[u8], by: u16, room: usize) {
        let expected = reference::size::size(sheet, by.into(), room);
        match &expected {
            Ok((modules, _)) => self.counts[*modules] += 1,
            Err(number) => self.answers[*number as usize] += 1,
        }
        self.answers[0] += usize::from(expected.is_ok());
        for against in [Against::End, Against::Front] {
            let work = self.random.place(WORK_LENGTHS.len());
            self.call(sheet, by, room, work, against, &expected);
        }
        self.compared += 1;
    }

    fn call(
        &mut self,
        sheet: &[u8],
        by: u16,
        room: usize,
        work: usize,
        against: Against,
        expected: &Result<(usize, Vec<u8>), u32>,
    ) {
        let mut card_before = vec![0; room];
        let mut work_before = vec![0; WORK_LENGTHS[work]];
        self.random.fill(&mut card_before);
        self.random.fill(&mut work_before);
        mislead_half(&mut self.random, sheet, &mut work_before);
        let lent_sheet = self.sheet.lend(against, sheet);
        let lent_card = self.card.lend(against, &card_before);
        let lent_work = self.work[work].lend(against, &work_before);
        let answer = (self.sizer)(lent_sheet, by, lent_card, lent_work);

        let about = || format!("sheet {sheet:02x?}, by {by}, card {room}, work {}, {against:?}", WORK_LENGTHS[work]);
        let (modules, card) = match expected {
            Ok((modules, card)) => (Ok(*modules as u16), Some(&card[..])),
            Err(number) => (Err(*number), None),
        };
        assert_eq!(answer.map_err(Refusal::number), modules, "{}", about());
        left::sheet(&self.sheet, sheet, &about);
        left::card(&self.card, &card_before, card, &about);
        left::work(&self.work[work], &work_before, card.is_some(), &about);
    }

    /// Sheets that read, of up to so many jobs, some of them wider than their cabinet.
    pub fn good(&mut self, most: usize, times: usize) {
        for _ in 0..times {
            let n = self.random.place(most + 1);
            let mut sheet = sheets::of_size(&mut self.random, n);
            if self.random.percent(40) {
                sheet.modules = self.random.between(1, MOST_MODULES.into()) as u16;
            }
            if self.random.percent(10) {
                self.widen(&mut sheet);
            }
            let by = self.by(&sheet);
            let room = card_length(n) + self.random.pick(&[0, 0, 1, 30, 500]);
            self.compare(&sheet.bytes(), by, room);
        }
    }

    /// One job as wide as a cabinet can be, or wider.
    fn widen(&mut self, sheet: &mut Sheet) {
        if !sheet.jobs.is_empty() {
            let job = self.random.place(sheet.jobs.len());
            sheet.jobs[job].modules = self.random.pick(&[30, 63, 64, 64, 65, 255]);
        }
    }

    /// A minute: the end of the plan for some count, the one before it, or any.
    fn by(&mut self, sheet: &Sheet) -> u16 {
        let read = reference::reading::read(&sheet.bytes()).expect("the sheet reads");
        let widest = read.jobs.iter().map(|job| job.modules).max().unwrap_or(1).min(MOST_MODULES.into());
        let modules = widest + self.random.place(4);
        let end = reference::size::plan_on(&read, modules.min(MOST_MODULES.into())).map_or(0, |plan| plan.end as u16);
        match self.random.place(8) {
            0..=3 => end,
            4..=5 => end.saturating_sub(1),
            6 => self.random.between(0, u32::from(end) + 10) as u16,
            _ => self.random.pick(&[0, 1, u16::MAX - 1, u16::MAX]),
        }
    }

    /// Sheets with a fault for one of the checks of reading, 8 or 9, some with another one.
    pub fn damaged(&mut self, check: u32, times: usize) {
        for _ in 0..times {
            let n = self.random.place(5);
            let sheet = sheets::of_size(&mut self.random, n);
            let room = if self.random.percent(80) { card_length(MOST_JOBS) } else { self.random.place(100) };
            let by = self.random.pick(&[0, 10, 100, 3000]);
            let bytes = sheets::with_fault(&mut self.random, sheet, check);
            self.compare(&bytes, by, room);
        }
    }

    /// Cards that are too short, for sheets of which some serve no count.
    pub fn short_cards(&mut self, times: usize) {
        for _ in 0..times {
            let n = self.random.place(5);
            let sheet = sheets::of_size(&mut self.random, n);
            let by = self.by(&sheet);
            let room = self.random.place(card_length(n));
            self.compare(&sheet.bytes(), by, room);
        }
    }
}
