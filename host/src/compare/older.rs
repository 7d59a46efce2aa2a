//! Sheets of the layouts before records had an arrival and before trailers had a changeover, put into today's with 0 for what they lack:
//! planning against a reading of their own layout.
use super::sheets;
use crate::plain_search::GROUP;
use crate::random::Random;
use crate::raw_sheet::Layout;
use crate::reference::{older, reading};
use crate::{card_length, plan, Refusal, MOST_JOBS};

/// Their layout, noise, and how often each number was answered.
pub struct Older {
    layout: Layout,
    random: Random,
    pub answers: [usize; 11],
}

impl Older {
    pub fn new(layout: Layout, seed: u64) -> Older {
        Older { layout, random: Random::new(seed), answers: [0; 11] }
    }

    /// Plans the older sheet in today's layout: the answer and every byte of the card are what its own layout gives, and so is the
    /// reading. A sheet of which 1 to 4 fail has no parts to be put anywhere.
    fn compare(&mut self, sheet: &[u8], room: usize) {
        let Some(today) = older::relaid(sheet, self.layout) else { return };
        assert_eq!(reading::read(&today), older::read(sheet, self.layout), "sheet {sheet:02x?}");
        let expected = older::plan(sheet, self.layout, room);
        let mut before = vec![0; room];
        self.random.fill(&mut before);
        let mut card = before.clone();
        let mut work = vec![0x5A; self.random.pick(&[0, GROUP, 4096])];
        let answer = plan(&today, &mut card, &mut work);
        let number = expected.as_ref().err().copied().unwrap_or(0);
        assert_eq!(answer.map_or_else(Refusal::number, |()| 0), number, "sheet {sheet:02x?}, card {room}");
        let written = expected.unwrap_or_default();
        assert_eq!(card[..written.len()], written, "sheet {sheet:02x?}");
        assert_eq!(card[written.len()..], before[written.len()..], "sheet {sheet:02x?}");
        self.answers[number as usize] += 1;
    }

    /// Sheets that read, of up to 7 jobs.
    pub fn good(&mut self, times: usize) {
        for _ in 0..times {
            let sheet = sheets::good(&mut self.random);
            let room = card_length(sheet.jobs.len()) + self.random.pick(&[0, 0, 1, 30]);
            self.compare(&sheet.bytes_in(self.layout), room);
        }
    }

    /// Sheets with a fault for a check of 5 to 9, some with another one.
    pub fn damaged(&mut self, check: u32, times: usize) {
        for _ in 0..times {
            let mut sheet = sheets::good(&mut self.random);
            sheets::put_fault(&mut self.random, &mut sheet, check);
            if self.random.percent(30) {
                let other = self.random.between(5, 9);
                sheets::put_fault(&mut self.random, &mut sheet, other);
            }
            let room = if self.random.percent(90) { card_length(MOST_JOBS) } else { self.random.place(100) };
            self.compare(&sheet.bytes_in(self.layout), room);
        }
    }

    /// Cards that are too short.
    pub fn short_cards(&mut self, times: usize) {
        for _ in 0..times {
            let sheet = sheets::good(&mut self.random);
            let room = self.random.place(card_length(sheet.jobs.len()));
            self.compare(&sheet.bytes_in(self.layout), room);
        }
    }

    /// Sheets with some bytes changed, no matter which.
    pub fn scrambled(&mut self, times: usize) {
        for _ in 0..times {
            let sheet = sheets::good(&mut self.random);
            let bytes = sheets::scrambled(&mut self.random, sheet.bytes_in(self.layout));
            self.compare(&bytes, card_length(MOST_JOBS));
        }
    }
}
