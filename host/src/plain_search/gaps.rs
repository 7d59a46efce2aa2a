//! A plan by gaps: each job of an order in turn starts at the first minute from which its modules are free for as long as it keeps them,
//! between the jobs before it as well.
use super::tables::{jobs_of, Tables};
use crate::MOST_JOBS;

/// The start of a job that has none yet.
const NONE: u16 = u16::MAX;

/// The free modules from minute to minute, sorted: so many steps, each with the minute from which on so many modules are free.
struct Steps {
    at: [(u16, u16); 2 * MOST_JOBS + 2],
    count: usize,
}

/// The starts of a plan, and the module-minutes that its jobs keep behind a minute.
pub struct Gaps {
    pub starts: [u16; MOST_JOBS],
    pub cost: u32,
}

impl Steps {
    fn first(modules: u16) -> Steps {
        let mut at = [(0, 0); 2 * MOST_JOBS + 2];
        at[0] = (0, modules);
        Steps { at, count: 1 }
    }

    /// The first minute from a minute on from which so many modules are free for so long.
    fn room_from(&self, from: u16, need: u16, kept: u16) -> u16 {
        let mut start = from;
        for pair in self.at[..=self.count].windows(2) {
            let (minute, free) = pair[0];
            if start + kept <= minute {
                break;
            }
            if free < need {
                start = start.max(pair[1].0);
            }
        }
        start
    }

    /// The place of the step that begins at this minute, made where there is none.
    fn split(&mut self, minute: u16) -> usize {
        let mut place = self.count;
        while minute < self.at[place - 1].0 {
            place -= 1;
        }
        let (begins, free) = self.at[place - 1];
        if begins == minute {
            return place - 1;
        }
        self.at.copy_within(place..self.count, place + 1);
        self.at[place] = (minute, free);
        self.count += 1;
        place
    }

    /// The start of a job in the first gap from a minute on.
    fn fill(&mut self, from: u16, need: u16, kept: u16) -> u16 {
        let start = self.room_from(from, need, kept);
        let places = self.split(start)..self.split(start + kept);
        self.at[places].iter_mut().for_each(|(_, free)| *free -= need);
        start
    }
}

impl Tables {
    /// The plan by gaps of an order; none where a job stands before one for which it waits, or where it costs more than the most.
    pub fn by_gaps(&self, order: &[u8; MOST_JOBS], close: u16, most: u32) -> Option<Gaps> {
        let mut steps = Steps::first(self.modules);
        let mut gaps = Gaps { starts: [NONE; MOST_JOBS], cost: 0 };
        for j in order[..self.jobs].iter().map(|j| usize::from(*j)) {
            let from = self.free_to_start(&gaps.starts, j)?;
            let start = steps.fill(from, self.need[j], self.kept[j]);
            gaps.starts[j] = start;
            gaps.cost += u32::from(self.need[j]) * u32::from((start + self.kept[j]).saturating_sub(close));
            if most < gaps.cost {
                return None;
            }
        }
        Some(gaps)
    }

    /// The first minute at which a job may start; none where a job for which it waits has no start.
    fn free_to_start(&self, starts: &[u16; MOST_JOBS], j: usize) -> Option<u16> {
        let mut from = self.arrival[j];
        for k in jobs_of(self.earlier[j]) {
            if starts[k] == NONE {
                return None;
            }
            from = from.max(starts[k] + self.minutes[k]);
        }
        Some(from)
    }
}
