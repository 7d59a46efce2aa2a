//! The best plan so far of a sheet that takes long: planning with a limit, again and again with a larger one, on a thread of its own.
use depot_host::order::Order;
use depot_host::{card_length, plan_within, read, Job, Limited, Reading};
use std::sync::{Arc, Condvar, Mutex, MutexGuard};
use std::thread;

/// The first limit behind none at all, and how it grows. A million part-plans take a second or less.
const FIRST: u64 = 100_000;
const GROWTH: u64 = 4;
/// The limit for the list in quarter hours.
const OF_QUARTERS: u64 = 250_000;
/// The most working memory that it takes.
const MEMORY: usize = 16 << 20;
const QUARTER: u16 = 15;

/// The plan that ends first of those that were found, and the latest minute that is known to lie before no plan's end.
#[derive(Clone, Debug, PartialEq, Eq)]
pub struct Best {
    pub card: Vec<u8>,
    pub end: u16,
    pub bound: u16,
    /// Whether it is the plan that planning gives.
    pub exact: bool,
}

impl Best {
    /// The better of this and a further answer.
    fn or(self, card: Vec<u8>, answer: Limited) -> Best {
        let bound = self.bound.max(answer.bound);
        if answer.exact || answer.end < self.end {
            return Best { card, end: answer.end, bound, exact: answer.exact };
        }
        Best { bound, ..self }
    }
}

#[derive(Default)]
struct Answers {
    best: Option<Best>,
    in_quarters: Option<u16>,
    /// Whether no further answer comes, and whether nobody asks for one.
    is_done: bool,
    is_left: bool,
}

type Shared = Arc<(Mutex<Answers>, Condvar)>;

pub struct SoFar(Shared);

impl SoFar {
    /// Begins to look for plans of a sheet.
    pub fn of(sheet: &[u8], memory: usize) -> SoFar {
        let shared = Shared::default();
        let (given, sheet) = (shared.clone(), sheet.to_vec());
        thread::spawn(move || {
            look(&sheet, memory.min(MEMORY), &given);
            lock(&given).is_done = true;
            given.1.notify_all();
        });
        SoFar(shared)
    }

    pub fn now(&self) -> Option<Best> {
        lock(&self.0).best.clone()
    }

    /// The best so far, waiting for a first one; none where the sheet is refused.
    pub fn at_least_one(&self) -> Option<Best> {
        let answers = self.0 .1.wait_while(lock(&self.0), |answers| answers.best.is_none() && !answers.is_done);
        answers.expect("no thread stops within").best.clone()
    }

    /// The earliest end in quarter hours with every time rounded up, where that was found at once.
    pub fn in_quarters(&self) -> Option<u16> {
        lock(&self.0).in_quarters
    }
}

impl Drop for SoFar {
    fn drop(&mut self) {
        lock(&self.0).is_left = true;
    }
}

fn lock(shared: &Shared) -> MutexGuard<'_, Answers> {
    shared.0.lock().expect("no thread stops within")
}

/// Looks for plans until one is planning's, or nobody asks any longer.
fn look(sheet: &[u8], memory: usize, shared: &Shared) {
    let Ok(reading) = read(sheet) else { return };
    let mut work = vec![0; memory];
    let mut ask = |sheet: &[u8], limit: u64| {
        let mut card = vec![0; card_length(reading.jobs.len())];
        plan_within(sheet, &mut card, &mut work, limit).ok().map(|answer| (card, answer))
    };
    let mut limit = 0;
    while let Some((card, answer)) = ask(sheet, limit) {
        let Limited { end, bound, exact } = answer;
        let mut answers = lock(shared);
        answers.best = Some(match answers.best.take() {
            Some(best) => best.or(card, answer),
            None => Best { card, end, bound, exact },
        });
        shared.1.notify_all();
        if exact || answers.is_left {
            return;
        }
        drop(answers);
        if let (FIRST, Some(rounded)) = (limit, in_quarters(sheet, &reading)) {
            let found = ask(&rounded, OF_QUARTERS).filter(|(_, answer)| answer.exact);
            lock(shared).in_quarters = found.map(|(_, answer)| answer.end);
        }
        limit = limit.saturating_mul(GROWTH).max(FIRST);
    }
}

/// The sheet with every time rounded up to a quarter of an hour; none where it has no other. A plan of it is one of the sheet too: each job
/// starts as late, and ends no later.
fn in_quarters(sheet: &[u8], reading: &Reading) -> Option<Vec<u8>> {
    let up = |minutes: u16| minutes.next_multiple_of(QUARTER);
    let jobs = reading.jobs.iter().map(|job| Job { minutes: up(job.minutes), arrival: up(job.arrival), ..*job }).collect();
    let rounded = Reading { jobs, changeover: up(reading.changeover), ..*reading };
    (rounded != *reading).then(|| Order::as_listed(rounded.jobs.len()).sheet(sheet, &rounded))
}

#[cfg(test)]
mod tests {
    use super::*;

    #[test]
    fn the_better_answer_stays() {
        let answer = |end, bound, exact| Limited { end, bound, exact };
        let best = |card: u8, end, bound, exact| Best { card: vec![card], end, bound, exact };
        let first = best(1, 310, 290, false);
        assert_eq!(first.clone().or(vec![2], answer(320, 298, false)), best(1, 310, 298, false));
        assert_eq!(first.clone().or(vec![2], answer(300, 280, false)), best(2, 300, 290, false));
        assert_eq!(first.clone().or(vec![2], answer(310, 295, false)), best(1, 310, 295, false));
        assert_eq!(first.or(vec![2], answer(310, 310, true)), best(2, 310, 310, true));
    }

    #[test]
    fn times_are_rounded_up() {
        let job = |minutes, arrival| Job { label_len: 1, modules: 1, minutes, arrival, departure: 7, ..Job::default() };
        let reading = |jobs: &[(u16, u16)], changeover| Reading {
            jobs: jobs.iter().map(|(minutes, arrival)| job(*minutes, *arrival)).collect(),
            modules: 2,
            changeover,
        };
        let sheet = |reading: &Reading| Order::as_listed(reading.jobs.len()).sheet(b"ab", reading);
        let rounded = |of: &Reading| in_quarters(&sheet(of), of).map(|sheet| read(&sheet).expect("a sheet"));
        assert_eq!(rounded(&reading(&[(1, 0), (1440, 16)], 5)), Some(reading(&[(15, 0), (1440, 30)], 15)));
        assert_eq!(rounded(&reading(&[(15, 0), (45, 1440)], 30)), None);
    }
}
