//! Planning with a limit against a reading of the requirements that tries every order: the plan on the card is a list plan of the sheet, no
//! plan ends before the bound, and what is marked is planning's.
use super::{left, sheets};
use crate::guarded::{Against, Guarded};
use crate::random::Random;
use crate::reference::planning::{every_list_plan, order_checks, Finished};
use crate::reference::reading::read;
use crate::{card_length, plan_within, Limited, Refusal, NO_LIMIT};

const WORK_LENGTHS: [usize; 4] = [0, 1, 735, 4096];
/// At 0 the bound is asked for, at the next ones the tie rule's phase is given up, at the last nothing is.
const LIMITS: [u64; 6] = [0, 1, 2, 8, 64, NO_LIMIT];

/// Planning with a limit: a sheet, a card, working memory and the limit.
pub type Planner = fn(&[u8], &mut [u8], &mut [u8], u64) -> Result<Limited, Refusal>;

/// Lent memory between guard pages.
pub struct Limits {
    planner: Planner,
    random: Random,
    sheet: Guarded,
    card: Guarded,
    work: Vec<Guarded>,
    pub compared: usize,
    /// How often each number was answered.
    pub answers: [usize; 20],
    /// Of the answered calls, how many were not marked, and how many had another plan than planning's.
    pub unmarked: usize,
    pub other_plans: usize,
}

/// Every list plan's card, and planning's with its end.
struct Known {
    cards: Vec<Vec<u8>>,
    best: Finished,
}

impl Known {
    fn of(sheet: &[u8]) -> Result<Known, u32> {
        let sheet = read(sheet)?;
        order_checks(&sheet)?;
        let (mut cards, mut best) = (Vec::new(), None::<Finished>);
        every_list_plan(&sheet, &mut |slots| {
            let end = slots.iter().map(|slot| slot.end).max().unwrap_or(0);
            let plan = Finished { end, order: slots.iter().map(|slot| slot.job).collect(), slots: slots.to_vec() };
            cards.push(plan.card());
            if best.as_ref().is_none_or(|best| (plan.end, &plan.order) < (best.end, &best.order)) {
                best = Some(plan);
            }
        });
        Ok(Known { cards, best: best.expect("jobs of which none precedes itself have an order") })
    }
}

impl Limits {
    /// Compares the library's call.
    pub fn new(seed: u64) -> Limits {
        Limits::of(plan_within, seed)
    }

    /// Compares another call: what is compared must find fault with a wrong one.
    pub fn of(planner: Planner, seed: u64) -> Limits {
        Limits {
            planner,
            random: Random::new(seed),
            sheet: Guarded::new(1024),
            card: Guarded::new(1024),
            work: WORK_LENGTHS.map(Guarded::new).into(),
            compared: 0,
            answers: [0; 20],
            unmarked: 0,
            other_plans: 0,
        }
    }

    fn compare(&mut self, sheet: &[u8]) {
        let known = Known::of(sheet);
        for limit in LIMITS {
            self.ask(sheet, &known, limit);
        }
        self.compared += 1;
    }

    fn ask(&mut self, sheet: &[u8], known: &Result<Known, u32>, limit: u64) {
        let against = if self.random.percent(50) { Against::End } else { Against::Front };
        let room = card_length(known.as_ref().map_or(0, |known| known.best.order.len())) + self.random.place(4);
        let place = self.random.place(WORK_LENGTHS.len());
        let (mut card, mut work) = (vec![0; room], vec![0; WORK_LENGTHS[place]]);
        self.random.fill(&mut card);
        self.random.fill(&mut work);
        let answer = (self.planner)(
            self.sheet.lend(against, sheet),
            self.card.lend(against, &card),
            self.work[place].lend(against, &work),
            limit,
        );
        let about = || format!("sheet {sheet:02x?}, limit {limit}, {against:?}");
        left::sheet(&self.sheet, sheet, &about);
        left::work(&self.work[place], &work, answer.is_ok(), &about);
        assert!(self.card.rest_untouched(), "{}", about());
        let after = self.card.left().to_vec();
        match (answer, known) {
            (Err(refusal), Err(number)) => {
                assert_eq!(refusal.number(), *number, "{}", about());
                assert_eq!(after, card, "{}", about());
                self.answers[*number as usize] += 1;
            }
            (Ok(answer), Ok(known)) => self.judge(&answer, known, (&card, &after), limit, &about),
            (answer, _) => panic!("{answer:?}: {}", about()),
        }
    }

    fn judge(&mut self, answer: &Limited, known: &Known, (card, after): (&[u8], &[u8]), limit: u64, about: &dyn Fn() -> String) {
        let written = card_length(known.best.order.len());
        let plan = &after[..written];
        assert!(known.cards.iter().any(|card| card == plan), "no list plan has this card: {}", about());
        assert_eq!(after[written..], card[written..], "{}", about());
        let end = u16::from_le_bytes([plan[written - 4], plan[written - 3]]);
        assert_eq!(answer.end, end, "{}", about());
        assert!(u32::from(answer.bound) <= known.best.end, "a plan ends before the bound: {}", about());
        let planning_s = plan == known.best.card();
        assert!(planning_s || !answer.exact, "marked, and not planning's: {}", about());
        assert!(answer.exact || limit < NO_LIMIT, "not marked without a limit: {}", about());
        self.answers[0] += 1;
        self.unmarked += usize::from(!answer.exact);
        self.other_plans += usize::from(!planning_s);
    }

    /// Sheets that read, of up to 7 jobs, some of which have modules that rest.
    pub fn good(&mut self, times: usize) {
        for _ in 0..times {
            let sheet = if self.random.percent(30) { sheets::resting(&mut self.random) } else { sheets::good(&mut self.random) };
            self.compare(&sheet.bytes());
        }
    }

    /// Sheets with a fault for one of the checks, some with another one.
    pub fn damaged(&mut self, check: u32, times: usize) {
        for _ in 0..times {
            let bytes = sheets::faulty(&mut self.random, check);
            self.compare(&bytes);
        }
    }
}
